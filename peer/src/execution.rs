//! Document 01, "One execution": tapes, parties, offsets and the check values.

use crate::aes::{walk_share, Block, Encryption};
use crate::bytes::{add_bytes, add_numbers, number_bytes, Reader};
use crate::field::{lift, multiply, sum_of_products, Weights};
use crate::params::{
    CHECK_LEN, HASH_LEN, M1, M2, PARTIES, PRODUCT_OFFSETS, P_POINTS, SALT_LEN, SBOXES, ST_POINTS,
    TAPE_LEN,
};
use crate::shake::shake128;
use crate::tree::{Seed, SeedTree};

pub type Salt = [u8; SALT_LEN];
pub type Commitment = [u8; HASH_LEN];

/// "0: salt, e, i, seed; gives the 32-byte commitment."
pub fn commitment(salt: &Salt, execution: usize, party: usize, seed: &Seed) -> Commitment {
    shake128(&[&[0], salt, &[execution as u8, party as u8], seed])
}

/// "4: salt, e, i, seed; gives a 380-byte tape: key share 16, inverse shares
/// 200, per j the extra points s and t (4 each), 21 product shares (4 each)."
pub struct Tape {
    key: Block,
    inverses: [u8; SBOXES],
    extra_s: [u32; M1],
    extra_t: [u32; M1],
    products: [u32; PRODUCT_OFFSETS],
}

impl Tape {
    pub fn new(salt: &Salt, execution: usize, party: usize, seed: &Seed) -> Self {
        let bytes: [u8; TAPE_LEN] = shake128(&[&[4], salt, &[execution as u8, party as u8], seed]);
        let mut reader = Reader::new(&bytes);
        let key = *reader.bytes();
        let inverses = *reader.bytes();
        let (mut extra_s, mut extra_t) = ([0; M1], [0; M1]);
        for j in 0..M1 {
            extra_s[j] = reader.number();
            extra_t[j] = reader.number();
        }
        let products = reader.numbers();
        debug_assert!(reader.is_empty());
        Self {
            key,
            inverses,
            extra_s,
            extra_t,
            products,
        }
    }
}

/// The key offset and the inverse offsets, fixed before the first challenge.
pub struct Offsets {
    pub key: Block,
    pub inverses: [u8; SBOXES],
}

impl Offsets {
    /// "An offset is the true value plus the sum of tape shares."
    fn new(encryption: &Encryption, tapes: &[Tape; PARTIES]) -> Self {
        let mut offsets = Self {
            key: encryption.key,
            inverses: encryption.inverses,
        };
        for tape in tapes {
            add_bytes(&mut offsets.key, &tape.key);
            add_bytes(&mut offsets.inverses, &tape.inverses);
        }
        offsets
    }
}

/// A party after its walk through AES.
pub struct Party {
    /// "Party 0 alone adds offsets and public constants."
    is_zero: bool,
    inputs: [u8; SBOXES],
    inverses: [u8; SBOXES],
    pub output: Block,
    extra_s: [u32; M1],
    extra_t: [u32; M1],
    /// The tape shares of P at 20 to 40, without offsets.
    products: [u32; PRODUCT_OFFSETS],
}

impl Party {
    pub fn new(party: usize, tape: &Tape, offsets: &Offsets, plaintext: &Block) -> Self {
        let is_zero = party == 0;
        let mut key = tape.key;
        let mut inverses = tape.inverses;
        if is_zero {
            add_bytes(&mut key, &offsets.key);
            add_bytes(&mut inverses, &offsets.inverses);
        }
        let walk = walk_share(&key, &inverses, is_zero.then_some(plaintext));
        Self {
            is_zero,
            inputs: walk.inputs,
            inverses,
            output: walk.output,
            extra_s: tape.extra_s,
            extra_t: tape.extra_t,
            products: tape.products,
        }
    }

    /// The party's shares of c, a and b.
    pub fn check_share(
        &self,
        first_challenge: &[u32; M1],
        product_offsets: &[u32; PRODUCT_OFFSETS],
        weights: &CheckWeights,
    ) -> Check {
        // "Its shares at 0 to 19 are public: party 0 has the sum of the r,
        // others 0; at 20 to 40 they are tape shares with product offsets."
        let mut p_values = [0; P_POINTS];
        p_values[M2..].copy_from_slice(&self.products);
        if self.is_zero {
            p_values[..M2].fill(sum(first_challenge));
            add_numbers(&mut p_values[M2..], product_offsets);
        }
        Check {
            c: weights.p.evaluate(&p_values),
            a: std::array::from_fn(|j| {
                let values = s_values(j, first_challenge, &self.inputs, &self.extra_s);
                weights.st.evaluate(&values)
            }),
            b: std::array::from_fn(|j| {
                let values = t_values(j, &self.inverses, &self.extra_t);
                weights.st.evaluate(&values)
            }),
        }
    }
}

/// The values of S_j at 0 to 20: "S_j(k) = r_j times the lifted input of S-box
/// j+10k for k below 20, and S_j(20) the extra point".
fn s_values(
    j: usize,
    first_challenge: &[u32; M1],
    inputs: &[u8; SBOXES],
    extra: &[u32; M1],
) -> [u32; ST_POINTS] {
    let mut values = [extra[j]; ST_POINTS];
    for (k, value) in values[..M2].iter_mut().enumerate() {
        *value = multiply(first_challenge[j], lift(inputs[j + M1 * k]));
    }
    values
}

/// The values of T_j at 0 to 20: "T_j likewise with lifted inverses, without r_j."
fn t_values(j: usize, inverses: &[u8; SBOXES], extra: &[u32; M1]) -> [u32; ST_POINTS] {
    let mut values = [extra[j]; ST_POINTS];
    for (k, value) in values[..M2].iter_mut().enumerate() {
        *value = lift(inverses[j + M1 * k]);
    }
    values
}

fn sum(numbers: &[u32]) -> u32 {
    numbers.iter().fold(0, |sum, number| sum ^ number)
}

/// The Lagrange weights of one execution's second challenge R.
pub struct CheckWeights {
    st: Weights<ST_POINTS>,
    p: Weights<P_POINTS>,
}

impl CheckWeights {
    pub fn at(second_challenge: u32) -> Self {
        Self {
            st: Weights::at(second_challenge),
            p: Weights::at(second_challenge),
        }
    }
}

/// The Lagrange weights for the values of S_j and T_j at 20 to 40.
pub struct ProductWeights([Weights<ST_POINTS>; PRODUCT_OFFSETS]);

impl ProductWeights {
    pub fn new() -> Self {
        Self(std::array::from_fn(|k| Weights::at((M2 + k) as u32)))
    }
}

/// "Opened are c = P(R), a_j = S_j(R), b_j = T_j(R), with shares": the sums or
/// one party's shares.
#[derive(Clone, Copy, Default, PartialEq, Eq)]
pub struct Check {
    pub c: u32,
    pub a: [u32; M1],
    pub b: [u32; M1],
}

impl Check {
    pub fn read(reader: &mut Reader) -> Self {
        Self {
            c: reader.number(),
            a: reader.numbers(),
            b: reader.numbers(),
        }
    }

    /// "c (4), a (40), b (40)"
    pub fn to_bytes(self) -> [u8; CHECK_LEN] {
        let bytes = [
            number_bytes(&[self.c]),
            number_bytes(&self.a),
            number_bytes(&self.b),
        ]
        .concat();
        bytes.try_into().expect("21 numbers of four bytes")
    }

    pub fn add(&mut self, other: &Check) {
        self.c ^= other.c;
        add_numbers(&mut self.a, &other.a);
        add_numbers(&mut self.b, &other.b);
    }

    pub fn sum<'a>(checks: impl IntoIterator<Item = &'a Check>) -> Self {
        let mut sum = Self::default();
        for check in checks {
            sum.add(check);
        }
        sum
    }

    /// Whether c is the sum of a_j times b_j.
    pub fn holds(&self) -> bool {
        self.c == sum_of_products(&self.a, &self.b)
    }
}

/// An execution as the signer knows it, with all sixteen parties.
pub struct Execution {
    pub tree: SeedTree,
    pub commitments: [Commitment; PARTIES],
    pub offsets: Offsets,
    parties: [Party; PARTIES],
}

impl Execution {
    /// Everything that stands before the first challenge.
    pub fn new(
        salt: &Salt,
        execution: usize,
        root_seed: &Seed,
        encryption: &Encryption,
        plaintext: &Block,
    ) -> Self {
        let tree = SeedTree::from_root(salt, execution, root_seed);
        let commitments =
            std::array::from_fn(|party| commitment(salt, execution, party, tree.leaf(party)));
        let tapes =
            std::array::from_fn(|party| Tape::new(salt, execution, party, tree.leaf(party)));
        let offsets = Offsets::new(encryption, &tapes);
        let parties =
            std::array::from_fn(|party| Party::new(party, &tapes[party], &offsets, plaintext));
        Self {
            tree,
            commitments,
            offsets,
            parties,
        }
    }

    pub fn outputs(&self) -> [Block; PARTIES] {
        std::array::from_fn(|party| self.parties[party].output)
    }

    /// The offsets of P at 20 to 40: the true values, "P is the sum of S_j times
    /// T_j", plus the sum of the tape shares.
    pub fn product_offsets(
        &self,
        encryption: &Encryption,
        first_challenge: &[u32; M1],
        weights: &ProductWeights,
    ) -> [u32; PRODUCT_OFFSETS] {
        // the true extra points and, to begin with, the tape sums at 20 to 40
        let (mut extra_s, mut extra_t) = ([0; M1], [0; M1]);
        let mut product_offsets = [0; PRODUCT_OFFSETS];
        for party in &self.parties {
            add_numbers(&mut extra_s, &party.extra_s);
            add_numbers(&mut extra_t, &party.extra_t);
            add_numbers(&mut product_offsets, &party.products);
        }
        for j in 0..M1 {
            let s = s_values(j, first_challenge, &encryption.inputs, &extra_s);
            let t = t_values(j, &encryption.inverses, &extra_t);
            for (offset, weights) in product_offsets.iter_mut().zip(&weights.0) {
                *offset ^= multiply(weights.evaluate(&s), weights.evaluate(&t));
            }
        }
        product_offsets
    }

    /// Every party's shares of c, a and b under both challenges.
    pub fn check_shares(
        &self,
        first_challenge: &[u32; M1],
        product_offsets: &[u32; PRODUCT_OFFSETS],
        second_challenge: u32,
    ) -> [Check; PARTIES] {
        let weights = CheckWeights::at(second_challenge);
        std::array::from_fn(|party| {
            self.parties[party].check_share(first_challenge, product_offsets, &weights)
        })
    }
}

#[cfg(test)]
mod tests {
    use super::*;

    fn example() -> (Encryption, Block, Execution) {
        let plaintext = [0x31; 16];
        let encryption = Encryption::new(&[0x42; 16], &plaintext);
        assert_eq!(encryption.zero_sbox(), None);
        let execution = Execution::new(&[1; SALT_LEN], 7, &[2; 16], &encryption, &plaintext);
        (encryption, plaintext, execution)
    }

    #[test]
    fn sbox_137_has_j_7_and_k_13() {
        assert_eq!((137 % M1, 137 / M1), (7, 13));
        let mut inverses = [0; SBOXES];
        inverses[137] = 1;
        for j in 0..M1 {
            let values = t_values(j, &inverses, &[0; M1]);
            for (k, &value) in values.iter().enumerate() {
                assert_eq!(value, u32::from((j, k) == (7, 13)));
            }
        }
    }

    #[test]
    fn output_shares_add_to_the_ciphertext() {
        let (encryption, _, execution) = example();
        let outputs = execution.outputs();
        assert_eq!(crate::bytes::sum_bytes(&outputs), encryption.ciphertext);
    }

    #[test]
    fn honest_check_values_hold_at_any_second_challenge() {
        let (encryption, _, execution) = example();
        let first_challenge = std::array::from_fn(|j| 0x9e37_79b9_u32.wrapping_mul(j as u32 + 1));
        let offsets =
            execution.product_offsets(&encryption, &first_challenge, &ProductWeights::new());
        for second_challenge in [20, 21, 39, 40, 41, 0x1234_5678, u32::MAX] {
            let shares = execution.check_shares(&first_challenge, &offsets, second_challenge);
            assert!(Check::sum(&shares).holds());
        }
    }

    #[test]
    fn a_wrong_inverse_fails_the_check() {
        let (mut encryption, plaintext, _) = example();
        encryption.inverses[57] ^= 1;
        let execution = Execution::new(&[1; SALT_LEN], 7, &[2; 16], &encryption, &plaintext);
        let first_challenge = [0x0102_0304; M1];
        let offsets =
            execution.product_offsets(&encryption, &first_challenge, &ProductWeights::new());
        let shares = execution.check_shares(&first_challenge, &offsets, 0x1234_5678);
        assert!(!Check::sum(&shares).holds());
    }
}
