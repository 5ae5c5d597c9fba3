//! The hashes h1, h2, h3 and the challenges drawn from them: SHAKE inputs 1,
//! 2, 3, 6, 7 and 8 of document 01.

use crate::aes::Block;
use crate::bytes::{number_bytes, Reader};
use crate::execution::{Check, Commitment, Offsets};
use crate::params::{EXECUTIONS, HASH_LEN, M1, M2, PARTIES, PRODUCT_OFFSETS, SALT_LEN};
use crate::shake::{shake128, Shake128};

pub type Hash = [u8; HASH_LEN];

/// "1: public key, message length, message, salt, then per execution 16
/// commitments, 16 output shares, key offset, 200 inverse offsets"
pub struct FirstHash(Shake128);

impl FirstHash {
    pub fn new(
        plaintext: &Block,
        ciphertext: &Block,
        message: &[u8],
        salt: &[u8; SALT_LEN],
    ) -> Self {
        let mut shake = Shake128::new();
        shake.absorb(&[1]);
        shake.absorb(plaintext);
        shake.absorb(ciphertext);
        shake.absorb(&(message.len() as u32).to_le_bytes());
        shake.absorb(message);
        shake.absorb(salt);
        Self(shake)
    }

    pub fn add_execution(
        &mut self,
        commitments: &[Commitment; PARTIES],
        outputs: &[Block; PARTIES],
        offsets: &Offsets,
    ) {
        self.0.absorb(commitments.as_flattened());
        self.0.absorb(outputs.as_flattened());
        self.0.absorb(&offsets.key);
        self.0.absorb(&offsets.inverses);
    }

    pub fn finish(self) -> Hash {
        self.0.output()
    }
}

/// "2: h1, all product offsets"
pub fn second_hash(h1: &Hash, product_offsets: &[[u32; PRODUCT_OFFSETS]]) -> Hash {
    shake128(&[&[2], h1, &number_bytes(product_offsets.as_flattened())])
}

/// "3: h2, then per execution the sums c, a, b and each party's c, a, b"
pub struct ThirdHash(Shake128);

impl ThirdHash {
    pub fn new(h2: &Hash) -> Self {
        let mut shake = Shake128::new();
        shake.absorb(&[3]);
        shake.absorb(h2);
        Self(shake)
    }

    pub fn add_execution(&mut self, sums: &Check, shares: &[Check; PARTIES]) {
        self.0.absorb(&sums.to_bytes());
        for share in shares {
            self.0.absorb(&share.to_bytes());
        }
    }

    pub fn finish(self) -> Hash {
        self.0.output()
    }
}

/// "6: h1; gives per execution ten first draws r."
pub fn first_challenges(h1: &Hash) -> [[u32; M1]; EXECUTIONS] {
    let bytes: [u8; 4 * M1 * EXECUTIONS] = shake128(&[&[6], h1]);
    let mut reader = Reader::new(&bytes);
    std::array::from_fn(|_| reader.numbers())
}

/// "7: h2; gives one second draw R each; a draw below 20 has 20 added."
pub fn second_challenges(h2: &Hash) -> [u32; EXECUTIONS] {
    let bytes: [u8; 4 * EXECUTIONS] = shake128(&[&[7], h2]);
    Reader::new(&bytes).numbers().map(second_challenge)
}

fn second_challenge(number: u32) -> u32 {
    if number < M2 as u32 {
        number + M2 as u32
    } else {
        number
    }
}

/// "8: h3; gives one number each, modulo 16 the hidden party."
pub fn hidden_parties(h3: &Hash) -> [usize; EXECUTIONS] {
    let bytes: [u8; 4 * EXECUTIONS] = shake128(&[&[8], h3]);
    Reader::new(&bytes).numbers().map(hidden_party)
}

fn hidden_party(number: u32) -> usize {
    number as usize % PARTIES
}

#[cfg(test)]
mod tests {
    use super::*;

    #[test]
    fn starred_cases_of_the_challenges() {
        assert_eq!([0, 19, 20].map(second_challenge), [20, 39, 20]);
        assert_eq!(hidden_party(31), 15);
    }
}
