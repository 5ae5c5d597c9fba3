//! Opening one execution under given challenges and verifying such an opening.

use crate::aes::Block;
use crate::bytes::{number_bytes, sum_bytes, Reader};
use crate::execution::{
    commitment, Check, CheckWeights, Commitment, Execution, Offsets, Party, ProductWeights, Salt,
    Tape,
};
use crate::params::{
    EXECUTIONS, FIRST_CHALLENGE_LEN, M1, M2, OPENING_LEN, PARTIES, PRODUCT_OFFSETS, TREE_DEPTH,
};
use crate::tree::{Seed, SeedTree};
use crate::{check_work, clear_work, good_encryption, PublicKey, Refusal};

/// Opens one execution: writes the 2,554 bytes of the opening to `out`.
///
/// Refuses with 1, 2, 4, 5, 6, 7, 8, 9, 10, 11, 12, in this order.
#[allow(clippy::too_many_arguments)]
pub fn open(
    key: &[u8],
    public_key: &[u8],
    salt: &[u8],
    seed: &[u8],
    execution: u32,
    first_challenge: &[u8],
    second_challenge: u32,
    hidden: u32,
    out: &mut [u8],
    work: &mut [u8],
) -> Result<(), Refusal> {
    let key = key.try_into().map_err(|_| Refusal::of(1))?;
    let public_key = PublicKey::read(public_key)?;
    let salt: &Salt = salt.try_into().map_err(|_| Refusal::of(4))?;
    let first_challenge: &[u8; FIRST_CHALLENGE_LEN] =
        first_challenge.try_into().map_err(|_| Refusal::of(4))?;
    let seed: &Seed = seed.try_into().map_err(|_| Refusal::of(5))?;
    let out = out.get_mut(..OPENING_LEN).ok_or(Refusal::of(6))?;
    check_work(work)?;
    check_numbers(execution, hidden, second_challenge)?;
    let encryption = good_encryption(key, &public_key)?;

    let (e, hidden) = (execution as usize, hidden as usize);
    let first_challenge = Reader::new(first_challenge).numbers();
    let execution = Execution::new(salt, e, seed, &encryption, &public_key.plaintext);
    let product_offsets =
        execution.product_offsets(&encryption, &first_challenge, &ProductWeights::new());
    let opening = Opening {
        salt: *salt,
        execution: e as u8,
        commitments: execution.commitments,
        outputs: execution.outputs(),
        checks: execution.check_shares(&first_challenge, &product_offsets, second_challenge),
        siblings: execution.tree.siblings(hidden),
        offsets: execution.offsets,
        first_challenge,
        product_offsets,
        second_challenge,
        hidden: hidden as u8,
    };
    out.copy_from_slice(&opening.to_bytes());
    clear_work(work);
    Ok(())
}

/// "8. An opening's execution is over 40, whether lent for opening or read in a
/// check; 9 and 10 likewise. 9. Its hidden party is over 15. 10. Its second
/// draw is below 20."
fn check_numbers(execution: u32, hidden: u32, second_challenge: u32) -> Result<(), Refusal> {
    if execution >= EXECUTIONS as u32 {
        return Err(Refusal::of(8));
    }
    if hidden >= PARTIES as u32 {
        return Err(Refusal::of(9));
    }
    if second_challenge < M2 as u32 {
        return Err(Refusal::of(10));
    }
    Ok(())
}

/// "An opening is 2,554 bytes: salt 32, e 1, commitments 512, output shares
/// 256, key offset 16, inverse offsets 200, r 40, product offsets 84, R 4,
/// shares of c 64, of a 640, of b 640 (by party), hidden party 1, sibling
/// seeds 64."
struct Opening {
    salt: Salt,
    execution: u8,
    commitments: [Commitment; PARTIES],
    outputs: [Block; PARTIES],
    offsets: Offsets,
    first_challenge: [u32; M1],
    product_offsets: [u32; PRODUCT_OFFSETS],
    second_challenge: u32,
    checks: [Check; PARTIES],
    hidden: u8,
    siblings: [Seed; TREE_DEPTH],
}

impl Opening {
    fn to_bytes(&self) -> Vec<u8> {
        let mut bytes = Vec::with_capacity(OPENING_LEN);
        bytes.extend_from_slice(&self.salt);
        bytes.push(self.execution);
        bytes.extend_from_slice(self.commitments.as_flattened());
        bytes.extend_from_slice(self.outputs.as_flattened());
        bytes.extend_from_slice(&self.offsets.key);
        bytes.extend_from_slice(&self.offsets.inverses);
        bytes.extend_from_slice(&number_bytes(&self.first_challenge));
        bytes.extend_from_slice(&number_bytes(&self.product_offsets));
        bytes.extend_from_slice(&number_bytes(&[self.second_challenge]));
        for check in &self.checks {
            bytes.extend_from_slice(&number_bytes(&[check.c]));
        }
        for check in &self.checks {
            bytes.extend_from_slice(&number_bytes(&check.a));
        }
        for check in &self.checks {
            bytes.extend_from_slice(&number_bytes(&check.b));
        }
        bytes.push(self.hidden);
        bytes.extend_from_slice(self.siblings.as_flattened());
        bytes
    }

    fn read(opening: &[u8]) -> Self {
        let mut reader = Reader::new(opening);
        let salt = *reader.bytes();
        let execution = reader.byte();
        let commitments = reader.strings();
        let outputs = reader.strings();
        let offsets = Offsets {
            key: *reader.bytes(),
            inverses: *reader.bytes(),
        };
        let first_challenge = reader.numbers();
        let product_offsets = reader.numbers();
        let second_challenge = reader.number();
        let mut checks = [Check::default(); PARTIES];
        for check in &mut checks {
            check.c = reader.number();
        }
        for check in &mut checks {
            check.a = reader.numbers();
        }
        for check in &mut checks {
            check.b = reader.numbers();
        }
        let hidden = reader.byte();
        let siblings = reader.strings();
        debug_assert!(reader.is_empty());
        Self {
            salt,
            execution,
            commitments,
            outputs,
            offsets,
            first_challenge,
            product_offsets,
            second_challenge,
            checks,
            hidden,
            siblings,
        }
    }
}

/// Verifies an opening of one execution.
///
/// Refuses with 2, 6, 7, 8, 9, 10, 13, 14, 15, in this order.
pub fn verify_opening(public_key: &[u8], opening: &[u8], work: &mut [u8]) -> Result<(), Refusal> {
    let public_key = PublicKey::read(public_key)?;
    if opening.len() != OPENING_LEN {
        return Err(Refusal::of(6));
    }
    check_work(work)?;
    let opening = Opening::read(opening);
    check_numbers(
        u32::from(opening.execution),
        u32::from(opening.hidden),
        opening.second_challenge,
    )?;

    let answer = verify_checked(&public_key, &opening);
    clear_work(work);
    answer
}

/// Conditions 13, 14 and 15.
fn verify_checked(public_key: &PublicKey, opening: &Opening) -> Result<(), Refusal> {
    let salt = &opening.salt;
    let execution = usize::from(opening.execution);
    let hidden = usize::from(opening.hidden);
    let tree = SeedTree::from_siblings(salt, execution, hidden, &opening.siblings);
    let shown = || (0..PARTIES).filter(|&party| party != hidden);

    // "13. In an opening a shown party's commitment differs from the
    // recomputed one; place is the lowest party."
    for party in shown() {
        if commitment(salt, execution, party, tree.leaf(party)) != opening.commitments[party] {
            return Err(Refusal::at(13, party));
        }
    }

    // "14. In an opening a shown party's output, c, a or b share differs:
    // parties in order, and within each its shares, up to the first
    // difference; place is that party."
    let weights = CheckWeights::at(opening.second_challenge);
    for party in shown() {
        let tape = Tape::new(salt, execution, party, tree.leaf(party));
        let recomputed = Party::new(party, &tape, &opening.offsets, &public_key.plaintext);
        if recomputed.output != opening.outputs[party] {
            return Err(Refusal::at(14, party));
        }
        let check =
            recomputed.check_share(&opening.first_challenge, &opening.product_offsets, &weights);
        if check != opening.checks[party] {
            return Err(Refusal::at(14, party));
        }
    }

    // "Or, none differing, the output shares miss the ciphertext (place 16)."
    if sum_bytes(&opening.outputs) != public_key.ciphertext {
        return Err(Refusal::at(14, PARTIES));
    }

    // "15. c isn't the sum of a_j times b_j; place is [...] an opening's own."
    // "Sums are taken from the shares."
    if !Check::sum(&opening.checks).holds() {
        return Err(Refusal::at(15, execution));
    }
    Ok(())
}
