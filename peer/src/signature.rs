//! Signing a message and verifying a signature ("seal" in document 01).

use crate::aes::{Block, Encryption};
use crate::bytes::{number_bytes, sum_bytes, Reader};
use crate::execution::{
    commitment, Check, CheckWeights, Commitment, Execution, Offsets, Party, ProductWeights, Salt,
    Tape,
};
use crate::params::{
    EXECUTIONS, FRAME_LEN, HEAD_LEN, M1, MAX_MESSAGE_LEN, PARTIES, PRODUCT_OFFSETS, ROOT_SEEDS_LEN,
    SEED_LEN, SIGNATURE_LEN, TREE_DEPTH,
};
use crate::transcript::{
    first_challenges, hidden_parties, second_challenges, second_hash, FirstHash, ThirdHash,
};
use crate::tree::{Seed, SeedTree};
use crate::{check_work, clear_work, good_encryption, PublicKey, Refusal};

/// Signs `message`: writes the 19,776 bytes of the signature to `out`.
///
/// Refuses with 1, 2, 3, 4, 5, 6, 7, 11, 12, in this order.
pub fn sign(
    key: &[u8],
    public_key: &[u8],
    message: &[u8],
    salt: &[u8],
    seeds: &[u8],
    out: &mut [u8],
    work: &mut [u8],
) -> Result<(), Refusal> {
    let key = key.try_into().map_err(|_| Refusal::of(1))?;
    let public_key = PublicKey::read(public_key)?;
    check_message(message)?;
    let salt = salt.try_into().map_err(|_| Refusal::of(4))?;
    let seeds: &[u8; ROOT_SEEDS_LEN] = seeds.try_into().map_err(|_| Refusal::of(5))?;
    let out = out.get_mut(..SIGNATURE_LEN).ok_or(Refusal::of(6))?;
    check_work(work)?;
    let encryption = good_encryption(key, &public_key)?;

    out.copy_from_slice(&signature(&encryption, &public_key, message, salt, seeds));
    clear_work(work);
    Ok(())
}

fn check_message(message: &[u8]) -> Result<(), Refusal> {
    if message.len() > MAX_MESSAGE_LEN {
        return Err(Refusal::of(3));
    }
    Ok(())
}

fn signature(
    encryption: &Encryption,
    public_key: &PublicKey,
    message: &[u8],
    salt: &Salt,
    seeds: &[u8; ROOT_SEEDS_LEN],
) -> Vec<u8> {
    let PublicKey {
        plaintext,
        ciphertext,
    } = public_key;

    // commit to the executions: h1 and the first challenges r
    let (seeds, _) = seeds.as_chunks::<SEED_LEN>();
    let mut executions = Vec::with_capacity(EXECUTIONS);
    for (e, seed) in seeds.iter().enumerate() {
        executions.push(Execution::new(salt, e, seed, encryption, plaintext));
    }
    let mut first_hash = FirstHash::new(plaintext, ciphertext, message, salt);
    for execution in &executions {
        first_hash.add_execution(
            &execution.commitments,
            &execution.outputs(),
            &execution.offsets,
        );
    }
    let h1 = first_hash.finish();
    let first = first_challenges(&h1);

    // commit to the products: h2 and the second challenges R
    let weights = ProductWeights::new();
    let mut product_offsets = [[0; PRODUCT_OFFSETS]; EXECUTIONS];
    for (e, execution) in executions.iter().enumerate() {
        product_offsets[e] = execution.product_offsets(encryption, &first[e], &weights);
    }
    let h2 = second_hash(&h1, &product_offsets);
    let second = second_challenges(&h2);

    // open the check values: h3 and the hidden parties
    let mut third_hash = ThirdHash::new(&h2);
    let mut checks = [Check::default(); EXECUTIONS];
    for (e, execution) in executions.iter().enumerate() {
        let shares = execution.check_shares(&first[e], &product_offsets[e], second[e]);
        checks[e] = Check::sum(&shares);
        third_hash.add_execution(&checks[e], &shares);
    }
    let h3 = third_hash.finish();
    let hidden = hidden_parties(&h3);

    // "salt, h1, h3 (32 each), then 41 frames of 480: four sibling seeds from
    // the top down (64), hidden commitment (32), key offset (16), inverse
    // offsets (200), product offsets (84), c (4), a (40), b (40)"
    let mut signature = Vec::with_capacity(SIGNATURE_LEN);
    signature.extend_from_slice(salt);
    signature.extend_from_slice(&h1);
    signature.extend_from_slice(&h3);
    for (e, execution) in executions.iter().enumerate() {
        signature.extend_from_slice(execution.tree.siblings(hidden[e]).as_flattened());
        signature.extend_from_slice(&execution.commitments[hidden[e]]);
        signature.extend_from_slice(&execution.offsets.key);
        signature.extend_from_slice(&execution.offsets.inverses);
        signature.extend_from_slice(&number_bytes(&product_offsets[e]));
        signature.extend_from_slice(&checks[e].to_bytes());
    }
    signature
}

/// "A reader that wants frame e is handed that part of the caller's own file,
/// or an empty part if e is over 40 or the file hasn't exactly a seal's length."
pub fn frame(signature: &[u8], execution: usize) -> &[u8] {
    if execution >= EXECUTIONS || signature.len() != SIGNATURE_LEN {
        return &[];
    }
    &signature[HEAD_LEN + FRAME_LEN * execution..][..FRAME_LEN]
}

/// One frame of a signature, read.
struct Frame {
    siblings: [Seed; TREE_DEPTH],
    hidden_commitment: Commitment,
    offsets: Offsets,
    product_offsets: [u32; PRODUCT_OFFSETS],
    check: Check,
}

impl Frame {
    fn read(frame: &[u8]) -> Self {
        let mut reader = Reader::new(frame);
        let frame = Self {
            siblings: reader.strings(),
            hidden_commitment: *reader.bytes(),
            offsets: Offsets {
                key: *reader.bytes(),
                inverses: *reader.bytes(),
            },
            product_offsets: reader.numbers(),
            check: Check::read(&mut reader),
        };
        debug_assert!(reader.is_empty());
        frame
    }
}

/// Verifies a signature of `message`.
///
/// Refuses with 2, 3, 6, 7, 15, 16, 17, in this order.
pub fn verify(
    public_key: &[u8],
    message: &[u8],
    signature: &[u8],
    work: &mut [u8],
) -> Result<(), Refusal> {
    let public_key = PublicKey::read(public_key)?;
    check_message(message)?;
    if signature.len() != SIGNATURE_LEN {
        return Err(Refusal::of(6));
    }
    check_work(work)?;

    let answer = verify_checked(&public_key, message, signature);
    clear_work(work);
    answer
}

/// Conditions 15, 16 and 17.
fn verify_checked(public_key: &PublicKey, message: &[u8], signature: &[u8]) -> Result<(), Refusal> {
    let PublicKey {
        plaintext,
        ciphertext,
    } = public_key;
    let mut head = Reader::new(signature);
    let (salt, h1, h3) = (head.bytes(), head.bytes(), head.bytes());
    let frames: [Frame; EXECUTIONS] = std::array::from_fn(|e| Frame::read(frame(signature, e)));

    // "15. c isn't the sum of a_j times b_j; place is the lowest such execution"
    if let Some(e) = frames.iter().position(|frame| !frame.check.holds()) {
        return Err(Refusal::at(15, e));
    }

    // the challenges from the signature's own hashes
    let first = first_challenges(h1);
    let product_offsets: [_; EXECUTIONS] = std::array::from_fn(|e| frames[e].product_offsets);
    let h2 = second_hash(h1, &product_offsets);
    let second = second_challenges(&h2);
    let hidden = hidden_parties(h3);

    let mut first_hash = FirstHash::new(plaintext, ciphertext, message, salt);
    let mut third_hash = ThirdHash::new(&h2);
    for (e, frame) in frames.iter().enumerate() {
        let all = all_parties(public_key, salt, e, frame, &first[e], second[e], hidden[e]);
        first_hash.add_execution(&all.commitments, &all.outputs, &frame.offsets);
        third_hash.add_execution(&frame.check, &all.checks);
    }

    // "16. The recomputed h1 differs. 17. The recomputed h3 differs."
    if first_hash.finish() != *h1 {
        return Err(Refusal::of(16));
    }
    if third_hash.finish() != *h3 {
        return Err(Refusal::of(17));
    }
    Ok(())
}

/// What all sixteen parties of an execution have shown.
struct AllParties {
    commitments: [Commitment; PARTIES],
    outputs: [Block; PARTIES],
    checks: [Check; PARTIES],
}

/// Recomputes the shown parties; "The checker works hidden shares out as sum
/// minus the rest, the hidden output share from the ciphertext."
fn all_parties(
    public_key: &PublicKey,
    salt: &Salt,
    execution: usize,
    frame: &Frame,
    first_challenge: &[u32; M1],
    second_challenge: u32,
    hidden: usize,
) -> AllParties {
    let tree = SeedTree::from_siblings(salt, execution, hidden, &frame.siblings);
    let weights = CheckWeights::at(second_challenge);
    let mut all = AllParties {
        commitments: [frame.hidden_commitment; PARTIES],
        outputs: [[0; 16]; PARTIES],
        checks: [Check::default(); PARTIES],
    };
    for shown in (0..PARTIES).filter(|&party| party != hidden) {
        let seed = tree.leaf(shown);
        all.commitments[shown] = commitment(salt, execution, shown, seed);
        let tape = Tape::new(salt, execution, shown, seed);
        let party = Party::new(shown, &tape, &frame.offsets, &public_key.plaintext);
        all.outputs[shown] = party.output;
        all.checks[shown] = party.check_share(first_challenge, &frame.product_offsets, &weights);
    }
    // the hidden entries are still zero and add nothing to these sums
    let output_sum = sum_bytes(&all.outputs);
    all.outputs[hidden] = sum_bytes([&public_key.ciphertext, &output_sum]);
    let check_sum = Check::sum(&all.checks);
    all.checks[hidden] = Check::sum([&frame.check, &check_sum]);
    all
}
