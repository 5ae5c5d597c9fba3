//! The Banquet card seal of document 01, written plainly.
//!
//! This crate is a peer for differential tests and benchmarks. It follows
//! document 01 sentence by sentence (quoted in the comments) and uses the usual
//! names: a seal is a *signature*, a draw a *challenge*.
//!
//! The calls answer `Ok(())` or a [`Refusal`]. The slices lent for writing are
//! left as document 01 says: after refusals 13 to 17 and on success the first
//! 65,536 bytes of `work` are zero; every other refusal writes nothing.

#![forbid(unsafe_code)]

pub mod aes;
mod bytes;
mod card;
mod counters;
mod execution;
pub mod field;
mod opening;
pub mod params;
pub mod shake;
mod signature;
mod transcript;
mod tree;

pub use card::{card_output, verify_card};
pub use counters::{counters, reset_counters, Counters};
pub use opening::{open, verify_opening};
pub use signature::{frame, sign, verify};

use aes::{Block, Encryption};
use bytes::Reader;
use params::{PUBLIC_KEY_LEN, WORK_LEN};

/// A refusal of "What the lock turns down".
#[derive(Clone, Copy, Debug, PartialEq, Eq)]
pub struct Refusal {
    pub number: u8,
    pub place: u8,
}

impl Refusal {
    /// "Place is 0 unless named."
    fn of(number: u8) -> Self {
        Self { number, place: 0 }
    }

    fn at(number: u8, place: usize) -> Self {
        let place = place.try_into().expect("places end at 199");
        Self { number, place }
    }
}

/// "public key (plaintext 16 bytes, ciphertext 16 bytes)"
struct PublicKey {
    plaintext: Block,
    ciphertext: Block,
}

impl PublicKey {
    /// "2. The public key isn't 32 bytes"
    fn read(public_key: &[u8]) -> Result<Self, Refusal> {
        if public_key.len() != PUBLIC_KEY_LEN {
            return Err(Refusal::of(2));
        }
        let mut reader = Reader::new(public_key);
        Ok(Self {
            plaintext: *reader.bytes(),
            ciphertext: *reader.bytes(),
        })
    }
}

/// Makes the public key for `key` and `plaintext`: writes its 32 bytes to `out`.
///
/// Refuses with 1, 2, 6, 11, in this order.
pub fn make_public_key(key: &[u8], plaintext: &[u8], out: &mut [u8]) -> Result<(), Refusal> {
    let key = key.try_into().map_err(|_| Refusal::of(1))?;
    let plaintext = plaintext.try_into().map_err(|_| Refusal::of(2))?;
    let out = out.get_mut(..PUBLIC_KEY_LEN).ok_or(Refusal::of(6))?;
    let encryption = nonzero_encryption(key, plaintext)?;

    let (plaintext_out, ciphertext_out) = out.split_at_mut(plaintext.len());
    plaintext_out.copy_from_slice(plaintext);
    ciphertext_out.copy_from_slice(&encryption.ciphertext);
    Ok(())
}

/// "11. Some S-box input under the lent key is zero; place is the lowest S-box."
fn nonzero_encryption(key: &Block, plaintext: &Block) -> Result<Encryption, Refusal> {
    let encryption = Encryption::new(key, plaintext);
    match encryption.zero_sbox() {
        Some(sbox) => Err(Refusal::at(11, sbox)),
        None => Ok(encryption),
    }
}

/// 11, then "12. The key doesn't take the plaintext to the ciphertext."
fn good_encryption(key: &Block, public_key: &PublicKey) -> Result<Encryption, Refusal> {
    let encryption = nonzero_encryption(key, &public_key.plaintext)?;
    if encryption.ciphertext != public_key.ciphertext {
        return Err(Refusal::of(12));
    }
    Ok(encryption)
}

/// "7. The work slice (all calls but public keys) is under 65,536 bytes."
fn check_work(work: &[u8]) -> Result<(), Refusal> {
    if work.len() < WORK_LEN {
        return Err(Refusal::of(7));
    }
    Ok(())
}

/// "After 13 to 17, and on success, the work slice's first 65,536 bytes are
/// zero and its rest untouched." This crate keeps its scratch values elsewhere.
fn clear_work(work: &mut [u8]) {
    work[..WORK_LEN].fill(0);
}
