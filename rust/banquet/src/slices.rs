//! The six calls on slices of any length, as the library exports them.
//!
//! A length that does not fit is refused. After an accepted call the first bytes of `out` are the
//! result and the rest is as it was; after a refusal all of it is. After an accepted call and after
//! the refusals 13 to 17 the first 65,536 bytes of `work` are zero and the rest is as it was; after
//! every other refusal all of it is.
//!
//! [`public_key`], [`sign`] and [`open`], which take secrets, end with [`wipe_stack`], whatever the
//! answer is.

use crate::ffi;
use crate::refusal::{answer, Refusal};
use crate::stack::wipe_stack;

/// Makes the public key of `key` and `plaintext` (16 bytes each): the first 32 bytes of `out`.
///
/// # Errors
///
/// Those of numbers 1, 2, 6 and 11; the first that applies.
pub fn public_key(key: &[u8], plaintext: &[u8], out: &mut [u8]) -> Result<(), Refusal> {
    // SAFETY: Rust's slices keep the rules of `ffi`; so in all six calls.
    let code = unsafe {
        ffi::banquet_public_key(
            key.as_ptr(),
            key.len(),
            plaintext.as_ptr(),
            plaintext.len(),
            out.as_mut_ptr(),
            out.len(),
        )
    };
    wipe_stack();
    answer(code)
}

/// Signs a message of at most 32,768 bytes, under a salt of 32 bytes and 656 bytes of seeds, both
/// random and new: the first 19,776 bytes of `out`.
///
/// # Errors
///
/// Those of numbers 1, 2, 3, 4, 5, 6, 7, 11 and 12; the first that applies.
pub fn sign(
    key: &[u8],
    public_key: &[u8],
    message: &[u8],
    salt: &[u8],
    seeds: &[u8],
    out: &mut [u8],
    work: &mut [u8],
) -> Result<(), Refusal> {
    // SAFETY: as above.
    let code = unsafe {
        ffi::banquet_sign(
            key.as_ptr(),
            key.len(),
            public_key.as_ptr(),
            public_key.len(),
            message.as_ptr(),
            message.len(),
            salt.as_ptr(),
            salt.len(),
            seeds.as_ptr(),
            seeds.len(),
            out.as_mut_ptr(),
            out.len(),
            work.as_mut_ptr(),
            work.len(),
        )
    };
    wipe_stack();
    answer(code)
}

/// Checks a signature of `message`. It holds only if the answer is `Ok`.
///
/// # Errors
///
/// Those of numbers 2, 3, 6, 7, 15, 16 and 17; the first that applies.
pub fn verify(
    public_key: &[u8],
    message: &[u8],
    signature: &[u8],
    work: &mut [u8],
) -> Result<(), Refusal> {
    // SAFETY: as above.
    answer(unsafe {
        ffi::banquet_verify(
            public_key.as_ptr(),
            public_key.len(),
            message.as_ptr(),
            message.len(),
            signature.as_ptr(),
            signature.len(),
            work.as_mut_ptr(),
            work.len(),
        )
    })
}

/// Opens execution `execution` (0 to 40) below the root seed `seed` (16 bytes) under a first
/// challenge of 40 bytes, a second challenge (20 or more) and a hidden party (0 to 15): the first
/// 2,554 bytes of `out`.
///
/// # Errors
///
/// Those of numbers 1, 2, 4 to 10, 11 and 12; the first that applies.
#[allow(clippy::too_many_arguments)]
pub fn open(
    key: &[u8],
    public_key: &[u8],
    salt: &[u8],
    seed: &[u8],
    execution: u32,
    first_challenge: &[u8],
    second_challenge: u32,
    hidden: u32,
    out: &mut [u8],
    work: &mut [u8],
) -> Result<(), Refusal> {
    // SAFETY: as above.
    let code = unsafe {
        ffi::banquet_open(
            key.as_ptr(),
            key.len(),
            public_key.as_ptr(),
            public_key.len(),
            salt.as_ptr(),
            salt.len(),
            seed.as_ptr(),
            seed.len(),
            execution,
            first_challenge.as_ptr(),
            first_challenge.len(),
            second_challenge,
            hidden,
            out.as_mut_ptr(),
            out.len(),
            work.as_mut_ptr(),
            work.len(),
        )
    };
    wipe_stack();
    answer(code)
}

/// Checks an opening. It holds only if the answer is `Ok`.
///
/// # Errors
///
/// Those of numbers 2, 6, 7, 8, 9, 10, 13, 14 and 15; the first that applies.
pub fn verify_opening(public_key: &[u8], opening: &[u8], work: &mut [u8]) -> Result<(), Refusal> {
    // SAFETY: as above.
    answer(unsafe {
        ffi::banquet_verify_opening(
            public_key.as_ptr(),
            public_key.len(),
            opening.as_ptr(),
            opening.len(),
            work.as_mut_ptr(),
            work.len(),
        )
    })
}

/// Checks a card given as text. It holds only if the answer is `Ok`, and then under the public key on
/// the card: compare the text's first 64 digits with the public key that you trust.
///
/// # Errors
///
/// Number 18 before all others, then those of numbers 7, 15, 16 and 17.
pub fn verify_card(text: &[u8], work: &mut [u8]) -> Result<(), Refusal> {
    // SAFETY: as above.
    answer(unsafe {
        ffi::banquet_verify_card(text.as_ptr(), text.len(), work.as_mut_ptr(), work.len())
    })
}
