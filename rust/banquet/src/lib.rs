//! The Banquet signature over AES-128 and SHAKE128: safe calls of the proved library `libcapi.a`.
//!
//! ```no_run
//! # fn random<const N: usize>() -> [u8; N] { [0; N] }
//! # fn main() -> Result<(), banquet::Refusal> {
//! let plaintext = random();
//! // About half of all keys are refused by 11: take another.
//! let (key, public_key) = loop {
//!     let key = random();
//!     match banquet::public_key(&key, &plaintext) {
//!         Ok(public_key) => break (key, public_key),
//!         Err(banquet::Refusal::ZeroInput { .. }) => continue,
//!         Err(refusal) => return Err(refusal),
//!     }
//! };
//! // Salt and seeds are random and new for every signature; seeds are secret.
//! let signature = banquet::sign(&key, &public_key, b"PB29 12,5\n", &random(), &random())?;
//! banquet::verify(&public_key, b"PB29 12,5\n", &*signature)?;
//! # Ok(())
//! # }
//! ```
//!
//! The functions of this module take arrays where a length is fixed and lend the work slice
//! themselves. Those of [`slices`] take slices of any length, as the library does, and allocate
//! nothing. [`ffi`] has the C functions.
//!
//! What the library answers and what every slice then holds is proved; see the repository's
//! `docs/TRUST.md`. What is not proved is this crate, which only passes pointers and lengths on.
//! Its types keep what the library asks of its callers: slices are valid, never null, and one that
//! is written to overlaps no other.
//!
//! The calls are thread-safe. They take up to [`STACK_LEN`] bytes of stack, which Rust's threads have
//! by default.
//!
//! The library leaves parts of key and seeds on the stack. The calls of this module and of [`slices`]
//! that take secrets overwrite it before they return, by [`wipe_stack`]. Nothing proves this, and
//! registers are not wiped. That the work slice holds nothing of them afterwards is proved. The caller's
//! own copies of key and seeds are the caller's affair.

pub mod ffi;
mod refusal;
pub mod slices;
mod stack;

pub use refusal::Refusal;
pub use stack::wipe_stack;

/// Bytes of a secret key.
pub const KEY_LEN: usize = 16;
/// Bytes of a public plaintext.
pub const PLAINTEXT_LEN: usize = 16;
/// Bytes of a public key: plaintext, then ciphertext.
pub const PUBLIC_KEY_LEN: usize = 32;
/// Bytes of a salt.
pub const SALT_LEN: usize = 32;
/// Bytes of the root seed of one execution.
pub const SEED_LEN: usize = 16;
/// Bytes of the root seeds of all executions.
pub const SEEDS_LEN: usize = EXECUTIONS as usize * SEED_LEN;
/// Bytes of a first challenge: ten numbers of four bytes, low byte first.
pub const FIRST_CHALLENGE_LEN: usize = 40;
/// Bytes of a signature.
pub const SIGNATURE_LEN: usize = 19_776;
/// Bytes of an opening.
pub const OPENING_LEN: usize = 2_554;
/// The least length of a work slice.
pub const WORK_LEN: usize = 65_536;
/// The greatest length of a message.
pub const MAX_MESSAGE_LEN: usize = 32_768;
/// The greatest length of a card text: two digits a byte and 44 line ends.
pub const MAX_CARD_LEN: usize = 2 * (PUBLIC_KEY_LEN + MAX_MESSAGE_LEN + SIGNATURE_LEN) + 44;
/// Stack that is enough for one call, with margin.
pub const STACK_LEN: usize = 131_072;
/// Executions are 0 to 40.
pub const EXECUTIONS: u32 = 41;
/// Parties are 0 to 15.
pub const PARTIES: u32 = 16;
/// A second challenge is 20 or more.
pub const MIN_SECOND_CHALLENGE: u32 = 20;

/// A secret key.
pub type Key = [u8; KEY_LEN];
/// A public plaintext.
pub type Plaintext = [u8; PLAINTEXT_LEN];
/// A public key.
pub type PublicKey = [u8; PUBLIC_KEY_LEN];
/// A salt.
pub type Salt = [u8; SALT_LEN];
/// The root seed of one execution.
pub type Seed = [u8; SEED_LEN];
/// The root seeds of all executions.
pub type Seeds = [u8; SEEDS_LEN];
/// A signature.
pub type Signature = [u8; SIGNATURE_LEN];
/// An opening.
pub type Opening = [u8; OPENING_LEN];

/// One execution and the challenges to open it under.
#[derive(Clone)]
pub struct Execution {
    /// Random and new; it stands in the opening.
    pub salt: Salt,
    /// Random, new and secret.
    pub seed: Seed,
    /// 0 to 40.
    pub number: u32,
    /// Ten numbers of four bytes, low byte first.
    pub first_challenge: [u8; FIRST_CHALLENGE_LEN],
    /// 20 or more.
    pub second_challenge: u32,
    /// The party that is not shown, 0 to 15.
    pub hidden: u32,
}

/// Makes the public key of `key` and `plaintext`.
///
/// # Errors
///
/// [`Refusal::ZeroInput`], for about half of all keys: then take another key.
pub fn public_key(key: &Key, plaintext: &Plaintext) -> Result<PublicKey, Refusal> {
    let mut out = [0; PUBLIC_KEY_LEN];
    slices::public_key(key, plaintext, &mut out)?;
    Ok(out)
}

/// Signs a message of at most 32,768 bytes.
///
/// `salt` and `seeds` are random and new for every signature; whoever knows `seeds` can work out
/// the key.
///
/// # Errors
///
/// [`Refusal::MessageLength`], and [`Refusal::ZeroInput`] or [`Refusal::WrongKey`] for a key
/// that `public_key` was not made from.
pub fn sign(
    key: &Key,
    public_key: &PublicKey,
    message: &[u8],
    salt: &Salt,
    seeds: &Seeds,
) -> Result<Box<Signature>, Refusal> {
    let mut out = zeros();
    slices::sign(
        key,
        public_key,
        message,
        salt,
        seeds,
        &mut *out,
        &mut *work(),
    )?;
    Ok(out)
}

/// Checks a signature of `message`. It holds only if the answer is `Ok`.
///
/// # Errors
///
/// [`Refusal::MessageLength`], [`Refusal::FileLength`] for a signature that has not 19,776 bytes,
/// and [`Refusal::ProductDiffers`], [`Refusal::FirstHashDiffers`] or
/// [`Refusal::ThirdHashDiffers`] for one that does not hold.
pub fn verify(public_key: &PublicKey, message: &[u8], signature: &[u8]) -> Result<(), Refusal> {
    slices::verify(public_key, message, signature, &mut *work())
}

/// Opens one execution under given challenges.
///
/// Two openings under one salt, seed and number that hide different parties give the key away.
///
/// # Errors
///
/// [`Refusal::ExecutionRange`], [`Refusal::HiddenPartyRange`],
/// [`Refusal::SecondChallengeRange`], and [`Refusal::ZeroInput`] or [`Refusal::WrongKey`] for a key
/// that `public_key` was not made from.
pub fn open(
    key: &Key,
    public_key: &PublicKey,
    execution: &Execution,
) -> Result<Box<Opening>, Refusal> {
    let mut out = zeros();
    slices::open(
        key,
        public_key,
        &execution.salt,
        &execution.seed,
        execution.number,
        &execution.first_challenge,
        execution.second_challenge,
        execution.hidden,
        &mut *out,
        &mut *work(),
    )?;
    Ok(out)
}

/// Checks an opening. It holds only if the answer is `Ok`.
///
/// # Errors
///
/// [`Refusal::FileLength`] for an opening that has not 2,554 bytes, and those of numbers 8, 9, 10,
/// 13, 14 and 15 for one that does not hold.
pub fn verify_opening(public_key: &PublicKey, opening: &[u8]) -> Result<(), Refusal> {
    slices::verify_opening(public_key, opening, &mut *work())
}

/// Checks a card given as text. It holds only if the answer is `Ok`, and then under the public key on
/// the card: compare the text's first 64 digits with the public key that you trust.
///
/// # Errors
///
/// [`Refusal::TextForm`], before the others, and those of numbers 15, 16 and 17.
pub fn verify_card(text: &[u8]) -> Result<(), Refusal> {
    slices::verify_card(text, &mut *work())
}

/// A work slice, which every call that uses it leaves zero.
fn work() -> Box<[u8; WORK_LEN]> {
    zeros()
}

/// Zeros that never stood on the stack.
fn zeros<const N: usize>() -> Box<[u8; N]> {
    let zeros = vec![0; N].into_boxed_slice();
    zeros.try_into().expect("the length is N")
}
