//! The functions of `libcapi.a`, as `include/banquet.h` declares them.
//!
//! A slice is a pointer and a length. An answer is number * 65,536 + place, and 0 is accepted. Those that
//! take a key leave parts of it on the stack: call [`wipe_stack`](crate::wipe_stack) after them.
//!
//! # Safety
//!
//! Of every slice all bytes are valid to read, and of a `*mut` one to write. No pointer is null, not
//! even with length 0. A `*mut` slice overlaps no other slice of the call. While the call runs, nothing
//! else writes to a slice, or reads from a `*mut` one.

extern "C" {
    /// See [`crate::slices::public_key`].
    pub fn banquet_public_key(
        key: *const u8,
        key_len: usize,
        plaintext: *const u8,
        plaintext_len: usize,
        out: *mut u8,
        out_len: usize,
    ) -> u32;

    /// See [`crate::slices::sign`].
    pub fn banquet_sign(
        key: *const u8,
        key_len: usize,
        public_key: *const u8,
        public_key_len: usize,
        message: *const u8,
        message_len: usize,
        salt: *const u8,
        salt_len: usize,
        seeds: *const u8,
        seeds_len: usize,
        out: *mut u8,
        out_len: usize,
        work: *mut u8,
        work_len: usize,
    ) -> u32;

    /// See [`crate::slices::verify`].
    pub fn banquet_verify(
        public_key: *const u8,
        public_key_len: usize,
        message: *const u8,
        message_len: usize,
        signature: *const u8,
        signature_len: usize,
        work: *mut u8,
        work_len: usize,
    ) -> u32;

    /// See [`crate::slices::open`].
    pub fn banquet_open(
        key: *const u8,
        key_len: usize,
        public_key: *const u8,
        public_key_len: usize,
        salt: *const u8,
        salt_len: usize,
        seed: *const u8,
        seed_len: usize,
        execution: u32,
        first_challenge: *const u8,
        first_challenge_len: usize,
        second_challenge: u32,
        hidden: u32,
        out: *mut u8,
        out_len: usize,
        work: *mut u8,
        work_len: usize,
    ) -> u32;

    /// See [`crate::slices::verify_opening`].
    pub fn banquet_verify_opening(
        public_key: *const u8,
        public_key_len: usize,
        opening: *const u8,
        opening_len: usize,
        work: *mut u8,
        work_len: usize,
    ) -> u32;

    /// See [`crate::slices::verify_card`].
    pub fn banquet_verify_card(
        text: *const u8,
        text_len: usize,
        work: *mut u8,
        work_len: usize,
    ) -> u32;
}
