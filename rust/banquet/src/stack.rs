//! What the calls leave on the stack.

use crate::STACK_LEN;
use std::mem::MaybeUninit;

/// With the rest of its frame [`wipe_stack`] stays within [`STACK_LEN`].
const WORDS: usize = (STACK_LEN - 256) / 8;

/// Overwrites the stack below its caller with zeros, deeper than any call goes.
///
/// [`public_key`](crate::public_key), [`sign`](crate::sign) and [`open`](crate::open) do this
/// themselves, and those of [`slices`](crate::slices) too. Whoever calls the functions of
/// [`ffi`](crate::ffi) calls it after them, in the same function: from one above it reaches less deep,
/// by what the frames between take. It takes no more than [`STACK_LEN`] bytes of stack itself.
// Never inlined: the array would then be a part of the caller's frame, and what the calls left lies
// below that. The stores are volatile, since those to what is about to be gone are dropped otherwise.
#[inline(never)]
pub fn wipe_stack() {
    let mut gone = MaybeUninit::<[u64; WORDS]>::uninit();
    let at = gone.as_mut_ptr().cast::<u64>();
    for i in 0..WORDS {
        // SAFETY: this is within `gone`.
        unsafe { at.add(i).write_volatile(0) };
    }
}
