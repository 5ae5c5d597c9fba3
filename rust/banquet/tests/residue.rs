//! What the calls leave on the stack: the C functions secrets, those of this crate nothing of them. A
//! thread makes a call on a stack of its own, which is searched when the thread has ended.

use banquet::{ffi, slices};
use std::collections::HashSet;
use std::ffi::{c_int, c_void};
use std::ptr;

/// More than a `pthread_attr_t` of any Linux.
#[repr(C, align(16))]
struct Attributes([u8; 256]);

extern "C" {
    fn pthread_attr_init(attributes: *mut Attributes) -> c_int;
    fn pthread_attr_setstack(attributes: *mut Attributes, at: *mut c_void, len: usize) -> c_int;
    fn pthread_create(
        thread: *mut usize,
        attributes: *const Attributes,
        run: extern "C" fn(*mut c_void) -> *mut c_void,
        argument: *mut c_void,
    ) -> c_int;
    fn pthread_join(thread: usize, result: *mut *mut c_void) -> c_int;
}

#[repr(C, align(4096))]
#[derive(Clone)]
struct Page([u8; 4096]);

struct Lent {
    key: banquet::Key,
    public_key: banquet::PublicKey,
    seeds: banquet::Seeds,
}

/// What a call is made with, and where its results go: none of it on the stack that is searched.
struct Call {
    lent: Lent,
    make: fn(&Lent, &mut [u8], &mut [u8]) -> bool,
    out: Vec<u8>,
    work: Vec<u8>,
    accepted: bool,
}

extern "C" fn run(call: *mut c_void) -> *mut c_void {
    // SAFETY: `stack_after` hands over a `Call` and waits.
    let call = unsafe { &mut *call.cast::<Call>() };
    call.accepted = (call.make)(&call.lent, &mut call.out, &mut call.work);
    ptr::null_mut()
}

/// The bytes of a stack on which an accepted call was made.
fn stack_after(make: fn(&Lent, &mut [u8], &mut [u8]) -> bool) -> Vec<u8> {
    let mut call = Call {
        lent: lent(),
        make,
        out: vec![0; banquet::SIGNATURE_LEN],
        work: vec![0; banquet::WORK_LEN],
        accepted: false,
    };
    let mut stack = vec![Page([0x5a; 4096]); 256];
    let mut attributes = Attributes([0; 256]);
    let mut thread = 0;
    // SAFETY: the stack and the call outlive the thread, and nothing else uses them meanwhile.
    unsafe {
        assert_eq!(pthread_attr_init(&mut attributes), 0);
        let len = stack.len() * 4096;
        let at = stack.as_mut_ptr().cast();
        assert_eq!(pthread_attr_setstack(&mut attributes, at, len), 0);
        let argument = ptr::from_mut(&mut call).cast();
        assert_eq!(pthread_create(&mut thread, &attributes, run, argument), 0);
        assert_eq!(pthread_join(thread, ptr::null_mut()), 0);
    }
    assert!(call.accepted);
    stack.iter().flat_map(|page| page.0).collect()
}

/// A key without a pattern that is good, and seeds without a pattern.
fn lent() -> Lent {
    let mut state = 1u32;
    let mut byte = || {
        state = state.wrapping_mul(1_664_525).wrapping_add(1_013_904_223);
        (state >> 24) as u8
    };
    let seeds = std::array::from_fn(|_| byte());
    loop {
        let key = std::array::from_fn(|_| byte());
        if let Ok(public_key) = banquet::public_key(&key, &PLAINTEXT) {
            return Lent {
                key,
                public_key,
                seeds,
            };
        }
    }
}

/// Whether 8 bytes of the key, of key xor plaintext or of a root seed, one after the other, stand
/// somewhere in the stack.
fn holds_secrets(stack: &[u8]) -> bool {
    let Lent { key, seeds, .. } = lent();
    let xor = key.map(|byte| byte ^ PLAINTEXT[0]);
    let secrets: HashSet<&[u8]> = [&key[..], &xor[..]]
        .into_iter()
        .chain(seeds.chunks(16))
        .flat_map(|secret| secret.windows(8))
        .collect();
    stack.windows(8).any(|bytes| secrets.contains(bytes))
}

const PLAINTEXT: banquet::Plaintext = [0x31; 16];
const SALT: banquet::Salt = [0x17; 32];
const FIRST: [u8; 40] = [0x39; 40];
const MESSAGE: &[u8] = b"PB29 12,5\n";

#[test]
fn the_c_functions_leave_secrets() {
    // SAFETY, here and below: Rust's slices keep the rules of `ffi`.
    assert!(holds_secrets(&stack_after(|lent, out, work| unsafe {
        ffi::banquet_sign(
            lent.key.as_ptr(),
            lent.key.len(),
            lent.public_key.as_ptr(),
            lent.public_key.len(),
            MESSAGE.as_ptr(),
            MESSAGE.len(),
            SALT.as_ptr(),
            SALT.len(),
            lent.seeds.as_ptr(),
            lent.seeds.len(),
            out.as_mut_ptr(),
            out.len(),
            work.as_mut_ptr(),
            work.len(),
        ) == 0
    })));
    assert!(holds_secrets(&stack_after(|lent, out, work| unsafe {
        ffi::banquet_open(
            lent.key.as_ptr(),
            lent.key.len(),
            lent.public_key.as_ptr(),
            lent.public_key.len(),
            SALT.as_ptr(),
            SALT.len(),
            lent.seeds.as_ptr(),
            banquet::SEED_LEN,
            7,
            FIRST.as_ptr(),
            FIRST.len(),
            0x1234_5678,
            3,
            out.as_mut_ptr(),
            out.len(),
            work.as_mut_ptr(),
            work.len(),
        ) == 0
    })));
}

#[test]
fn the_calls_of_this_crate_leave_none() {
    assert!(!holds_secrets(&stack_after(|lent, out, _| {
        slices::public_key(&lent.key, &PLAINTEXT, out).is_ok()
    })));
    assert!(!holds_secrets(&stack_after(|lent, out, work| {
        let Lent {
            key,
            public_key,
            seeds,
        } = lent;
        slices::sign(key, public_key, MESSAGE, &SALT, seeds, out, work).is_ok()
    })));
    assert!(!holds_secrets(&stack_after(|lent, out, work| {
        slices::open(
            &lent.key,
            &lent.public_key,
            &SALT,
            &lent.seeds[..16],
            7,
            &FIRST,
            0x1234_5678,
            3,
            out,
            work,
        )
        .is_ok()
    })));
}
