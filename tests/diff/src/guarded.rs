//! A slice that is lent to a call, with guard bytes before and behind it.

use crate::rng::Rng;

const GUARD: usize = 64;

pub struct Guarded {
    bytes: Vec<u8>,
    before: Vec<u8>,
    start: usize,
    len: usize,
}

impl Guarded {
    /// The contents at any alignment, between random guard bytes.
    pub fn new(contents: &[u8], rng: &mut Rng) -> Self {
        let start = GUARD + rng.below(16);
        let len = contents.len();
        let mut bytes = vec![0; start + len + GUARD];
        rng.fill(&mut bytes[..start]);
        bytes[start..start + len].copy_from_slice(contents);
        rng.fill(&mut bytes[start + len..]);
        Self {
            before: bytes.clone(),
            bytes,
            start,
            len,
        }
    }

    pub fn len(&self) -> usize {
        self.len
    }

    pub fn as_ptr(&self) -> *const u8 {
        self.contents().as_ptr()
    }

    pub fn as_mut_ptr(&mut self) -> *mut u8 {
        self.contents_mut().as_mut_ptr()
    }

    pub fn contents(&self) -> &[u8] {
        &self.bytes[self.start..self.start + self.len]
    }

    pub fn contents_mut(&mut self) -> &mut [u8] {
        &mut self.bytes[self.start..self.start + self.len]
    }

    /// What the slice held before the call.
    pub fn contents_before(&self) -> &[u8] {
        &self.before[self.start..self.start + self.len]
    }

    pub fn guards_hold(&self) -> bool {
        let end = self.start + self.len;
        self.bytes[..self.start] == self.before[..self.start]
            && self.bytes[end..] == self.before[end..]
    }
}
