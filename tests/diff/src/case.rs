//! One case: a call with all that is lent to it, made by both implementations and compared.

use crate::guarded::Guarded;
use crate::rng::Rng;
use banquet::ffi;
use banquet_peer as peer;
use std::fmt;

#[derive(Clone, Copy, Debug, PartialEq, Eq)]
pub enum Call {
    PublicKey,
    Sign,
    Verify,
    Open,
    VerifyOpening,
    VerifyCard,
}

impl Call {
    pub const ALL: [Self; 6] = [
        Self::PublicKey,
        Self::Sign,
        Self::Verify,
        Self::Open,
        Self::VerifyOpening,
        Self::VerifyCard,
    ];

    pub fn name(self) -> &'static str {
        match self {
            Self::PublicKey => "public_key",
            Self::Sign => "sign",
            Self::Verify => "verify",
            Self::Open => "open",
            Self::VerifyOpening => "verify_opening",
            Self::VerifyCard => "verify_card",
        }
    }

    /// The numbers that the call can answer.
    pub fn numbers(self) -> &'static [u32] {
        match self {
            Self::PublicKey => &[0, 1, 2, 6, 11],
            Self::Sign => &[0, 1, 2, 3, 4, 5, 6, 7, 11, 12],
            Self::Verify => &[0, 2, 3, 6, 7, 15, 16, 17],
            Self::Open => &[0, 1, 2, 4, 5, 6, 7, 8, 9, 10, 11, 12],
            Self::VerifyOpening => &[0, 2, 6, 7, 8, 9, 10, 13, 14, 15],
            Self::VerifyCard => &[0, 7, 15, 16, 17, 18],
        }
    }

    /// How many bytes of `out` an accepted call writes.
    fn output_len(self) -> usize {
        match self {
            Self::PublicKey => 32,
            Self::Sign => 19_776,
            Self::Open => 2_554,
            Self::Verify | Self::VerifyOpening | Self::VerifyCard => 0,
        }
    }
}

pub const WORK_LEN: usize = 65_536;

#[derive(Clone)]
pub struct Slice {
    pub name: &'static str,
    pub bytes: Vec<u8>,
}

/// A call's slices in the order of its C arguments.
pub struct Case {
    pub call: Call,
    pub slices: Vec<Slice>,
    /// Only for `open`.
    pub execution: u32,
    pub second_challenge: u32,
    pub hidden: u32,
    /// What a valid call was changed by.
    pub mutations: Vec<String>,
}

impl Case {
    pub fn slice(&mut self, name: &str) -> &mut Vec<u8> {
        let found = self.slices.iter_mut().find(|slice| slice.name == name);
        &mut found.expect("the call has such a slice").bytes
    }
}

impl fmt::Display for Case {
    fn fmt(&self, f: &mut fmt::Formatter<'_>) -> fmt::Result {
        write!(f, "banquet_{}, ", self.call.name())?;
        match self.mutations.is_empty() {
            true => write!(f, "valid")?,
            false => write!(f, "{}", self.mutations.join("; "))?,
        }
        if self.call == Call::Open {
            write!(
                f,
                "; execution {}, second challenge {}, hidden {}",
                self.execution, self.second_challenge, self.hidden
            )?;
        }
        for slice in &self.slices {
            write!(f, "; {} {}", slice.name, slice.bytes.len())?;
        }
        Ok(())
    }
}

/// Makes the call with both implementations; tells the answer, or how they differ.
pub fn run(case: &Case, rng: &mut Rng) -> Result<u32, String> {
    let lend = |rng: &mut Rng| -> Vec<Guarded> {
        let slices = case.slices.iter();
        slices
            .map(|slice| Guarded::new(&slice.bytes, rng))
            .collect()
    };
    let mut our_slices = lend(rng);
    let ours = call_ours(case, &mut our_slices);
    let mut peer_slices = lend(rng);
    let theirs = call_peer(case, &mut peer_slices);

    let mut faults = Vec::new();
    if ours != theirs {
        faults.push(format!(
            "ours answers {}, the peer {}",
            words(ours),
            words(theirs)
        ));
    }
    if !case.call.numbers().contains(&(ours >> 16)) {
        faults.push(format!("ours answers {}, which it cannot", words(ours)));
    }
    for ((slice, our), their) in case.slices.iter().zip(&our_slices).zip(&peer_slices) {
        let name = slice.name;
        if !our.guards_hold() {
            faults.push(format!("ours wrote outside {name}"));
        }
        if !their.guards_hold() {
            faults.push(format!("the peer wrote outside {name}"));
        }
        if let Some(at) = first_difference(our.contents(), their.contents()) {
            faults.push(format!(
                "{name} differs at {at}: ours {:02x}, the peer {:02x}",
                our.contents()[at],
                their.contents()[at]
            ));
        }
        if let Some(at) = breaks_rule(case.call, name, ours >> 16, our) {
            faults.push(format!("{name} is not as the document says at {at}"));
        }
    }
    match faults.is_empty() {
        true => Ok(ours),
        false => Err(faults.join("; ")),
    }
}

/// Number and place of an answer.
fn words(answer: u32) -> String {
    format!("{} {}", answer >> 16, answer & 0xffff)
}

fn first_difference(a: &[u8], b: &[u8]) -> Option<usize> {
    a.iter().zip(b).position(|(a, b)| a != b)
}

/// "After 13 to 17, and on success, the work slice's first 65,536 bytes are zero and its rest
/// untouched. Every other refusal, later ones included, leaves each lent slice untouched [...].
/// Output beyond the stated length is untouched; checks write no output."
///
/// Where the slice is not so after an answer of this number.
fn breaks_rule(call: Call, name: &str, number: u32, slice: &Guarded) -> Option<usize> {
    let (after, before) = (slice.contents(), slice.contents_before());
    let written = match name {
        "out" if number == 0 => call.output_len(),
        "work" if number == 0 || (13..=17).contains(&number) => {
            if let Some(at) = after[..WORK_LEN].iter().position(|&byte| byte != 0) {
                return Some(at);
            }
            WORK_LEN
        }
        _ => 0,
    };
    let rest = first_difference(&after[written..], &before[written..]);
    rest.map(|at| written + at)
}

/// By the C interface.
fn call_ours(case: &Case, slices: &mut [Guarded]) -> u32 {
    // SAFETY: each slice has a buffer of its own, all of whose bytes are valid.
    match (case.call, slices) {
        (Call::PublicKey, [key, plaintext, out]) => unsafe {
            ffi::banquet_public_key(
                key.as_ptr(),
                key.len(),
                plaintext.as_ptr(),
                plaintext.len(),
                out.as_mut_ptr(),
                out.len(),
            )
        },
        (Call::Sign, [key, public_key, message, salt, seeds, out, work]) => unsafe {
            ffi::banquet_sign(
                key.as_ptr(),
                key.len(),
                public_key.as_ptr(),
                public_key.len(),
                message.as_ptr(),
                message.len(),
                salt.as_ptr(),
                salt.len(),
                seeds.as_ptr(),
                seeds.len(),
                out.as_mut_ptr(),
                out.len(),
                work.as_mut_ptr(),
                work.len(),
            )
        },
        (Call::Verify, [public_key, message, signature, work]) => unsafe {
            ffi::banquet_verify(
                public_key.as_ptr(),
                public_key.len(),
                message.as_ptr(),
                message.len(),
                signature.as_ptr(),
                signature.len(),
                work.as_mut_ptr(),
                work.len(),
            )
        },
        (Call::Open, [key, public_key, salt, seed, first_challenge, out, work]) => unsafe {
            ffi::banquet_open(
                key.as_ptr(),
                key.len(),
                public_key.as_ptr(),
                public_key.len(),
                salt.as_ptr(),
                salt.len(),
                seed.as_ptr(),
                seed.len(),
                case.execution,
                first_challenge.as_ptr(),
                first_challenge.len(),
                case.second_challenge,
                case.hidden,
                out.as_mut_ptr(),
                out.len(),
                work.as_mut_ptr(),
                work.len(),
            )
        },
        (Call::VerifyOpening, [public_key, opening, work]) => unsafe {
            ffi::banquet_verify_opening(
                public_key.as_ptr(),
                public_key.len(),
                opening.as_ptr(),
                opening.len(),
                work.as_mut_ptr(),
                work.len(),
            )
        },
        (Call::VerifyCard, [text, work]) => unsafe {
            ffi::banquet_verify_card(text.as_ptr(), text.len(), work.as_mut_ptr(), work.len())
        },
        _ => panic!("the call has other slices"),
    }
}

fn call_peer(case: &Case, slices: &mut [Guarded]) -> u32 {
    let answer = match (case.call, slices) {
        (Call::PublicKey, [key, plaintext, out]) => {
            peer::make_public_key(key.contents(), plaintext.contents(), out.contents_mut())
        }
        (Call::Sign, [key, public_key, message, salt, seeds, out, work]) => peer::sign(
            key.contents(),
            public_key.contents(),
            message.contents(),
            salt.contents(),
            seeds.contents(),
            out.contents_mut(),
            work.contents_mut(),
        ),
        (Call::Verify, [public_key, message, signature, work]) => peer::verify(
            public_key.contents(),
            message.contents(),
            signature.contents(),
            work.contents_mut(),
        ),
        (Call::Open, [key, public_key, salt, seed, first_challenge, out, work]) => peer::open(
            key.contents(),
            public_key.contents(),
            salt.contents(),
            seed.contents(),
            case.execution,
            first_challenge.contents(),
            case.second_challenge,
            case.hidden,
            out.contents_mut(),
            work.contents_mut(),
        ),
        (Call::VerifyOpening, [public_key, opening, work]) => peer::verify_opening(
            public_key.contents(),
            opening.contents(),
            work.contents_mut(),
        ),
        (Call::VerifyCard, [text, work]) => peer::verify_card(text.contents(), work.contents_mut()),
        _ => panic!("the call has other slices"),
    };
    match answer {
        Ok(()) => 0,
        Err(refusal) => u32::from(refusal.number) * 65_536 + u32::from(refusal.place),
    }
}
