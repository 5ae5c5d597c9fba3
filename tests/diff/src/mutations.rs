//! Valid calls, and what is changed in them: lengths, bytes, numbers, and what aims at one refusal.

use crate::case::{Call, Case, Slice, WORK_LEN};
use crate::fixtures::{card_text, Fixtures};
use crate::rng::Rng;
use banquet_peer::field::multiply;

type Apply = dyn Fn(&mut Case, &mut Rng, &Fixtures) + Sync;

pub struct Mutation {
    words: String,
    apply: Box<Apply>,
}

impl Mutation {
    fn new(
        words: impl Into<String>,
        apply: impl Fn(&mut Case, &mut Rng, &Fixtures) + Sync + 'static,
    ) -> Self {
        Self {
            words: words.into(),
            apply: Box::new(apply),
        }
    }

    /// A mutation of one slice's bytes.
    fn of(
        name: &'static str,
        words: &str,
        apply: impl Fn(&mut Vec<u8>, &mut Rng) + Sync + 'static,
    ) -> Self {
        Self::new(format!("{name} {words}"), move |case, rng, _| {
            apply(case.slice(name), rng);
        })
    }

    pub fn apply(&self, case: &mut Case, rng: &mut Rng, fixtures: &Fixtures) {
        (self.apply)(case, rng, fixtures);
        case.mutations.push(self.words.clone());
    }
}

/// A call that is accepted.
pub fn valid(call: Call, rng: &mut Rng, fixtures: &Fixtures) -> Case {
    let keys = rng.pick(&fixtures.keys);
    let signed = rng.pick(&fixtures.signed);
    let opened = rng.pick(&fixtures.opened);
    let mut slices = Vec::new();
    let mut lend = |name, bytes: Vec<u8>| slices.push(Slice { name, bytes });
    match call {
        Call::PublicKey => {
            lend("key", keys.key.clone());
            lend("plaintext", keys.public_key[..16].to_vec());
            lend("out", rng.bytes(32));
        }
        Call::Sign => {
            lend("key", keys.key.clone());
            lend("public_key", keys.public_key.clone());
            let message_len = rng.below(300);
            lend("message", rng.bytes(message_len));
            lend("salt", rng.bytes(32));
            lend("seeds", rng.bytes(656));
            lend("out", rng.bytes(19_776));
        }
        Call::Verify => {
            lend("public_key", signed.public_key.clone());
            lend("message", signed.message.clone());
            lend("signature", signed.signature.clone());
        }
        Call::Open => {
            lend("key", keys.key.clone());
            lend("public_key", keys.public_key.clone());
            lend("salt", rng.bytes(32));
            lend("seed", rng.bytes(16));
            lend("first_challenge", rng.bytes(40));
            lend("out", rng.bytes(2_554));
        }
        Call::VerifyOpening => {
            lend("public_key", opened.public_key.clone());
            lend("opening", opened.opening.clone());
        }
        Call::VerifyCard => lend("text", card_text(signed)),
    }
    if call != Call::PublicKey {
        lend("work", rng.bytes(WORK_LEN));
    }
    Case {
        call,
        slices,
        execution: rng.below(41) as u32,
        second_challenge: rng.number().max(20),
        hidden: rng.below(16) as u32,
        mutations: Vec::new(),
    }
}

/// What is tried with a call.
pub fn mutations(call: Call) -> Vec<Mutation> {
    let mut mutations = Vec::new();
    let slices: &[&'static str] = match call {
        Call::PublicKey => &["key", "plaintext"],
        Call::Sign => &["key", "public_key", "message", "salt", "seeds"],
        Call::Verify => &["public_key", "message", "signature"],
        Call::Open => &["key", "public_key", "salt", "seed", "first_challenge"],
        Call::VerifyOpening => &["public_key", "opening"],
        Call::VerifyCard => &["text"],
    };
    for name in slices {
        mutations.extend(lengths(name));
        mutations.push(flips(name));
    }
    if matches!(call, Call::PublicKey | Call::Sign | Call::Open) {
        mutations.extend(lengths("out"));
        mutations.push(longer("out"));
        mutations.extend(key_mutations(call));
    }
    if call != Call::PublicKey {
        mutations.extend(lengths("work"));
        mutations.push(longer("work"));
        mutations.push(Mutation::of("work", "zero", |bytes, _| bytes.fill(0)));
    }
    if matches!(call, Call::Sign | Call::Verify) {
        mutations.extend(message_mutations());
    }
    mutations.extend(match call {
        Call::PublicKey | Call::Sign => Vec::new(),
        Call::Verify => signature_mutations(),
        Call::Open => number_mutations(),
        Call::VerifyOpening => opening_mutations(),
        Call::VerifyCard => text_mutations(),
    });
    mutations
}

// ---- lengths and bytes of any slice

fn resize(bytes: &mut Vec<u8>, len: usize, rng: &mut Rng) {
    let more = len.saturating_sub(bytes.len());
    bytes.truncate(len);
    bytes.extend(rng.bytes(more));
}

fn lengths(name: &'static str) -> Vec<Mutation> {
    vec![
        Mutation::of(name, "empty", |bytes, _| bytes.clear()),
        Mutation::of(name, "one byte short", |bytes, _| {
            bytes.pop();
        }),
        Mutation::of(name, "one byte longer", |bytes, rng| {
            resize(bytes, bytes.len() + 1, rng);
        }),
        Mutation::of(name, "of another length", |bytes, rng| {
            let len = rng.below(2 * bytes.len() + 20);
            resize(bytes, len, rng);
        }),
    ]
}

fn longer(name: &'static str) -> Mutation {
    Mutation::of(name, "longer", |bytes, rng| {
        let len = bytes.len() + 1 + rng.below(1_000);
        resize(bytes, len, rng);
    })
}

/// One to three bytes.
fn flips(name: &'static str) -> Mutation {
    Mutation::of(name, "with flipped bytes", |bytes, rng| {
        for _ in 0..=rng.below(3) {
            flip(bytes, 0, usize::MAX, rng);
        }
    })
}

/// Another value for a byte of a part, if the slice reaches there.
fn flip(bytes: &mut [u8], start: usize, len: usize, rng: &mut Rng) {
    let len = len.min(bytes.len().saturating_sub(start));
    if len > 0 {
        bytes[start + rng.below(len)] ^= rng.mask();
    }
}

/// Bytes put at a place, as far as the slice reaches.
fn put(bytes: &mut [u8], start: usize, new: &[u8]) {
    for (byte, new) in bytes.iter_mut().skip(start).zip(new) {
        *byte = *new;
    }
}

fn number_at(bytes: &[u8], start: usize) -> u32 {
    let number = bytes.get(start..start + 4).unwrap_or(&[0; 4]);
    u32::from_le_bytes(number.try_into().expect("four bytes"))
}

// ---- keys and messages

fn key_mutations(call: Call) -> Vec<Mutation> {
    let public = match call {
        Call::PublicKey => "plaintext",
        _ => "public_key",
    };
    let mut mutations = vec![
        Mutation::of("key", "with a zero among bytes 12 to 15", |key, rng| {
            put(key, 12 + rng.below(4), &[0]);
        }),
        Mutation::of("key", "random", |key, rng| *key = rng.bytes(16)),
        Mutation::of(public, "random", |bytes, rng| rng.fill(bytes)),
        Mutation::new("the example of FIPS 197", move |case, _, _| {
            *case.slice("key") = (0..16).collect();
            let plaintext: Vec<u8> = (0..16).map(|i| 0x11 * i).collect();
            put(case.slice(public), 0, &plaintext);
        }),
        Mutation::new("key of another public key", |case, rng, fixtures| {
            *case.slice("key") = rng.pick(&fixtures.keys).key.clone();
        }),
    ];
    if call != Call::PublicKey {
        mutations.push(Mutation::of(
            public,
            "with another ciphertext",
            |bytes, rng| {
                flip(bytes, 16, 16, rng);
            },
        ));
        mutations.push(Mutation::of(
            public,
            "with another plaintext",
            |bytes, rng| {
                flip(bytes, 0, 16, rng);
            },
        ));
    }
    mutations
}

fn message_mutations() -> Vec<Mutation> {
    [32_767, 32_768, 32_769]
        .into_iter()
        .map(|len| {
            Mutation::of("message", &format!("of {len} bytes"), move |bytes, rng| {
                resize(bytes, len, rng);
            })
        })
        .chain([
            Mutation::of("message", "of up to 4,000 bytes", |bytes, rng| {
                let len = rng.below(4_000);
                resize(bytes, len, rng);
            }),
            Mutation::of("message", "far too long", |bytes, rng| {
                let len = 32_769 + rng.below(40_000);
                resize(bytes, len, rng);
            }),
        ])
        .collect()
}

// ---- signatures

const HEAD: [(&str, usize, usize); 3] = [("salt", 0, 32), ("h1", 32, 32), ("h3", 64, 32)];

const FRAME: [(&str, usize, usize); 8] = [
    ("sibling seeds", 0, 64),
    ("hidden commitment", 64, 32),
    ("key offset", 96, 16),
    ("inverse offsets", 112, 200),
    ("product offsets", 312, 84),
    ("c", 396, 4),
    ("a", 400, 40),
    ("b", 440, 40),
];

/// Where a frame begins.
fn frame(e: usize) -> usize {
    96 + 480 * e
}

fn random_frame(rng: &mut Rng) -> usize {
    frame(rng.below(41))
}

fn signature_mutations() -> Vec<Mutation> {
    let in_signature = |words: &str, apply: fn(&mut Vec<u8>, &mut Rng)| {
        Mutation::of("signature", &format!("with {words}"), apply)
    };
    let mut mutations = vec![
        in_signature("c altered in two frames", |s, rng| {
            for _ in 0..2 {
                flip(s, random_frame(rng) + 396, 4, rng);
            }
        }),
        in_signature("c, a and b zero in a frame", |s, rng| {
            put(s, random_frame(rng) + 396, &[0; 84]);
        }),
        in_signature("c, a and b zero in all frames", |s, _| {
            (0..41).for_each(|e| put(s, frame(e) + 396, &[0; 84]));
        }),
        in_signature("c and a altered so that the product holds", |s, rng| {
            let (frame, j) = (random_frame(rng), rng.below(10));
            let (at, more) = (frame + 400 + 4 * j, rng.number());
            let a = number_at(s, at) ^ more;
            let c = number_at(s, frame + 396) ^ multiply(more, number_at(s, at + 40));
            put(s, at, &a.to_le_bytes());
            put(s, frame + 396, &c.to_le_bytes());
        }),
        in_signature("two frames exchanged", |s, rng| {
            let (x, y) = (random_frame(rng), random_frame(rng));
            for i in 0..480 {
                if x + i < s.len() && y + i < s.len() {
                    s.swap(x + i, y + i);
                }
            }
        }),
        in_signature("random bytes", |s, rng| rng.fill(s)),
        in_signature("random bytes, c, a and b zero", |s, rng| {
            rng.fill(s);
            (0..41).for_each(|e| put(s, frame(e) + 396, &[0; 84]));
        }),
        Mutation::new("signature of another message", |case, rng, fixtures| {
            *case.slice("signature") = rng.pick(&fixtures.signed).signature.clone();
        }),
        Mutation::new("public_key of another signer", |case, rng, fixtures| {
            *case.slice("public_key") = rng.pick(&fixtures.keys).public_key.clone();
        }),
    ];
    for (field, start, len) in HEAD {
        let words = format!("with another {field}");
        mutations.push(Mutation::of("signature", &words, move |s, rng| {
            flip(s, start, len, rng);
        }));
    }
    for (field, start, len) in FRAME {
        let words = format!("with another {field} in a frame");
        mutations.push(Mutation::of("signature", &words, move |s, rng| {
            flip(s, random_frame(rng) + start, len, rng);
        }));
    }
    mutations
}

// ---- the numbers of open

fn number_mutations() -> Vec<Mutation> {
    let numbers = |words: &str, apply: fn(&mut Case, &mut Rng)| {
        Mutation::new(words, move |case, rng, _| apply(case, rng))
    };
    vec![
        numbers("execution at the end of its range", |case, rng| {
            case.execution = *rng.pick(&[0, 40]);
        }),
        numbers("execution over 40", |case, rng| {
            case.execution = *rng.pick(&[41, 255, 256, 257, 65_536, 1 << 31, u32::MAX]);
        }),
        numbers("any execution", |case, rng| case.execution = rng.number()),
        numbers("hidden party at the end of its range", |case, rng| {
            case.hidden = *rng.pick(&[0, 15]);
        }),
        numbers("hidden party over 15", |case, rng| {
            case.hidden = *rng.pick(&[16, 17, 255, 256, 65_536, 1 << 31, u32::MAX]);
        }),
        numbers("any hidden party", |case, rng| case.hidden = rng.number()),
        numbers("second challenge among the points", |case, rng| {
            case.second_challenge = 20 + rng.below(22) as u32;
        }),
        numbers("second challenge below 20", |case, rng| {
            case.second_challenge = *rng.pick(&[0, 1, 10, 18, 19]);
        }),
        numbers("second challenge at the end of its range", |case, rng| {
            case.second_challenge = *rng.pick(&[20, 1 << 31, u32::MAX]);
        }),
        numbers("first challenge zero", |case, _| {
            case.slice("first_challenge").fill(0);
        }),
        numbers("all numbers out of range", |case, _| {
            (case.execution, case.hidden, case.second_challenge) = (41, 16, 19);
        }),
    ]
}

// ---- openings

const OPENING: [(&str, usize, usize); 14] = [
    ("salt", 0, 32),
    ("execution", 32, 1),
    ("commitments", 33, 512),
    ("output shares", 545, 256),
    ("key offset", 801, 16),
    ("inverse offsets", 817, 200),
    ("first challenge", 1_017, 40),
    ("product offsets", 1_057, 84),
    ("second challenge", 1_141, 4),
    ("c shares", 1_145, 64),
    ("a shares", 1_209, 640),
    ("b shares", 1_849, 640),
    ("hidden party", 2_489, 1),
    ("sibling seeds", 2_490, 64),
];

/// Start and length of each party's part.
const PARTY: [(&str, usize, usize); 5] = [
    ("commitment", 33, 32),
    ("output share", 545, 16),
    ("c share", 1_145, 4),
    ("a shares", 1_209, 40),
    ("b shares", 1_849, 40),
];

fn hidden_of(opening: &[u8]) -> usize {
    opening.get(2_489).map_or(0, |&hidden| hidden as usize % 16)
}

/// A party that is not hidden.
fn shown_of(opening: &[u8], rng: &mut Rng) -> usize {
    (hidden_of(opening) + 1 + rng.below(15)) % 16
}

fn opening_mutations() -> Vec<Mutation> {
    let in_opening = |words: &str, apply: fn(&mut Vec<u8>, &mut Rng)| {
        Mutation::of("opening", &format!("with {words}"), apply)
    };
    let mut mutations = vec![
        in_opening("an execution over 40", |o, rng| {
            put(o, 32, &[41 + rng.below(215) as u8]);
        }),
        in_opening("execution 40 or 41", |o, rng| {
            put(o, 32, &[40 + rng.below(2) as u8]);
        }),
        in_opening("a hidden party over 15", |o, rng| {
            put(o, 2_489, &[16 + rng.below(240) as u8]);
        }),
        in_opening("another hidden party", |o, rng| {
            put(o, 2_489, &[rng.below(16) as u8]);
        }),
        in_opening("a second challenge below 20", |o, rng| {
            put(o, 1_141, &[rng.below(20) as u8, 0, 0, 0]);
        }),
        in_opening("second challenge 19 or 20", |o, rng| {
            put(o, 1_141, &[19 + rng.below(2) as u8, 0, 0, 0]);
        }),
        in_opening("a commitment and a share altered", |o, rng| {
            let (x, y) = (shown_of(o, rng), shown_of(o, rng));
            flip(o, 33 + 32 * x, 32, rng);
            flip(o, 1_145 + 4 * y, 4, rng);
        }),
        in_opening("shares of two parties altered", |o, rng| {
            let (x, y) = (shown_of(o, rng), shown_of(o, rng));
            flip(o, 545 + 16 * x, 16, rng);
            flip(o, 1_849 + 40 * y, 40, rng);
        }),
        in_opening(
            "hidden c and a altered so that the product holds",
            |o, rng| {
                let (hidden, j, more) = (hidden_of(o), rng.below(10), rng.number());
                let b = (0..16).fold(0, |b, i| b ^ number_at(o, 1_849 + 40 * i + 4 * j));
                let (at_a, at_c) = (1_209 + 40 * hidden + 4 * j, 1_145 + 4 * hidden);
                let (a, c) = (
                    number_at(o, at_a) ^ more,
                    number_at(o, at_c) ^ multiply(more, b),
                );
                put(o, at_a, &a.to_le_bytes());
                put(o, at_c, &c.to_le_bytes());
            },
        ),
        in_opening("random bytes", |o, rng| rng.fill(o)),
        in_opening("random bytes, numbers in range", |o, rng| {
            rng.fill(o);
            put(o, 32, &[rng.below(41) as u8]);
            put(o, 1_141, &[20 + rng.below(200) as u8]);
            put(o, 2_489, &[rng.below(16) as u8]);
        }),
        Mutation::new("public_key of another signer", |case, rng, fixtures| {
            *case.slice("public_key") = rng.pick(&fixtures.keys).public_key.clone();
        }),
        Mutation::of("public_key", "with another ciphertext", |bytes, rng| {
            flip(bytes, 16, 16, rng);
        }),
        Mutation::of("public_key", "with another plaintext", |bytes, rng| {
            flip(bytes, 0, 16, rng);
        }),
    ];
    for (field, start, len) in OPENING {
        let words = format!("with another {field}");
        mutations.push(Mutation::of("opening", &words, move |o, rng| {
            flip(o, start, len, rng);
        }));
    }
    for (field, start, len) in PARTY {
        let words = format!("with another {field} of the hidden party");
        mutations.push(Mutation::of("opening", &words, move |o, rng| {
            let hidden = hidden_of(o);
            flip(o, start + len * hidden, len, rng);
        }));
        let words = format!("with another {field} of a shown party");
        mutations.push(Mutation::of("opening", &words, move |o, rng| {
            let shown = shown_of(o, rng);
            flip(o, start + len * shown, len, rng);
        }));
    }
    mutations
}

// ---- card texts

/// Where each line begins.
fn line_starts(text: &[u8]) -> Vec<usize> {
    let ends = text.iter().enumerate().filter(|(_, &byte)| byte == b'\n');
    std::iter::once(0)
        .chain(ends.map(|(at, _)| at + 1))
        .collect()
}

/// A random place in a random line, so that short lines are met as often as long ones.
fn place_in_line(text: &[u8], rng: &mut Rng) -> usize {
    let starts = line_starts(text);
    let line = rng.below(starts.len());
    let end = starts.get(line + 1).copied().unwrap_or(text.len());
    starts[line] + rng.below((end - starts[line]).max(1))
}

/// Where a random line ends.
fn line_end(text: &[u8], rng: &mut Rng) -> Option<usize> {
    let starts = line_starts(text);
    let line = rng.below(starts.len());
    starts.get(line + 1).map(|next| next - 1)
}

/// Another hexadecimal digit in a part of a random frame's line.
fn other_digit(text: &mut [u8], start: usize, len: usize, rng: &mut Rng) {
    let starts = line_starts(text);
    let at = starts.get(3 + rng.below(41)).copied().unwrap_or(0) + 2 * start + rng.below(2 * len);
    if let Some(digit) = text.get_mut(at) {
        let old = *digit;
        while *digit == old {
            *digit = *rng.pick(b"0123456789abcdef");
        }
    }
}

/// Bytes beside those that are digits, and others that text has.
const NO_DIGITS: [u8; 16] = *b"/:`gABFGz \t\r\n\0\x7f\xff";

fn text_mutations() -> Vec<Mutation> {
    let in_text = |words: &str, apply: fn(&mut Vec<u8>, &mut Rng)| {
        Mutation::of("text", &format!("with {words}"), apply)
    };
    let mut mutations = vec![
        in_text("its end cut off", |text, rng| {
            text.truncate(rng.below(text.len() + 1));
        }),
        in_text("its end cut off in a line", |text, rng| {
            text.truncate(place_in_line(text, rng));
        }),
        in_text("its end cut off after a line", |text, rng| {
            if let Some(end) = line_end(text, rng) {
                text.truncate(end + 1);
            }
        }),
        in_text("a byte that is no digit", |text, rng| {
            let at = place_in_line(text, rng);
            put(text, at, &[*rng.pick(&NO_DIGITS)]);
        }),
        in_text("a digit taken out", |text, rng| {
            let at = place_in_line(text, rng);
            if at < text.len() {
                text.remove(at);
            }
        }),
        in_text("two digits taken out", |text, rng| {
            let at = place_in_line(text, rng);
            text.drain(at..text.len().min(at + 2));
        }),
        in_text("a digit put in", |text, rng| {
            let at = place_in_line(text, rng);
            text.insert(at, b'0');
        }),
        in_text("two digits put in", |text, rng| {
            let at = place_in_line(text, rng);
            text.splice(at..at, *b"00");
        }),
        in_text("a line end taken out", |text, rng| {
            if let Some(end) = line_end(text, rng) {
                text.remove(end);
            }
        }),
        in_text("a line end put in", |text, rng| {
            let at = place_in_line(text, rng);
            text.insert(at, b'\n');
        }),
        in_text("a carriage return at a line's end", |text, rng| {
            if let Some(end) = line_end(text, rng) {
                text.insert(end, b'\r');
            }
        }),
        in_text("capitals in a line", |text, rng| {
            let at = place_in_line(text, rng);
            let line = text[at..].iter_mut().take_while(|byte| **byte != b'\n');
            line.for_each(|byte| byte.make_ascii_uppercase());
        }),
        in_text("no last line end", |text, _| {
            text.pop();
        }),
        in_text("bytes after its last line", |text, rng| {
            let more: &[&[u8]] = &[b"\n", b" ", b"0", b"00\n", b"\0", b"\r\n"];
            text.extend_from_slice(more[rng.below(more.len())]);
        }),
        in_text("another frame after its last line", |text, _| {
            text.extend_from_slice(&[b'0'; 960]);
            text.push(b'\n');
        }),
        in_text("a message of 32,768 bytes", |text, rng| {
            set_message(text, 65_536, rng);
        }),
        in_text("a message of 65,537 digits", |text, rng| {
            set_message(text, 65_537, rng);
        }),
        in_text("a message of 32,769 bytes", |text, rng| {
            set_message(text, 65_538, rng);
        }),
        in_text("a message far too long", |text, rng| {
            set_message(text, 200_000, rng);
        }),
        in_text("an odd count of digits in its message", |text, rng| {
            let len = 1 + 2 * rng.below(500);
            set_message(text, len, rng);
        }),
        in_text("another message", |text, rng| {
            let len = 2 * rng.below(500);
            set_message(text, len, rng);
        }),
        in_text("two lines exchanged", |text, rng| {
            let mut lines: Vec<&[u8]> = text.split_inclusive(|&byte| byte == b'\n').collect();
            if !lines.is_empty() {
                let (x, y) = (rng.below(lines.len()), rng.below(lines.len()));
                lines.swap(x, y);
            }
            *text = lines.concat();
        }),
        in_text("random bytes", |text, rng| rng.fill(text)),
    ];
    for (field, start, len) in FRAME {
        let words = format!("with another {field} in a frame");
        mutations.push(Mutation::of("text", &words, move |text, rng| {
            other_digit(text, start, len, rng);
        }));
    }
    mutations
}

/// Another second line of so many digits.
fn set_message(text: &mut Vec<u8>, digits: usize, rng: &mut Rng) {
    let starts = line_starts(text);
    if let [_, start, end, ..] = starts[..] {
        let line = (0..digits).map(|_| *rng.pick(b"0123456789abcdef"));
        let line: Vec<u8> = line.collect();
        text.splice(start..end - 1, line);
    }
}
