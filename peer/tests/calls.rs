//! The calls as a user sees them, without vectors: round trips, refusals with
//! their order, and what becomes of the lent slices.

mod common;

use banquet_peer::{
    card_output, counters, frame, make_public_key, open, reset_counters, sign, verify, verify_card,
    verify_opening, Counters, Refusal,
};
use common::{assert_untouched, assert_work_cleared, card_text, dirty_work, WORK_LEN};

const SIGNATURE_LEN: usize = 19_776;
const OPENING_LEN: usize = 2_554;

/// The example key of FIPS 197, which meets a zero at S-box 40 with its plaintext.
const FIPS_KEY: [u8; 16] = [0, 1, 2, 3, 4, 5, 6, 7, 8, 9, 10, 11, 12, 13, 14, 15];
const FIPS_PLAINTEXT: [u8; 16] = 0x00112233445566778899aabbccddeeff_u128.to_be_bytes();

fn refused(number: u8, place: u8) -> Result<(), Refusal> {
    Err(Refusal { number, place })
}

fn bytes(start: u8, count: usize) -> Vec<u8> {
    (0..count)
        .map(|i| start.wrapping_add((i * i + i / 7) as u8))
        .collect()
}

/// Arguments of sign and open, good unless changed.
#[derive(Clone)]
struct Arguments {
    key: Vec<u8>,
    public_key: Vec<u8>,
    message: Vec<u8>,
    salt: Vec<u8>,
    seeds: Vec<u8>,
    execution: u32,
    first_challenge: Vec<u8>,
    second_challenge: u32,
    hidden: u32,
    out: Vec<u8>,
    work: Vec<u8>,
}

impl Arguments {
    fn new() -> Self {
        let key = vec![0x42; 16];
        let mut public_key = vec![0; 32];
        assert_eq!(make_public_key(&key, &[0x31; 16], &mut public_key), Ok(()));
        Self {
            key,
            public_key,
            message: b"a message".to_vec(),
            salt: bytes(3, 32),
            seeds: bytes(101, 656),
            execution: 40,
            first_challenge: bytes(57, 40),
            second_challenge: 0x89ab_cdef,
            hidden: 11,
            out: vec![0xd7; SIGNATURE_LEN + 3],
            work: dirty_work(),
        }
    }

    fn for_opening() -> Self {
        let mut arguments = Self::new();
        arguments.seeds.truncate(16);
        arguments.out.truncate(OPENING_LEN + 3);
        arguments
    }

    fn sign(&mut self) -> Result<(), Refusal> {
        sign(
            &self.key,
            &self.public_key,
            &self.message,
            &self.salt,
            &self.seeds,
            &mut self.out,
            &mut self.work,
        )
    }

    fn open(&mut self) -> Result<(), Refusal> {
        open(
            &self.key,
            &self.public_key,
            &self.salt,
            &self.seeds,
            self.execution,
            &self.first_challenge,
            self.second_challenge,
            self.hidden,
            &mut self.out,
            &mut self.work,
        )
    }

    fn signature(mut self) -> Vec<u8> {
        assert_eq!(self.sign(), Ok(()));
        assert_work_cleared(&self.work);
        assert_untouched(&self.out[SIGNATURE_LEN..]);
        self.out.truncate(SIGNATURE_LEN);
        self.out
    }

    fn opening(mut self) -> Vec<u8> {
        assert_eq!(self.open(), Ok(()));
        assert_work_cleared(&self.work);
        assert_untouched(&self.out[OPENING_LEN..]);
        self.out.truncate(OPENING_LEN);
        self.out
    }
}

type Fault = (u8, u8, fn(&mut Arguments));

/// Each fault alone gives its number, and with all later ones as well; nothing
/// is written.
fn check_faults(
    good: Arguments,
    faults: &[Fault],
    call: fn(&mut Arguments) -> Result<(), Refusal>,
) {
    for (first, &(number, place, fault)) in faults.iter().enumerate() {
        let mut alone = good.clone();
        fault(&mut alone);
        assert_eq!(call(&mut alone), refused(number, place));
        assert_untouched(&alone.out);
        assert_untouched(&alone.work);

        let mut with_later = good.clone();
        for (_, _, fault) in faults[first..].iter().rev() {
            fault(&mut with_later);
        }
        assert_eq!(call(&mut with_later), refused(number, place));
        assert_untouched(&with_later.out);
        assert_untouched(&with_later.work);
    }
}

/// Gives the arguments the FIPS 197 example, whose first zero is at S-box 40.
fn zero_sbox(arguments: &mut Arguments) {
    arguments.key = FIPS_KEY.to_vec();
    arguments.public_key[..16].copy_from_slice(&FIPS_PLAINTEXT);
}

fn wrong_ciphertext(arguments: &mut Arguments) {
    arguments.public_key[31] ^= 1;
}

#[test]
fn refusals_of_sign_come_in_order() {
    let faults: &[Fault] = &[
        (1, 0, |arguments| arguments.key.truncate(15)),
        (2, 0, |arguments| arguments.public_key.truncate(31)),
        (3, 0, |arguments| arguments.message.resize(32_769, 0)),
        (4, 0, |arguments| arguments.salt.push(0)),
        (5, 0, |arguments| arguments.seeds.truncate(16)),
        (6, 0, |arguments| arguments.out.truncate(SIGNATURE_LEN - 1)),
        (7, 0, |arguments| arguments.work.truncate(WORK_LEN - 1)),
        (11, 40, zero_sbox),
        (12, 0, wrong_ciphertext),
    ];
    check_faults(Arguments::new(), faults, Arguments::sign);
}

#[test]
fn refusals_of_open_come_in_order() {
    let faults: &[Fault] = &[
        (1, 0, |arguments| arguments.key.push(0)),
        (2, 0, |arguments| arguments.public_key.push(0)),
        (4, 0, |arguments| arguments.salt.truncate(31)),
        (4, 0, |arguments| arguments.first_challenge.truncate(39)),
        (5, 0, |arguments| arguments.seeds.resize(656, 0)),
        (6, 0, |arguments| arguments.out.truncate(OPENING_LEN - 1)),
        (7, 0, |arguments| arguments.work.truncate(WORK_LEN - 1)),
        (8, 0, |arguments| arguments.execution = 41),
        (9, 0, |arguments| arguments.hidden = 16),
        (10, 0, |arguments| arguments.second_challenge = 19),
        (11, 40, zero_sbox),
        (12, 0, wrong_ciphertext),
    ];
    check_faults(Arguments::for_opening(), faults, Arguments::open);
}

#[test]
fn numbers_of_open_are_not_cut_to_a_byte() {
    for execution in [41, 256, 1 << 16, u32::MAX] {
        let mut arguments = Arguments::for_opening();
        arguments.execution = execution;
        assert_eq!(arguments.open(), refused(8, 0));
    }
    for hidden in [16, 256, 1 << 16, u32::MAX] {
        let mut arguments = Arguments::for_opening();
        arguments.hidden = hidden;
        assert_eq!(arguments.open(), refused(9, 0));
    }
    for second_challenge in [0, 1, 19] {
        let mut arguments = Arguments::for_opening();
        arguments.second_challenge = second_challenge;
        assert_eq!(arguments.open(), refused(10, 0));
    }
}

#[test]
fn refusals_of_make_public_key() {
    type Case<'a> = (&'a [u8], &'a [u8], usize, u8, u8);
    let good_key = [0x42; 16];
    let plaintext = [0x31; 16];
    let cases: &[Case] = &[
        (&[], &[], 0, 1, 0),
        (&[1; 17], &plaintext, 32, 1, 0),
        (&good_key, &[], 31, 2, 0),
        (&good_key, &[1; 32], 32, 2, 0),
        (&FIPS_KEY, &FIPS_PLAINTEXT, 31, 6, 0),
        (&FIPS_KEY, &FIPS_PLAINTEXT, 32, 11, 40),
        (&FIPS_KEY, &FIPS_PLAINTEXT, 99, 11, 40),
    ];
    for &(key, plaintext, out_len, number, place) in cases {
        let mut out = vec![0xd7; out_len];
        assert_eq!(
            make_public_key(key, plaintext, &mut out),
            refused(number, place)
        );
        assert_untouched(&out);
    }
    // "A key with a zero among bytes 12 to 15: 11, place below 4."
    for byte in 12..16 {
        let mut key = good_key;
        key[byte] = 0;
        let Err(Refusal { number, place }) = make_public_key(&key, &plaintext, &mut [0; 32]) else {
            panic!("a zero S-box input must be refused");
        };
        assert_eq!(number, 11);
        assert!(place < 4);
    }
}

#[test]
fn a_public_key_is_plaintext_and_ciphertext() {
    let ciphertext = 0x263951c442ccf227777854efdfa9fef9_u128.to_be_bytes();
    let mut out = [0xd7; 33];
    assert_eq!(make_public_key(&[0x42; 16], &[0x31; 16], &mut out), Ok(()));
    assert_eq!(out[..16], [0x31; 16]);
    assert_eq!(out[16..32], ciphertext);
    assert_eq!(out[32], 0xd7);
}

#[test]
fn refusals_of_verify_come_in_order() {
    type Case<'a> = (&'a [u8], &'a [u8], &'a [u8], usize, u8);
    let good = Arguments::new();
    let (public_key, message) = (good.public_key.clone(), good.message.clone());
    let signature = good.signature();
    let long = vec![0; 32_769];
    let cases: &[Case] = &[
        (&public_key[..31], &long, &[], 0, 2),
        (&[], &message, &signature, WORK_LEN, 2),
        (&public_key, &long, &[], 0, 3),
        (&public_key, &message, &signature[..19_775], 0, 6),
        (&public_key, &message, &[0; 19_777], WORK_LEN, 6),
        (&public_key, &message, &signature, WORK_LEN - 1, 7),
        (&public_key, &message, &signature, 0, 7),
    ];
    for &(public_key, message, signature, work_len, number) in cases {
        let mut work = vec![0xd7; work_len];
        assert_eq!(
            verify(public_key, message, signature, &mut work),
            refused(number, 0)
        );
        assert_untouched(&work);
    }
}

#[test]
fn a_signature_verifies_and_a_damaged_one_does_not() {
    let good = Arguments::new();
    let (public_key, message) = (good.public_key.clone(), good.message.clone());
    let signature = good.signature();
    let answer = |message: &[u8], signature: &[u8]| {
        let mut work = dirty_work();
        let answer = verify(&public_key, message, signature, &mut work);
        assert_work_cleared(&work);
        answer
    };
    assert_eq!(answer(&message, &signature), Ok(()));
    assert_eq!(answer(b"another message", &signature), refused(16, 0));
    assert_eq!(answer(b"", &signature), refused(16, 0));
    // position in the signature, and the refusal when a bit there is turned
    let frame_9 = 96 + 9 * 480;
    let damages = [
        (0, 16, 0),
        (63, 16, 0),
        (95, 16, 0),
        (frame_9, 16, 0),
        (frame_9 + 64, 16, 0),
        (frame_9 + 96, 16, 0),
        (frame_9 + 311, 16, 0),
        (frame_9 + 312, 17, 0),
        (frame_9 + 395, 17, 0),
        (frame_9 + 396, 15, 9),
        (frame_9 + 400, 15, 9),
        (frame_9 + 479, 15, 9),
    ];
    for (at, number, place) in damages {
        let mut damaged = signature.clone();
        damaged[at] ^= 0x10;
        assert_eq!(answer(&message, &damaged), refused(number, place), "{at}");
    }
}

#[test]
fn shortest_and_longest_message() {
    for message in [vec![], vec![0xa5; 32_768]] {
        let mut arguments = Arguments::new();
        arguments.message = message.clone();
        arguments.out.truncate(SIGNATURE_LEN);
        arguments.work.truncate(WORK_LEN);
        let public_key = arguments.public_key.clone();
        let signature = arguments.signature();
        assert_eq!(
            verify(&public_key, &message, &signature, &mut dirty_work()),
            Ok(())
        );
        let text = card_text(&public_key, &message, &signature);
        assert_eq!(verify_card(&text, &mut dirty_work()), Ok(()));
    }
}

#[test]
fn frames_are_parts_of_the_signature() {
    let signature = Arguments::new().signature();
    assert_eq!(frame(&signature, 0), &signature[96..576]);
    assert_eq!(frame(&signature, 40), &signature[19_296..]);
    assert!(frame(&signature, 41).is_empty());
    assert!(frame(&signature, usize::MAX).is_empty());
    assert!(frame(&signature[1..], 0).is_empty());
    assert!(frame(&[0; 19_777], 0).is_empty());
}

#[test]
fn every_hidden_party_can_be_opened() {
    for hidden in 0..16 {
        let mut arguments = Arguments::for_opening();
        arguments.hidden = hidden;
        arguments.execution = 2 * hidden;
        arguments.second_challenge = 20 + hidden;
        let public_key = arguments.public_key.clone();
        let opening = arguments.opening();
        let mut work = dirty_work();
        assert_eq!(verify_opening(&public_key, &opening, &mut work), Ok(()));
        assert_work_cleared(&work);
    }
}

#[test]
fn openings_agree_before_the_hidden_party() {
    let mut arguments = Arguments::for_opening();
    let one = arguments.clone().opening();
    arguments.hidden = 4;
    let other = arguments.opening();
    assert_eq!(one[..2_489], other[..2_489]);
    assert_eq!((one[2_489], other[2_489]), (11, 4));
}

#[test]
fn refusals_of_verify_opening() {
    let good = Arguments::for_opening();
    let public_key = good.public_key.clone();
    let opening = good.opening();
    let cases: &[(&[u8], &[u8], usize, u8)] = &[
        (&public_key[1..], &[], 0, 2),
        (&public_key, &opening[..2_553], 0, 6),
        (&public_key, &[0; 2_555], WORK_LEN, 6),
        (&public_key, &[0xff; 2_554], WORK_LEN - 1, 7),
        (&public_key, &[0xff; 2_554], WORK_LEN, 8),
    ];
    for &(public_key, opening, work_len, number) in cases {
        let mut work = vec![0xd7; work_len];
        assert_eq!(
            verify_opening(public_key, opening, &mut work),
            refused(number, 0)
        );
        assert_untouched(&work);
    }

    // changed bytes: positions with new values, and the refusal
    type Changes<'a> = &'a [(usize, &'a [u8])];
    let turned = |at: usize| [opening[at] ^ 1];
    let untouching: &[(Changes, u8)] = &[
        (&[(32, &[41]), (2_489, &[16]), (1_141, &[0; 4])], 8),
        (&[(2_489, &[16]), (1_141, &[0; 4])], 9),
        (&[(1_141, &[19, 0, 0, 0])], 10),
    ];
    let clearing: &[(Changes, u8, u8)] = &[
        (&[(0, &turned(0))], 13, 0),
        (&[(33 + 32 * 6, &turned(33 + 32 * 6))], 13, 6),
        // a bad commitment of party 9 comes before a bad share of party 2
        (
            &[(33 + 32 * 9, &turned(33 + 32 * 9)), (577, &turned(577))],
            13,
            9,
        ),
        (&[(577, &turned(577))], 14, 2),
        (&[(1_145 + 4 * 5, &turned(1_145 + 4 * 5))], 14, 5),
        (&[(1_209 + 40 * 15, &turned(1_209 + 40 * 15))], 14, 15),
        (&[(1_849 + 39, &turned(1_849 + 39))], 14, 0),
        (&[(801, &turned(801))], 14, 0),
        // the hidden party is 11
        (&[(545 + 16 * 11, &turned(545 + 16 * 11))], 14, 16),
        (&[(1_145 + 4 * 11, &turned(1_145 + 4 * 11))], 15, 40),
        (&[(1_209 + 40 * 11, &turned(1_209 + 40 * 11))], 15, 40),
        (&[(1_849 + 40 * 11, &turned(1_849 + 40 * 11))], 15, 40),
    ];
    let answer = |changes: Changes, work: &mut [u8]| {
        let mut changed = opening.clone();
        for &(at, new) in changes {
            changed[at..][..new.len()].copy_from_slice(new);
        }
        verify_opening(&public_key, &changed, work)
    };
    for &(changes, number) in untouching {
        let mut work = dirty_work();
        assert_eq!(answer(changes, &mut work), refused(number, 0));
        assert_untouched(&work);
    }
    for &(changes, number, place) in clearing {
        let mut work = dirty_work();
        assert_eq!(answer(changes, &mut work), refused(number, place));
        assert_work_cleared(&work);
    }
    // nothing shows the hidden party's commitment
    let at = 33 + 32 * 11;
    let mut work = dirty_work();
    assert_eq!(answer(&[(at, &turned(at))], &mut work), Ok(()));
}

#[test]
fn card_texts() {
    let good = Arguments::new();
    let (public_key, message) = (good.public_key.clone(), good.message.clone());
    let signature = good.signature();
    let text = card_text(&public_key, &message, &signature);
    let mut work = dirty_work();
    assert_eq!(card_output(verify_card(&text, &mut work)), "accepted\n");
    assert_work_cleared(&work);
    // the form is right but the work slice too short
    let mut work = [0xd7; 100];
    assert_eq!(verify_card(&text, &mut work), refused(7, 0));
    assert_untouched(&work);

    let bad_form = |text: &[u8], place: u8| {
        let mut work = dirty_work();
        assert_eq!(verify_card(text, &mut work), refused(18, place));
        assert_untouched(&work);
    };
    bad_form(b"", 1);
    bad_form(&text[..64], 1);
    bad_form(&text[..65], 2);
    bad_form(&text[..text.len() - 1], 44);
    bad_form(&[&text[..], b"\n"].concat(), 45);
    let mut capital = text.clone();
    let last_line = text.len() - 10;
    capital[last_line] = b'A';
    bad_form(&capital, 44);
    capital[0] = b'A';
    bad_form(&capital, 1);
    let long = vec![0; 32_769];
    bad_form(&card_text(&public_key, &long, &signature), 2);
    // 18 comes before a false signature
    let mut other = text.clone();
    other.push(b'0');
    other[0] = if text[0] == b'0' { b'1' } else { b'0' };
    bad_form(&other, 45);
    other.pop();
    let mut work = dirty_work();
    assert_eq!(verify_card(&other, &mut work), refused(16, 0));
    assert_work_cleared(&work);
}

#[test]
fn counters_count_only_with_the_feature() {
    let count = || {
        reset_counters();
        Arguments::new().signature();
        counters()
    };
    let first = count();
    assert_eq!(first, count());
    if cfg!(feature = "count") {
        assert!(first.keccak_permutations > 3_000);
        assert!(first.wide_products > 100_000);
    } else {
        assert_eq!(first, Counters::default());
    }
}
