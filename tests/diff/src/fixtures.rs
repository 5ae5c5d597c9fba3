//! Keys, signatures and openings that the cases start from, made by the plain implementation.

use crate::rng::Rng;
use banquet_peer as peer;

pub struct Keys {
    pub key: Vec<u8>,
    pub public_key: Vec<u8>,
}

pub struct Signed {
    pub public_key: Vec<u8>,
    pub message: Vec<u8>,
    pub signature: Vec<u8>,
}

pub struct Opened {
    pub public_key: Vec<u8>,
    pub opening: Vec<u8>,
}

pub struct Fixtures {
    pub keys: Vec<Keys>,
    pub signed: Vec<Signed>,
    pub opened: Vec<Opened>,
}

/// Second challenges at the ends of the range and among the points of the polynomials.
const SECOND_CHALLENGES: [u32; 7] = [20, 21, 39, 40, 41, 0x8000_0000, u32::MAX];

/// Lengths of messages: none, the longest, and around a block of SHAKE128.
const MESSAGE_LENGTHS: [usize; 8] = [0, 1, 18, 100, 101, 168, 4_096, 32_768];

impl Fixtures {
    pub fn new(rng: &mut Rng) -> Self {
        let keys: Vec<Keys> = (0..8).map(|_| good_keys(rng)).collect();
        let signed = MESSAGE_LENGTHS
            .iter()
            .zip(&keys)
            .map(|(&n, keys)| signed(rng, keys, n))
            .collect();
        let opened = (0..32)
            .map(|i| opened(rng, &keys[i % keys.len()], i))
            .collect();
        Self {
            keys,
            signed,
            opened,
        }
    }
}

/// Keys are tried until one meets no zero.
fn good_keys(rng: &mut Rng) -> Keys {
    let plaintext = rng.bytes(16);
    let mut public_key = vec![0; 32];
    loop {
        let key = rng.bytes(16);
        if peer::make_public_key(&key, &plaintext, &mut public_key).is_ok() {
            return Keys { key, public_key };
        }
    }
}

fn signed(rng: &mut Rng, keys: &Keys, message_len: usize) -> Signed {
    let message = rng.bytes(message_len);
    let mut signature = vec![0; 19_776];
    peer::sign(
        &keys.key,
        &keys.public_key,
        &message,
        &rng.bytes(32),
        &rng.bytes(656),
        &mut signature,
        &mut [0; 65_536],
    )
    .expect("the key is good");
    Signed {
        public_key: keys.public_key.clone(),
        message,
        signature,
    }
}

/// Opening i hides party i modulo 16; every other one has a second challenge from the list.
fn opened(rng: &mut Rng, keys: &Keys, i: usize) -> Opened {
    let second_challenge = match i % 2 {
        0 => SECOND_CHALLENGES[i / 2 % SECOND_CHALLENGES.len()],
        _ => rng.number().max(20),
    };
    let mut opening = vec![0; 2_554];
    peer::open(
        &keys.key,
        &keys.public_key,
        &rng.bytes(32),
        &rng.bytes(16),
        rng.below(41) as u32,
        &rng.bytes(40),
        second_challenge,
        (i % 16) as u32,
        &mut opening,
        &mut [0; 65_536],
    )
    .expect("the key is good");
    Opened {
        public_key: keys.public_key.clone(),
        opening,
    }
}

/// The text of a card.
pub fn card_text(signed: &Signed) -> Vec<u8> {
    let (head, frames) = signed.signature.split_at(96);
    let lines = [&signed.public_key[..], &signed.message[..], head];
    let mut text = Vec::new();
    for line in lines.into_iter().chain(frames.chunks(480)) {
        for byte in line {
            text.extend_from_slice(format!("{byte:02x}").as_bytes());
        }
        text.push(b'\n');
    }
    text
}
