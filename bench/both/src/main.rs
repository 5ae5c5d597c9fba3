//! Measures the proved library (ours) and the plain implementation (the peer); `bench/compare` runs it.
//!
//! - `time`: for each call the median times and the median of the rounds' ratios, in one process,
//!   ours and the peer's in turn
//! - `once ours|peer CALL LENGTH`: one call, for callgrind to count
//! - `count CALL LENGTH`: what one call of the peer counts, if built with the feature `count`

use banquet::slices;
use banquet_peer as peer;
use std::env;
use std::hint::black_box;
use std::process::ExitCode;
use std::time::Instant;

/// Calls with the lengths of their messages, and how many calls a round has.
const CALLS: [(&str, usize, u32); 8] = [
    ("sign", 0, 1),
    ("sign", 4_096, 1),
    ("sign", 32_768, 1),
    ("verify", 0, 1),
    ("verify", 4_096, 1),
    ("verify", 32_768, 1),
    ("open", 0, 20),
    ("verify_opening", 0, 20),
];

const ROUNDS: usize = 201;

#[derive(Clone, Copy, PartialEq, Eq)]
enum Side {
    Ours,
    Peer,
}

/// The slices of the calls. `work` is zero before each, as each leaves it.
struct Buffers {
    key: [u8; 16],
    public_key: [u8; 32],
    message: Vec<u8>,
    salt: [u8; 32],
    seeds: Vec<u8>,
    first_challenge: [u8; 40],
    signature: Vec<u8>,
    opening: Vec<u8>,
    work: Vec<u8>,
}

const SECOND_CHALLENGE: u32 = 0x1234_5678;
const HIDDEN: u32 = 3;
const EXECUTION: u32 = 7;

impl Buffers {
    fn new(message_len: usize) -> Self {
        let key = [0x42; 16];
        let mut public_key = [0; 32];
        peer::make_public_key(&key, &[0x31; 16], &mut public_key).expect("the key is good");
        Self {
            key,
            public_key,
            message: (0..message_len).map(|i| (i * 5 % 253) as u8).collect(),
            salt: [0x17; 32],
            seeds: (0..656).map(|i| (i * 7 % 251) as u8).collect(),
            first_challenge: [0x39; 40],
            signature: vec![0; 19_776],
            opening: vec![0; 2_554],
            work: vec![0; 65_536],
        }
    }

    /// Makes what the call is to check.
    fn prepare(&mut self, call: &str) {
        match call {
            "verify" => self.call(Side::Peer, "sign"),
            "verify_opening" => self.call(Side::Peer, "open"),
            _ => {}
        }
    }

    fn call(&mut self, side: Side, call: &str) {
        let accepted = match (side, call) {
            (Side::Ours, "sign") => self.our_sign(),
            (Side::Ours, "verify") => self.our_verify(),
            (Side::Ours, "open") => self.our_open(),
            (Side::Ours, "verify_opening") => self.our_verify_opening(),
            (Side::Peer, "sign") => peer_sign(self),
            (Side::Peer, "verify") => peer_verify(self),
            (Side::Peer, "open") => peer_open(self),
            (Side::Peer, "verify_opening") => peer_verify_opening(self),
            _ => panic!("no such call: {call}"),
        };
        assert!(accepted, "{call} is refused");
    }

    fn our_sign(&mut self) -> bool {
        slices::sign(
            &self.key,
            &self.public_key,
            &self.message,
            &self.salt,
            &self.seeds,
            &mut self.signature,
            &mut self.work,
        )
        .is_ok()
    }

    fn our_verify(&mut self) -> bool {
        slices::verify(
            &self.public_key,
            &self.message,
            &self.signature,
            &mut self.work,
        )
        .is_ok()
    }

    fn our_open(&mut self) -> bool {
        slices::open(
            &self.key,
            &self.public_key,
            &self.salt,
            &self.seeds[..16],
            EXECUTION,
            &self.first_challenge,
            SECOND_CHALLENGE,
            HIDDEN,
            &mut self.opening,
            &mut self.work,
        )
        .is_ok()
    }

    fn our_verify_opening(&mut self) -> bool {
        slices::verify_opening(&self.public_key, &self.opening, &mut self.work).is_ok()
    }
}

// The peer's calls, under names that callgrind finds.

#[no_mangle]
#[inline(never)]
fn peer_sign(buffers: &mut Buffers) -> bool {
    peer::sign(
        &buffers.key,
        &buffers.public_key,
        &buffers.message,
        &buffers.salt,
        &buffers.seeds,
        &mut buffers.signature,
        &mut buffers.work,
    )
    .is_ok()
}

#[no_mangle]
#[inline(never)]
fn peer_verify(buffers: &mut Buffers) -> bool {
    peer::verify(
        &buffers.public_key,
        &buffers.message,
        &buffers.signature,
        &mut buffers.work,
    )
    .is_ok()
}

#[no_mangle]
#[inline(never)]
fn peer_open(buffers: &mut Buffers) -> bool {
    peer::open(
        &buffers.key,
        &buffers.public_key,
        &buffers.salt,
        &buffers.seeds[..16],
        EXECUTION,
        &buffers.first_challenge,
        SECOND_CHALLENGE,
        HIDDEN,
        &mut buffers.opening,
        &mut buffers.work,
    )
    .is_ok()
}

#[no_mangle]
#[inline(never)]
fn peer_verify_opening(buffers: &mut Buffers) -> bool {
    peer::verify_opening(&buffers.public_key, &buffers.opening, &mut buffers.work).is_ok()
}

/// Microseconds of one call, from some in a row.
fn time(buffers: &mut Buffers, side: Side, call: &str, calls: u32) -> f64 {
    let start = Instant::now();
    for _ in 0..calls {
        black_box(&mut *buffers).call(side, call);
    }
    1e6 * start.elapsed().as_secs_f64() / f64::from(calls)
}

fn median(mut values: Vec<f64>) -> f64 {
    values.sort_by(f64::total_cmp);
    values[values.len() / 2]
}

/// A line for each call: its name, the message's length, ours, the peer's, the ratio.
fn print_times() {
    for (call, message_len, calls) in CALLS {
        let mut buffers = Buffers::new(message_len);
        buffers.prepare(call);
        let (mut ours, mut peers, mut ratios) = (Vec::new(), Vec::new(), Vec::new());
        for round in 0..ROUNDS {
            let sides = match round % 2 {
                0 => [Side::Ours, Side::Peer],
                _ => [Side::Peer, Side::Ours],
            };
            let times = sides.map(|side| time(&mut buffers, side, call, calls));
            let (our, peer) = match sides[0] {
                Side::Ours => (times[0], times[1]),
                Side::Peer => (times[1], times[0]),
            };
            ours.push(our);
            peers.push(peer);
            ratios.push(our / peer);
        }
        println!(
            "{call} {message_len} {:.1} {:.1} {:.2}",
            median(ours),
            median(peers),
            median(ratios)
        );
    }
}

fn main() -> ExitCode {
    let words: Vec<String> = env::args().skip(1).collect();
    let words: Vec<&str> = words.iter().map(String::as_str).collect();
    let buffers = |call: &str, len: &str| {
        let mut buffers = Buffers::new(len.parse().expect("a length"));
        buffers.prepare(call);
        buffers
    };
    match words[..] {
        ["time"] => print_times(),
        ["once", side @ ("ours" | "peer"), call, len] => {
            let mut buffers = buffers(call, len);
            let side = match side {
                "ours" => Side::Ours,
                _ => Side::Peer,
            };
            buffers.call(side, call);
        }
        ["count", call, len] => {
            let mut buffers = buffers(call, len);
            peer::reset_counters();
            buffers.call(Side::Peer, call);
            let counters = peer::counters();
            println!(
                "{} {}",
                counters.keccak_permutations, counters.wide_products
            );
        }
        _ => {
            eprintln!("usage: banquet_bench time | once ours|peer CALL LENGTH | count CALL LENGTH");
            return ExitCode::from(2);
        }
    }
    ExitCode::SUCCESS
}
