//! Single-call times of every call, and its counts with `--features count`.
//!
//! cargo run --release --example timing

use banquet_peer::{
    counters, make_public_key, open, reset_counters, sign, verify, verify_opening, Refusal,
};
use std::time::Instant;

/// The fastest and the middle of some single calls.
fn time(name: &str, mut call: impl FnMut() -> Result<(), Refusal>) {
    let mut times: Vec<f64> = (0..51)
        .map(|_| {
            let start = Instant::now();
            call().expect("a good call");
            1e3 * start.elapsed().as_secs_f64()
        })
        .collect();
    times.sort_by(f64::total_cmp);
    reset_counters();
    call().expect("a good call");
    let counts = counters();
    println!(
        "{name:16} fastest {:7.3} ms, median {:7.3} ms, {} permutations, {} wide products",
        times[0],
        times[times.len() / 2],
        counts.keccak_permutations,
        counts.wide_products,
    );
}

fn main() {
    let key = [0x42; 16];
    let message = [0x5a; 8];
    let salt = [0x17; 32];
    let seeds: Vec<u8> = (0..656).map(|i| (i * 7 % 251) as u8).collect();
    let first_challenge = [0x39; 40];
    let mut public_key = [0; 32];
    let mut signature = [0; 19_776];
    let mut opening = [0; 2_554];
    let mut work = vec![0; 65_536];

    time("make_public_key", || {
        make_public_key(&key, &[0x31; 16], &mut public_key)
    });
    time("sign", || {
        sign(
            &key,
            &public_key,
            &message,
            &salt,
            &seeds,
            &mut signature,
            &mut work,
        )
    });
    time("verify", || {
        verify(&public_key, &message, &signature, &mut work)
    });
    time("open", || {
        open(
            &key,
            &public_key,
            &salt,
            &seeds[..16],
            0,
            &first_challenge,
            0x1234_5678,
            3,
            &mut opening,
            &mut work,
        )
    });
    time("verify_opening", || {
        verify_opening(&public_key, &opening, &mut work)
    });
}
