//! SHAKE128 of FIPS 202, for whole bytes.

use crate::counters::count_permutation;

/// "The 24 Keccak round constants [...] stand as constant tables."
const ROUND_CONSTANTS: [u64; 24] = [
    0x0000000000000001,
    0x0000000000008082,
    0x800000000000808a,
    0x8000000080008000,
    0x000000000000808b,
    0x0000000080000001,
    0x8000000080008081,
    0x8000000000008009,
    0x000000000000008a,
    0x0000000000000088,
    0x0000000080008009,
    0x000000008000000a,
    0x000000008000808b,
    0x800000000000008b,
    0x8000000000008089,
    0x8000000000008003,
    0x8000000000008002,
    0x8000000000000080,
    0x000000000000800a,
    0x800000008000000a,
    0x8000000080008081,
    0x8000000000008080,
    0x0000000080000001,
    0x8000000080008008,
];

/// Rotation of lane (x, y), at x + 5y.
const ROTATIONS: [u32; 25] = [
    0, 1, 62, 28, 27, //
    36, 44, 6, 55, 20, //
    3, 10, 43, 25, 39, //
    41, 45, 15, 21, 8, //
    18, 2, 61, 56, 14,
];

/// Keccak-f[1600]; lane (x, y) is at x + 5y.
fn permute(state: &mut [u64; 25]) {
    count_permutation();
    for round_constant in ROUND_CONSTANTS {
        // theta
        let mut parity = [0; 5];
        for x in 0..5 {
            for y in 0..5 {
                parity[x] ^= state[x + 5 * y];
            }
        }
        for x in 0..5 {
            let flip = parity[(x + 4) % 5] ^ parity[(x + 1) % 5].rotate_left(1);
            for y in 0..5 {
                state[x + 5 * y] ^= flip;
            }
        }
        // rho and pi
        let mut moved = [0; 25];
        for x in 0..5 {
            for y in 0..5 {
                let from = x + 5 * y;
                let to = y + 5 * ((2 * x + 3 * y) % 5);
                moved[to] = state[from].rotate_left(ROTATIONS[from]);
            }
        }
        // chi
        for y in 0..5 {
            for x in 0..5 {
                let row = 5 * y;
                state[row + x] =
                    moved[row + x] ^ (!moved[row + (x + 1) % 5] & moved[row + (x + 2) % 5]);
            }
        }
        // iota
        state[0] ^= round_constant;
    }
}

/// Bytes taken in and given out per permutation.
const RATE: usize = 168;

/// A SHAKE128 computation that still takes in bytes.
pub struct Shake128 {
    state: [u64; 25],
    buffer: [u8; RATE],
    filled: usize,
}

impl Default for Shake128 {
    fn default() -> Self {
        Self::new()
    }
}

impl Shake128 {
    pub fn new() -> Self {
        Self {
            state: [0; 25],
            buffer: [0; RATE],
            filled: 0,
        }
    }

    /// Takes in more bytes.
    pub fn absorb(&mut self, mut bytes: &[u8]) {
        while !bytes.is_empty() {
            let (now, later) = bytes.split_at(bytes.len().min(RATE - self.filled));
            self.buffer[self.filled..][..now.len()].copy_from_slice(now);
            self.filled += now.len();
            if self.filled == RATE {
                self.absorb_block();
            }
            bytes = later;
        }
    }

    fn absorb_block(&mut self) {
        for (lane, bytes) in self.state.iter_mut().zip(self.buffer.chunks_exact(8)) {
            *lane ^= u64::from_le_bytes(bytes.try_into().expect("eight bytes"));
        }
        permute(&mut self.state);
        self.filled = 0;
    }

    /// Ends the input and fills `out`.
    pub fn squeeze(mut self, out: &mut [u8]) {
        // the suffix 1111 and the padding 10*1
        self.buffer[self.filled..].fill(0);
        self.buffer[self.filled] ^= 0x1f;
        self.buffer[RATE - 1] ^= 0x80;
        self.absorb_block();
        for (block_number, block) in out.chunks_mut(RATE).enumerate() {
            if block_number > 0 {
                permute(&mut self.state);
            }
            for (bytes, lane) in block.chunks_mut(8).zip(self.state) {
                bytes.copy_from_slice(&lane.to_le_bytes()[..bytes.len()]);
            }
        }
    }

    /// Ends the input and gives the first N bytes of output.
    pub fn output<const N: usize>(self) -> [u8; N] {
        let mut out = [0; N];
        self.squeeze(&mut out);
        out
    }
}

/// N bytes of SHAKE128 of the parts put together.
pub fn shake128<const N: usize>(parts: &[&[u8]]) -> [u8; N] {
    let mut shake = Shake128::new();
    for part in parts {
        shake.absorb(part);
    }
    shake.output()
}

#[cfg(test)]
mod tests {
    use super::*;

    fn hex(bytes: &[u8]) -> String {
        bytes.iter().map(|byte| format!("{byte:02x}")).collect()
    }

    #[test]
    fn known_answers() {
        assert_eq!(
            hex(&shake128::<32>(&[])),
            "7f9c2ba4e88f827d616045507605853ed73b8093f6efbc88eb1a6eacfa66ef26"
        );
        assert_eq!(
            hex(&shake128::<32>(&[b"abc"])),
            "5881092dd818bf5cf8a3ddb793fbcba74097d5c526a6d35f97b83351940f2cc8"
        );
        assert_eq!(
            hex(&shake128::<32>(&[
                b"The quick brown fox jumps over the lazy dog"
            ])),
            "f4202e3c5852f9182a0430fd8144f0a74b95e7417ecae17db0f8cfeed0e3e66e"
        );
        // FIPS 202 example: 1600 bits, each byte 0xa3
        assert_eq!(
            hex(&shake128::<32>(&[&[0xa3; 200]])),
            "131ab8d2b594946b9c81333f9bb6e0ce75c3b93104fa3469d3917457385da037"
        );
    }

    #[test]
    fn the_cut_into_parts_does_not_matter() {
        let input: Vec<u8> = (0..700u32).map(|i| (i * 7) as u8).collect();
        let whole: [u8; 400] = shake128(&[&input]);
        for cut in [0, 1, 7, 8, 167, 168, 169, 335, 336, 337, 700] {
            let (left, right) = input.split_at(cut);
            assert_eq!(shake128::<400>(&[left, right]), whole);
        }
    }

    #[test]
    fn a_longer_output_begins_with_the_shorter() {
        let long: [u8; 505] = shake128(&[b"long"]);
        assert_eq!(shake128::<1>(&[b"long"])[..], long[..1]);
        assert_eq!(shake128::<168>(&[b"long"])[..], long[..168]);
        assert_eq!(shake128::<169>(&[b"long"])[..], long[..169]);
        assert_eq!(shake128::<336>(&[b"long"])[..], long[..336]);
    }
}
