//! AES-128 of FIPS 197, seen through its 200 S-boxes.
//!
//! The same walk serves the true encryption, where each S-box inverts its
//! input, and a party, whose inverse shares stand for the inverses.

use crate::field::{affine_linear, byte_double, AFFINE_CONSTANT, INVERSE};
use crate::params::{BLOCK_LEN, SBOXES};

pub type Block = [u8; BLOCK_LEN];

/// "the ten AES round constants stand as constant tables"
const ROUND_CONSTANTS: [u8; 10] = [0x01, 0x02, 0x04, 0x08, 0x10, 0x20, 0x40, 0x80, 0x1b, 0x36];

const ROUNDS: usize = 10;

/// "S-boxes 0 to 39 are the key schedule's, [...] 40 to 199 are the rounds'"
const FIRST_ROUND_SBOX: usize = 4 * ROUNDS;

/// What a walk through AES meets: the input of every S-box and the output block.
pub struct Walk {
    pub inputs: [u8; SBOXES],
    pub output: Block,
}

/// An encryption: its key, the input and inverse of every S-box, and the ciphertext.
pub struct Encryption {
    pub key: Block,
    pub inputs: [u8; SBOXES],
    pub inverses: [u8; SBOXES],
    pub ciphertext: Block,
}

impl Encryption {
    pub fn new(key: &Block, plaintext: &Block) -> Self {
        let mut inverses = [0; SBOXES];
        let walk = walk(key, Some(plaintext), |sbox, input| {
            inverses[sbox] = INVERSE[usize::from(input)];
            inverses[sbox]
        });
        Self {
            key: *key,
            inputs: walk.inputs,
            inverses,
            ciphertext: walk.output,
        }
    }

    /// The lowest S-box whose input is zero.
    pub fn zero_sbox(&self) -> Option<usize> {
        self.inputs.iter().position(|&input| input == 0)
    }
}

/// "Each party carries its key share through AES, its inverse shares standing
/// for the inverses, to its S-box input shares and its output share". The
/// plaintext is given to party 0 only: "Party 0 alone adds offsets and public
/// constants."
pub fn walk_share(key: &Block, inverses: &[u8; SBOXES], plaintext: Option<&Block>) -> Walk {
    walk(key, plaintext, |sbox, _| inverses[sbox])
}

/// Carries a key through AES. With a plaintext the public constants are added:
/// the plaintext, the round constants and 0x63 after every inverse. Without
/// one only the linear parts are done.
fn walk(key: &Block, plaintext: Option<&Block>, mut inverse: impl FnMut(usize, u8) -> u8) -> Walk {
    let with_constants = plaintext.is_some();
    let affine_constant = if with_constants { AFFINE_CONSTANT } else { 0 };
    let mut inputs = [0; SBOXES];
    let mut substitute = |sbox: usize, input: u8| {
        inputs[sbox] = input;
        affine_linear(inverse(sbox, input)) ^ affine_constant
    };

    // Key schedule: "by round, four each in the order after the word's rotation".
    let mut round_keys = [*key; ROUNDS + 1];
    for round in 1..=ROUNDS {
        let previous = round_keys[round - 1];
        let rotated = [previous[13], previous[14], previous[15], previous[12]];
        let mut word: [u8; 4] =
            std::array::from_fn(|byte| substitute(4 * (round - 1) + byte, rotated[byte]));
        if with_constants {
            word[0] ^= ROUND_CONSTANTS[round - 1];
        }
        for (word_number, previous_word) in previous.chunks_exact(4).enumerate() {
            for byte in 0..4 {
                word[byte] ^= previous_word[byte];
            }
            round_keys[round][4 * word_number..][..4].copy_from_slice(&word);
        }
    }

    // Rounds: "bytes in block order", before ShiftRows.
    let mut state = *plaintext.unwrap_or(&[0; BLOCK_LEN]);
    add_block(&mut state, &round_keys[0]);
    for (round, round_key) in round_keys.iter().enumerate().skip(1) {
        for (byte, value) in state.iter_mut().enumerate() {
            *value = substitute(FIRST_ROUND_SBOX + BLOCK_LEN * (round - 1) + byte, *value);
        }
        shift_rows(&mut state);
        if round < ROUNDS {
            mix_columns(&mut state);
        }
        add_block(&mut state, round_key);
    }
    Walk {
        inputs,
        output: state,
    }
}

fn add_block(block: &mut Block, other: &Block) {
    for (byte, other) in block.iter_mut().zip(other) {
        *byte ^= other;
    }
}

/// Row r, the bytes r, r+4, r+8, r+12, turns left by r.
fn shift_rows(state: &mut Block) {
    *state = std::array::from_fn(|byte| {
        let (row, column) = (byte % 4, byte / 4);
        state[row + 4 * ((column + row) % 4)]
    });
}

fn mix_columns(state: &mut Block) {
    for column in state.chunks_exact_mut(4) {
        let [a, b, c, d] = [column[0], column[1], column[2], column[3]];
        let all = a ^ b ^ c ^ d;
        column[0] = a ^ all ^ byte_double(a ^ b);
        column[1] = b ^ all ^ byte_double(b ^ c);
        column[2] = c ^ all ^ byte_double(c ^ d);
        column[3] = d ^ all ^ byte_double(d ^ a);
    }
}

#[cfg(test)]
mod tests {
    use super::*;

    const COUNTING_KEY: Block = [0, 1, 2, 3, 4, 5, 6, 7, 8, 9, 10, 11, 12, 13, 14, 15];

    #[test]
    fn fips_197_appendix_b_meets_its_first_zero_at_sbox_18() {
        let key = 0x2b7e151628aed2a6abf7158809cf4f3c_u128.to_be_bytes();
        let plaintext = 0x3243f6a8885a308d313198a2e0370734_u128.to_be_bytes();
        let ciphertext = 0x3925841d02dc09fbdc118597196a0b32_u128.to_be_bytes();
        let encryption = Encryption::new(&key, &plaintext);
        assert_eq!(encryption.ciphertext, ciphertext);
        // word 19 of its key expansion is db0bad00
        assert_eq!(encryption.inputs[16..20], [0x0b, 0xad, 0x00, 0xdb]);
        assert_eq!(encryption.zero_sbox(), Some(18));
    }

    #[test]
    fn fips_197_appendix_c_meets_its_first_zero_at_sbox_40() {
        let plaintext = 0x00112233445566778899aabbccddeeff_u128.to_be_bytes();
        let ciphertext = 0x69c4e0d86a7b0430d8cdb78070b4c55a_u128.to_be_bytes();
        let encryption = Encryption::new(&COUNTING_KEY, &plaintext);
        assert_eq!(encryption.ciphertext, ciphertext);
        assert_eq!(encryption.zero_sbox(), Some(40));
    }

    #[test]
    fn key_bytes_13_14_15_12_feed_the_first_four_sboxes() {
        let encryption = Encryption::new(&COUNTING_KEY, &[0x5a; 16]);
        assert_eq!(encryption.inputs[..4], [13, 14, 15, 12]);
        for (byte, sbox) in [(13, 0), (14, 1), (15, 2), (12, 3)] {
            let mut key = [0x77; 16];
            key[byte] = 0;
            assert_eq!(Encryption::new(&key, &[0; 16]).zero_sbox(), Some(sbox));
        }
    }

    #[test]
    fn sbox_inputs_and_inverses_belong_together() {
        let encryption = Encryption::new(&[0x42; 16], &[0x17; 16]);
        for (input, inverse) in encryption.inputs.iter().zip(encryption.inverses) {
            assert_eq!(INVERSE[usize::from(*input)], inverse);
        }
    }

    #[test]
    fn shares_of_key_and_inverses_walk_to_shares_of_inputs_and_output() {
        let plaintext = [0x99; 16];
        let encryption = Encryption::new(&[0x42; 16], &plaintext);
        let other_key = [0x3c; 16];
        let other_inverses = std::array::from_fn(|sbox| (sbox * 5 + 1) as u8);
        let key = std::array::from_fn(|byte| encryption.key[byte] ^ other_key[byte]);
        let inverses = std::array::from_fn(|sbox| encryption.inverses[sbox] ^ other_inverses[sbox]);
        let zero = walk_share(&key, &inverses, Some(&plaintext));
        let other = walk_share(&other_key, &other_inverses, None);
        for sbox in 0..SBOXES {
            assert_eq!(
                zero.inputs[sbox] ^ other.inputs[sbox],
                encryption.inputs[sbox]
            );
        }
        for byte in 0..BLOCK_LEN {
            assert_eq!(
                zero.output[byte] ^ other.output[byte],
                encryption.ciphertext[byte]
            );
        }
    }
}
