//! What the library refuses.

use std::error::Error;
use std::fmt;

/// A refusal: its case says why, [`number`](Self::number) and [`place`](Self::place) are those that
/// the card program prints.
#[derive(Clone, Copy, Debug, PartialEq, Eq, Hash)]
#[non_exhaustive]
pub enum Refusal {
    /// 1: the key is not 16 bytes.
    KeyLength,
    /// 2: the public key is not 32 bytes, or the plaintext for making one not 16.
    PublicKeyLength,
    /// 3: the message is over 32,768 bytes.
    MessageLength,
    /// 4: the salt is not 32 bytes, or the first challenge not 40.
    SaltLength,
    /// 5: the seeds for signing are not 656 bytes, or the seed for opening not 16.
    SeedLength,
    /// 6: the output is too short, or a signature or opening to be checked has not exactly its
    /// length.
    FileLength,
    /// 7: the work slice is under 65,536 bytes.
    WorkLength,
    /// 8: an opening's execution is over 40.
    ExecutionRange,
    /// 9: an opening's hidden party is over 15.
    HiddenPartyRange,
    /// 10: an opening's second challenge is below 20.
    SecondChallengeRange,
    /// 11: some S-box input under this key is zero.
    ZeroInput {
        /// The lowest such S-box, 0 to 199.
        sbox: u8,
    },
    /// 12: the key does not take the plaintext to the ciphertext.
    WrongKey,
    /// 13: in an opening a shown party's commitment differs.
    CommitmentDiffers {
        /// The lowest such party.
        party: u8,
    },
    /// 14: in an opening a shown party's share differs, or the output shares miss the ciphertext.
    ShareDiffers {
        /// The lowest such party; 16 for the ciphertext.
        party: u8,
    },
    /// 15: c is not the sum of the products of a and b.
    ProductDiffers {
        /// The lowest such execution, an opening's own.
        execution: u8,
    },
    /// 16: the first hash differs: public key, message, salt, commitments or offsets are not what was
    /// signed.
    FirstHashDiffers,
    /// 17: the third hash differs.
    ThirdHashDiffers,
    /// 18: card text breaks its form.
    TextForm {
        /// The first bad line, from 1; 45 for bytes after the last.
        line: u8,
    },
}

impl Refusal {
    /// 1 to 18.
    pub fn number(self) -> u8 {
        match self {
            Self::KeyLength => 1,
            Self::PublicKeyLength => 2,
            Self::MessageLength => 3,
            Self::SaltLength => 4,
            Self::SeedLength => 5,
            Self::FileLength => 6,
            Self::WorkLength => 7,
            Self::ExecutionRange => 8,
            Self::HiddenPartyRange => 9,
            Self::SecondChallengeRange => 10,
            Self::ZeroInput { .. } => 11,
            Self::WrongKey => 12,
            Self::CommitmentDiffers { .. } => 13,
            Self::ShareDiffers { .. } => 14,
            Self::ProductDiffers { .. } => 15,
            Self::FirstHashDiffers => 16,
            Self::ThirdHashDiffers => 17,
            Self::TextForm { .. } => 18,
        }
    }

    /// Where: the S-box, party, execution or line; 0 for the other refusals.
    pub fn place(self) -> u8 {
        match self {
            Self::ZeroInput { sbox: place }
            | Self::CommitmentDiffers { party: place }
            | Self::ShareDiffers { party: place }
            | Self::ProductDiffers { execution: place }
            | Self::TextForm { line: place } => place,
            _ => 0,
        }
    }

    /// What the number means, in the words of `banquet_refusal_text` in `include/banquet.h`. Where a
    /// place belongs to it, they say what [`place`](Self::place) counts.
    pub fn text(self) -> &'static str {
        match self {
            Self::KeyLength => "the key is not 16 bytes",
            Self::PublicKeyLength => "the public key is not 32 bytes, or the plaintext not 16",
            Self::MessageLength => "the message is over 32,768 bytes",
            Self::SaltLength => "the salt is not 32 bytes, or the first challenge not 40",
            Self::SeedLength => "the seeds are not 656 bytes, or the seed for opening not 16",
            Self::FileLength => {
                "the output is too short, or the signature or opening has not its length"
            }
            Self::WorkLength => "the work slice is under 65,536 bytes",
            Self::ExecutionRange => "the execution is over 40",
            Self::HiddenPartyRange => "the hidden party is over 15",
            Self::SecondChallengeRange => "the second challenge is below 20",
            Self::ZeroInput { .. } => {
                "an S-box input is zero under this key (place: the lowest such S-box)"
            }
            Self::WrongKey => "the key does not take the plaintext to the ciphertext",
            Self::CommitmentDiffers { .. } => {
                "a shown party's commitment differs (place: the lowest such party)"
            }
            Self::ShareDiffers { .. } => {
                "a shown party's share differs (place: the lowest such party), \
                 or the output shares miss the ciphertext (place 16)"
            }
            Self::ProductDiffers { .. } => {
                "c is not the sum of a_j times b_j (place: the lowest such execution)"
            }
            Self::FirstHashDiffers => {
                "the first hash differs: \
                 public key, message, salt, commitments or offsets are not what was signed"
            }
            Self::ThirdHashDiffers => "the third hash differs",
            Self::TextForm { .. } => {
                "the card's text breaks its form \
                 (place: the first bad line; 45 for bytes after the last)"
            }
        }
    }

    fn new(number: u32, place: u8) -> Option<Self> {
        Some(match number {
            1 => Self::KeyLength,
            2 => Self::PublicKeyLength,
            3 => Self::MessageLength,
            4 => Self::SaltLength,
            5 => Self::SeedLength,
            6 => Self::FileLength,
            7 => Self::WorkLength,
            8 => Self::ExecutionRange,
            9 => Self::HiddenPartyRange,
            10 => Self::SecondChallengeRange,
            11 => Self::ZeroInput { sbox: place },
            12 => Self::WrongKey,
            13 => Self::CommitmentDiffers { party: place },
            14 => Self::ShareDiffers { party: place },
            15 => Self::ProductDiffers { execution: place },
            16 => Self::FirstHashDiffers,
            17 => Self::ThirdHashDiffers,
            18 => Self::TextForm { line: place },
            _ => return None,
        })
    }
}

/// An answer of the library: number * 65,536 + place, 0 for accepted.
///
/// # Panics
///
/// If the number is none that this crate knows: then the library is another version's.
pub(crate) fn answer(code: u32) -> Result<(), Refusal> {
    if code == 0 {
        return Ok(());
    }
    let refusal = u8::try_from(code % 65_536)
        .ok()
        .and_then(|place| Refusal::new(code / 65_536, place));
    Err(refusal.unwrap_or_else(|| panic!("libcapi.a answers {code:#x}, which is no refusal")))
}

impl fmt::Display for Refusal {
    fn fmt(&self, f: &mut fmt::Formatter<'_>) -> fmt::Result {
        write!(
            f,
            "refused {} {}: {}",
            self.number(),
            self.place(),
            self.text()
        )
    }
}

impl Error for Refusal {}

#[cfg(test)]
mod tests {
    use super::*;

    #[test]
    fn zero_is_accepted() {
        assert_eq!(answer(0), Ok(()));
    }

    #[test]
    fn an_answer_keeps_its_number() {
        for number in 1..=18 {
            let refusal = answer(number * 65_536).unwrap_err();
            assert_eq!((u32::from(refusal.number()), refusal.place()), (number, 0));
        }
    }

    #[test]
    fn an_answer_keeps_its_place() {
        let with_place = [(11, 199), (13, 15), (14, 16), (15, 40), (18, 45)];
        for (number, place) in with_place {
            let refusal = answer(u32::from(number) * 65_536 + u32::from(place)).unwrap_err();
            assert_eq!((refusal.number(), refusal.place()), (number, place));
        }
    }

    #[test]
    fn every_refusal_is_told_apart_in_words() {
        let mut words: Vec<String> = (1..=18)
            .map(|number| answer(number * 65_536 + 3).unwrap_err().to_string())
            .collect();
        assert_eq!(
            words[10],
            "refused 11 3: an S-box input is zero under this key (place: the lowest such S-box)"
        );
        assert_eq!(words[16], "refused 17 0: the third hash differs");
        words.sort();
        words.dedup();
        assert_eq!(words.len(), 18);
    }

    #[test]
    #[should_panic(expected = "which is no refusal")]
    fn an_unknown_number_is_no_refusal() {
        let _ = answer(19 * 65_536);
    }
}
