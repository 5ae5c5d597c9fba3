//! The card text and the verdict printed for it.

use crate::params::{EXECUTIONS, FRAME_LEN, HEAD_LEN, MAX_MESSAGE_LEN, PUBLIC_KEY_LEN};
use crate::{verify, Refusal};

/// Verifies a signature given as card text.
///
/// Refuses with 18 when the text breaks its form, before all others, and leaves
/// `work` untouched then; else answers what `verify` says of the decoded bytes.
pub fn verify_card(text: &[u8], work: &mut [u8]) -> Result<(), Refusal> {
    let card = Card::read(text)?;
    verify(&card.public_key, &card.message, &card.signature, work)
}

/// "It prints `accepted`, or `refused`, number, place, with single spaces and a
/// line end."
pub fn card_output(answer: Result<(), Refusal>) -> String {
    match answer {
        Ok(()) => "accepted\n".to_string(),
        Err(Refusal { number, place }) => format!("refused {number} {place}\n"),
    }
}

/// The bytes that a card text stands for.
struct Card {
    public_key: Vec<u8>,
    message: Vec<u8>,
    signature: Vec<u8>,
}

impl Card {
    /// "lower-case hexadecimal, one frame a line, each line ended by byte 0x0A:
    /// public key, message (may be empty, at most 65,536 digits), the 96 head
    /// bytes, 41 frames; then nothing."
    fn read(text: &[u8]) -> Result<Self, Refusal> {
        let mut lines = Lines { text, number: 0 };
        let public_key = lines.next(PUBLIC_KEY_LEN..=PUBLIC_KEY_LEN)?;
        let message = lines.next(0..=MAX_MESSAGE_LEN)?;
        let mut signature = lines.next(HEAD_LEN..=HEAD_LEN)?;
        for _ in 0..EXECUTIONS {
            signature.extend(lines.next(FRAME_LEN..=FRAME_LEN)?);
        }
        lines.end()?;
        Ok(Self {
            public_key,
            message,
            signature,
        })
    }
}

/// Reads card text line by line.
struct Lines<'a> {
    /// What is not yet read.
    text: &'a [u8],
    /// How many lines were read.
    number: usize,
}

impl Lines<'_> {
    /// The bytes of the next line, if it has digits for that many bytes and
    /// its line end; "place is the first bad line".
    fn next(&mut self, lengths: std::ops::RangeInclusive<usize>) -> Result<Vec<u8>, Refusal> {
        self.number += 1;
        let bad_line = Refusal::at(18, self.number);
        let mut bytes = Vec::new();
        let mut high_digit = None;
        loop {
            let (&byte, rest) = self.text.split_first().ok_or(bad_line)?;
            self.text = rest;
            let digit = match byte {
                b'0'..=b'9' => byte - b'0',
                b'a'..=b'f' => byte - b'a' + 10,
                b'\n' if high_digit.is_none() && lengths.contains(&bytes.len()) => {
                    return Ok(bytes)
                }
                _ => return Err(bad_line),
            };
            match high_digit.take() {
                None => high_digit = Some(digit),
                Some(high) => bytes.push(16 * high + digit),
            }
        }
    }

    /// "45 for bytes after the last"
    fn end(&self) -> Result<(), Refusal> {
        if self.text.is_empty() {
            Ok(())
        } else {
            Err(Refusal::at(18, self.number + 1))
        }
    }
}

#[cfg(test)]
mod tests {
    use super::*;

    fn line(text: &[u8]) -> Result<Vec<u8>, Refusal> {
        Lines { text, number: 0 }.next(2..=3)
    }

    #[test]
    fn a_line_has_paired_lower_case_digits_and_an_end() {
        assert_eq!(line(b"09af\n"), Ok(vec![0x09, 0xaf]));
        assert_eq!(line(b"0123ff\n"), Ok(vec![0x01, 0x23, 0xff]));
        let bad: [&[u8]; 12] = [
            b"",
            b"\n",
            b"09\n",
            b"09af",
            b"09a\n",
            b"09af0\n",
            b"09af0011\n",
            b"09aF\n",
            b"09ag\n",
            b"09a/\n",
            b"09a:\n",
            b"09af\r\n",
        ];
        for text in bad {
            assert_eq!(line(text), Err(Refusal::at(18, 1)));
        }
    }

    #[test]
    fn empty_input_prints_refused_18_1() {
        assert_eq!(card_output(verify_card(b"", &mut [])), "refused 18 1\n");
        assert_eq!(card_output(Ok(())), "accepted\n");
    }
}
