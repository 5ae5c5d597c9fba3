//! What the tests share.
#![allow(dead_code)]

pub mod json;

pub const WORK_LEN: usize = 65_536;

/// A work slice with some bytes more than needed, none of them zero.
pub fn dirty_work() -> Vec<u8> {
    vec![0xd7; WORK_LEN + 5]
}

pub fn assert_work_cleared(work: &[u8]) {
    assert!(work[..WORK_LEN].iter().all(|&byte| byte == 0));
    assert!(work[WORK_LEN..].iter().all(|&byte| byte == 0xd7));
}

pub fn assert_untouched(slice: &[u8]) {
    assert!(slice.iter().all(|&byte| byte == 0xd7));
}

/// The card text of a signature.
pub fn card_text(public_key: &[u8], message: &[u8], signature: &[u8]) -> Vec<u8> {
    let (head, frames) = signature.split_at(96);
    let mut text = String::new();
    for line in [public_key, message, head]
        .into_iter()
        .chain(frames.chunks(480))
    {
        text.extend(line.iter().map(|byte| format!("{byte:02x}")));
        text.push('\n');
    }
    text.into_bytes()
}
