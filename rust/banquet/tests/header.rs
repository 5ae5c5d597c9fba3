//! The crate and `include/banquet.h` agree: both are written by hand.

use banquet::Refusal;
use std::collections::BTreeMap;

const HEADER: &str = include_str!("../../../include/banquet.h");

/// The header's constants that are numbers, by their names without `BANQUET_`.
fn constants() -> BTreeMap<String, u64> {
    let defines = HEADER
        .lines()
        .filter_map(|line| line.strip_prefix("#define BANQUET_"));
    defines
        .filter_map(|define| {
            let mut words = define.split_whitespace();
            let name = words.next()?.to_string();
            Some((name, words.next()?.parse().ok()?))
        })
        .collect()
}

#[test]
fn the_sizes_are_the_headers() {
    let sizes = [
        ("KEY_BYTES", banquet::KEY_LEN),
        ("PLAINTEXT_BYTES", banquet::PLAINTEXT_LEN),
        ("PUBLIC_KEY_BYTES", banquet::PUBLIC_KEY_LEN),
        ("SALT_BYTES", banquet::SALT_LEN),
        ("SEED_BYTES", banquet::SEED_LEN),
        ("SEEDS_BYTES", banquet::SEEDS_LEN),
        ("FIRST_CHALLENGE_BYTES", banquet::FIRST_CHALLENGE_LEN),
        ("SIGNATURE_BYTES", banquet::SIGNATURE_LEN),
        ("OPENING_BYTES", banquet::OPENING_LEN),
        ("WORK_BYTES", banquet::WORK_LEN),
        ("MAX_MESSAGE_BYTES", banquet::MAX_MESSAGE_LEN),
        ("MAX_CARD_BYTES", banquet::MAX_CARD_LEN),
        ("STACK_BYTES", banquet::STACK_LEN),
        ("EXECUTIONS", banquet::EXECUTIONS as usize),
        ("PARTIES", banquet::PARTIES as usize),
        (
            "MIN_SECOND_CHALLENGE",
            banquet::MIN_SECOND_CHALLENGE as usize,
        ),
        ("ACCEPTED", 0),
    ];
    let mut constants = constants();
    constants.retain(|name, _| !name.starts_with("REFUSED_") && !name.starts_with("VERSION_"));
    // What single calls take of the stack is measured in C, by tests/stack.c.
    constants.retain(|name, _| !name.starts_with("STACK_") || name == "STACK_BYTES");
    let expected = sizes.map(|(name, size)| (name.to_string(), size as u64));
    assert_eq!(constants, BTreeMap::from(expected));
}

#[test]
fn the_refusals_are_numbered_from_1_to_18() {
    let mut numbers: Vec<u64> = constants()
        .into_iter()
        .filter(|(name, _)| name.starts_with("REFUSED_"))
        .map(|(_, number)| number)
        .collect();
    numbers.sort_unstable();
    assert_eq!(numbers, (1..=18).collect::<Vec<u64>>());
}

#[test]
fn the_version_is_the_headers() {
    let mut constants = constants();
    constants.retain(|name, _| name.starts_with("VERSION_"));
    let expected = [
        ("VERSION_MAJOR", env!("CARGO_PKG_VERSION_MAJOR")),
        ("VERSION_MINOR", env!("CARGO_PKG_VERSION_MINOR")),
        ("VERSION_PATCH", env!("CARGO_PKG_VERSION_PATCH")),
    ];
    let expected = expected.map(|(name, number)| (name.to_string(), number.parse().unwrap()));
    assert_eq!(constants, BTreeMap::from(expected));

    let define = format!("#define BANQUET_VERSION \"{}\"", env!("CARGO_PKG_VERSION"));
    assert_eq!(HEADER.lines().filter(|&line| line == define).count(), 1);
}

/// The strings of the header's table of texts, in order.
fn texts() -> Vec<&'static str> {
    let (_, function) = HEADER
        .split_once("const char *banquet_refusal_text(uint32_t number)\n{")
        .expect("the header has the function");
    let (_, table) = function.split_once("texts[] = {").expect("it has a table");
    let (table, _) = table.split_once("};").expect("the table ends");
    assert!(!table.contains('\\'), "no string has an escape");
    // every second piece between quotes is a string
    table.split('"').skip(1).step_by(2).collect()
}

#[test]
fn the_texts_are_the_headers() {
    let refusals = [
        Refusal::KeyLength,
        Refusal::PublicKeyLength,
        Refusal::MessageLength,
        Refusal::SaltLength,
        Refusal::SeedLength,
        Refusal::FileLength,
        Refusal::WorkLength,
        Refusal::ExecutionRange,
        Refusal::HiddenPartyRange,
        Refusal::SecondChallengeRange,
        Refusal::ZeroInput { sbox: 40 },
        Refusal::WrongKey,
        Refusal::CommitmentDiffers { party: 3 },
        Refusal::ShareDiffers { party: 16 },
        Refusal::ProductDiffers { execution: 40 },
        Refusal::FirstHashDiffers,
        Refusal::ThirdHashDiffers,
        Refusal::TextForm { line: 45 },
    ];
    let texts = texts();
    assert_eq!(texts.len(), 1 + refusals.len());
    assert_eq!(texts[0], "accepted");
    for (refusal, (number, text)) in refusals.into_iter().zip((1..).zip(&texts[1..])) {
        assert_eq!(refusal.number(), number);
        assert_eq!(&refusal.text(), text);
        let words = format!("refused {number} {}: {text}", refusal.place());
        assert_eq!(refusal.to_string(), words);
    }
}
