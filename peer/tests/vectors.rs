//! Whole signatures and openings of another implementation, byte for byte, and
//! tampered ones with their refusals.
//!
//! The folder with `vector_*.json` and `vector_*.card` is named by the
//! environment variable BANQUET_VECTORS; without it these tests are skipped.

mod common;

use banquet_peer::{
    card_output, make_public_key, open, sign, verify, verify_card, verify_opening, Refusal,
};
use common::json::Json;
use common::{assert_untouched, assert_work_cleared, card_text, dirty_work};
use std::fs;
use std::path::PathBuf;

const SIGNATURE_LEN: usize = 19_776;
const OPENING_LEN: usize = 2_554;

/// The vectors: name, JSON and card text of each.
fn vectors() -> Vec<(String, Json, Vec<u8>)> {
    let Some(folder) = std::env::var_os("BANQUET_VECTORS") else {
        eprintln!("skipped: BANQUET_VECTORS does not name a folder of vectors");
        return Vec::new();
    };
    let mut paths: Vec<PathBuf> = fs::read_dir(&folder)
        .expect("BANQUET_VECTORS names a folder")
        .map(|entry| entry.unwrap().path())
        .filter(|path| {
            path.extension()
                .is_some_and(|extension| extension == "json")
        })
        .collect();
    paths.sort();
    assert!(!paths.is_empty(), "BANQUET_VECTORS has no vectors");
    paths
        .into_iter()
        .map(|path| {
            let name = path.file_stem().unwrap().to_string_lossy().into_owned();
            let json = Json::parse(&fs::read_to_string(&path).unwrap());
            let card = fs::read(path.with_extension("card")).unwrap();
            (name, json, card)
        })
        .filter(|(_, json, _)| json.get("set").text() == "base")
        .collect()
}

fn expected(entry: &Json) -> Result<(), Refusal> {
    let expected = entry.get("expected");
    match expected.get("verdict").text() {
        "accepted" => Ok(()),
        "refused" => Err(Refusal {
            number: expected.get("number").number().try_into().unwrap(),
            place: expected.get("place").number().try_into().unwrap(),
        }),
        verdict => panic!("unknown verdict {verdict}"),
    }
}

/// The bytes after the entry's changes, in order.
fn changed(bytes: &[u8], entry: &Json) -> Vec<u8> {
    let mut bytes = bytes.to_vec();
    for change in entry.get("changes").list() {
        let at = || usize::try_from(change.get("at").number()).unwrap();
        match change.get("op").text() {
            "set" => {
                let new = change.get("hex").bytes();
                bytes[at()..][..new.len()].copy_from_slice(&new);
            }
            "insert" => {
                bytes.splice(at()..at(), change.get("hex").bytes());
            }
            "delete" => {
                let count = usize::try_from(change.get("count").number()).unwrap();
                bytes.drain(at()..at() + count);
            }
            "append" => bytes.extend(change.get("hex").bytes()),
            "truncate" => {
                let length = usize::try_from(change.get("length").number()).unwrap();
                assert!(length <= bytes.len());
                bytes.truncate(length);
            }
            op => panic!("unknown change {op}"),
        }
    }
    bytes
}

/// The work slice is cleared after success and 13 to 17, else untouched.
fn assert_work(work: &[u8], answer: Result<(), Refusal>) {
    match answer {
        Err(Refusal { number, .. }) if !(13..=17).contains(&number) => assert_untouched(work),
        _ => assert_work_cleared(work),
    }
}

fn verify_with_work(public_key: &[u8], message: &[u8], signature: &[u8]) -> Result<(), Refusal> {
    let mut work = dirty_work();
    let answer = verify(public_key, message, signature, &mut work);
    assert_work(&work, answer);
    answer
}

fn verify_opening_with_work(public_key: &[u8], opening: &[u8]) -> Result<(), Refusal> {
    let mut work = dirty_work();
    let answer = verify_opening(public_key, opening, &mut work);
    assert_work(&work, answer);
    answer
}

fn verify_card_with_work(text: &[u8]) -> Result<(), Refusal> {
    let mut work = dirty_work();
    let answer = verify_card(text, &mut work);
    assert_work(&work, answer);
    answer
}

#[test]
fn public_keys() {
    for (name, vector, _) in vectors() {
        let mut out = [0xd7; 40];
        let key = vector.get("key").bytes();
        let plaintext = vector.get("plaintext").bytes();
        assert_eq!(make_public_key(&key, &plaintext, &mut out), Ok(()));
        assert_eq!(out[..32], vector.get("public_key").bytes());
        assert_untouched(&out[32..]);

        let refused = vector.get("refused_keys").list();
        for entry in refused {
            let mut out = [0xd7; 40];
            let (key, plaintext) = (entry.get("key").bytes(), entry.get("plaintext").bytes());
            let answer = make_public_key(&key, &plaintext, &mut out);
            assert_eq!(answer, expected(entry));
            assert_untouched(&out);
        }
        println!("{name}: public key, {} refused keys", refused.len());
    }
}

#[test]
fn sbox_inputs() {
    for (name, vector, _) in vectors() {
        let key = vector.get("key").bytes().try_into().unwrap();
        let plaintext = vector.get("plaintext").bytes().try_into().unwrap();
        let encryption = banquet_peer::aes::Encryption::new(&key, &plaintext);
        assert_eq!(encryption.inputs[..], vector.get("sbox_inputs").bytes());
        println!("{name}: 200 S-box inputs");
    }
}

#[test]
fn signatures() {
    for (name, vector, card) in vectors() {
        let public_key = vector.get("public_key").bytes();
        let message = vector.get("message").bytes();
        let mut out = vec![0xd7; SIGNATURE_LEN + 7];
        let mut work = dirty_work();
        let answer = sign(
            &vector.get("key").bytes(),
            &public_key,
            &message,
            &vector.get("salt").bytes(),
            &vector.get("seeds").bytes(),
            &mut out,
            &mut work,
        );
        assert_eq!(answer, Ok(()));
        assert_work_cleared(&work);
        let (signature, rest) = out.split_at(SIGNATURE_LEN);
        assert_untouched(rest);
        assert!(signature == vector.get("seal").bytes());
        assert_eq!(signature[32..64], vector.get("h1").bytes());
        assert_eq!(signature[64..96], vector.get("h3").bytes());
        assert_eq!(verify_with_work(&public_key, &message, signature), Ok(()));
        assert!(card_text(&public_key, &message, signature) == card);
        assert_eq!(verify_card_with_work(&card), Ok(()));

        let tampered = vector.get("tampered_seals").list();
        for entry in tampered {
            let changed = changed(signature, entry);
            assert_eq!(
                verify_with_work(&public_key, &message, &changed),
                expected(entry),
                "{name}: {}",
                entry.get("name").text()
            );
        }

        let inputs = vector.get("tampered_inputs").list();
        for entry in inputs {
            let message = if entry.get("message").is_null() {
                vec![0; entry.get("message_zero_bytes").number() as usize]
            } else {
                entry.get("message").bytes()
            };
            assert_eq!(
                verify_with_work(&entry.get("public_key").bytes(), &message, signature),
                expected(entry),
                "{name}: {}",
                entry.get("name").text()
            );
        }
        println!(
            "{name}: signature and card, {} tampered signatures, {} tampered inputs",
            tampered.len(),
            inputs.len()
        );
    }
}

#[test]
fn card_texts() {
    for (name, vector, card) in vectors() {
        let tampered = vector.get("tampered_texts").list();
        for entry in tampered {
            assert_eq!(
                card_output(verify_card_with_work(&changed(&card, entry))),
                entry.get("expected_output").text(),
                "{name}: {}",
                entry.get("name").text()
            );
        }
        println!("{name}: {} tampered card texts", tampered.len());
    }
}

#[test]
fn openings() {
    for (name, vector, _) in vectors() {
        let public_key = vector.get("public_key").bytes();
        let openings = vector.get("openings").list();
        let (mut tampered, mut tampered_keys) = (0, 0);
        for entry in openings {
            let opening_name = entry.get("name").text();
            let number = |field: &str| u32::try_from(entry.get(field).number()).unwrap();
            let mut out = vec![0xd7; OPENING_LEN + 7];
            let mut work = dirty_work();
            let answer = open(
                &vector.get("key").bytes(),
                &public_key,
                &entry.get("salt").bytes(),
                &entry.get("root_seed").bytes(),
                number("e"),
                &entry.get("first_draws").bytes(),
                number("R"),
                number("hidden"),
                &mut out,
                &mut work,
            );
            assert_eq!(answer, Ok(()));
            assert_work_cleared(&work);
            let (opening, rest) = out.split_at(OPENING_LEN);
            assert_untouched(rest);
            assert!(
                opening == entry.get("opening").bytes(),
                "{name}: opening {opening_name}"
            );
            assert_eq!(verify_opening_with_work(&public_key, opening), Ok(()));

            for entry in entry.get("tampered").list() {
                tampered += 1;
                assert_eq!(
                    verify_opening_with_work(&public_key, &changed(opening, entry)),
                    expected(entry),
                    "{name}: opening {opening_name}, {}",
                    entry.get("name").text()
                );
            }
            for entry in entry.get("tampered_public_key").list() {
                tampered_keys += 1;
                assert_eq!(
                    verify_opening_with_work(&entry.get("public_key").bytes(), opening),
                    expected(entry),
                    "{name}: opening {opening_name}, public key {}",
                    entry.get("name").text()
                );
            }
        }
        println!(
            "{name}: {} openings, {tampered} tampered openings, {tampered_keys} tampered public keys",
            openings.len()
        );
    }
}
