//! The calls through the library, with fixed bytes in the place of random ones.

use banquet::{slices, Execution, Refusal};

const MESSAGE: &[u8] = b"PB29 12,5\nPW6 250\n";
const SALT: banquet::Salt = [0x17; 32];
const SEEDS: banquet::Seeds = [0x29; 656];

/// A key and its public key; the first of a row of keys that is good.
fn keys() -> (banquet::Key, banquet::PublicKey) {
    (1..=255)
        .map(|byte| [byte; 16])
        .find_map(|key| Some((key, banquet::public_key(&key, &[0x31; 16]).ok()?)))
        .expect("some key is good")
}

fn execution(hidden: u32) -> Execution {
    Execution {
        salt: SALT,
        seed: [0x29; 16],
        number: 40,
        first_challenge: [0x39; 40],
        second_challenge: 0x1234_5678,
        hidden,
    }
}

/// The text of a card.
fn card(public_key: &[u8], message: &[u8], signature: &[u8]) -> String {
    let (head, frames) = signature.split_at(96);
    let mut text = String::new();
    for line in [public_key, message, head]
        .into_iter()
        .chain(frames.chunks(480))
    {
        for byte in line {
            text += &format!("{byte:02x}");
        }
        text += "\n";
    }
    text
}

#[test]
fn what_is_signed_is_accepted() {
    let (key, public_key) = keys();
    for message in [&b""[..], MESSAGE, &[0x5a; banquet::MAX_MESSAGE_LEN]] {
        let signature = banquet::sign(&key, &public_key, message, &SALT, &SEEDS).unwrap();
        assert_eq!(&signature[..32], SALT);
        assert_eq!(banquet::verify(&public_key, message, &*signature), Ok(()));
        let text = card(&public_key, message, &*signature);
        assert_eq!(banquet::verify_card(text.as_bytes()), Ok(()));
    }
}

#[test]
fn what_is_altered_is_refused() {
    let (key, public_key) = keys();
    let signature = banquet::sign(&key, &public_key, MESSAGE, &SALT, &SEEDS).unwrap();
    let verify = |message, signature: &[u8]| banquet::verify(&public_key, message, signature);

    assert_eq!(verify(b"", &*signature), Err(Refusal::FirstHashDiffers));
    assert_eq!(
        verify(MESSAGE, &signature[..19_775]),
        Err(Refusal::FileLength)
    );
    let mut altered = signature.clone();
    altered[96 + 3 * 480 + 396] ^= 1; // c of execution 3
    assert_eq!(
        verify(MESSAGE, &*altered),
        Err(Refusal::ProductDiffers { execution: 3 })
    );
    let mut altered = signature.clone();
    altered[96 + 7 * 480 + 312] ^= 1; // a product offset of execution 7
    assert_eq!(verify(MESSAGE, &*altered), Err(Refusal::ThirdHashDiffers));
    let mut altered = signature.clone();
    altered[0] ^= 1; // the salt
    assert_eq!(verify(MESSAGE, &*altered), Err(Refusal::FirstHashDiffers));
    assert_eq!(
        verify(&[0; banquet::MAX_MESSAGE_LEN + 1], &*signature),
        Err(Refusal::MessageLength)
    );
}

#[test]
fn what_is_opened_is_accepted() {
    let (key, public_key) = keys();
    for hidden in 0..banquet::PARTIES {
        let opening = banquet::open(&key, &public_key, &execution(hidden)).unwrap();
        assert_eq!(u32::from(opening[2_489]), hidden);
        assert_eq!(banquet::verify_opening(&public_key, &*opening), Ok(()));

        let shown = (hidden + 1) % banquet::PARTIES;
        let mut altered = opening.clone();
        altered[33 + 32 * shown as usize] ^= 1;
        assert_eq!(
            banquet::verify_opening(&public_key, &*altered),
            Err(Refusal::CommitmentDiffers { party: shown as u8 })
        );
    }
}

/// Of the hidden party's row in an opening nothing can be worked out again.
#[test]
fn what_an_opening_says_of_the_hidden_party_is_bound_as_the_header_says() {
    let (key, public_key) = keys();
    let verify = |opening: &[u8]| banquet::verify_opening(&public_key, opening);
    for hidden in 0..banquet::PARTIES {
        let opening = banquet::open(&key, &public_key, &execution(hidden)).unwrap();
        let hidden = hidden as usize;

        // its commitment by nothing: each byte may be any, and all may
        let commitment = 33 + 32 * hidden..33 + 32 * (hidden + 1);
        for at in commitment.clone() {
            let mut altered = opening.clone();
            altered[at] ^= 1 << (at % 8);
            assert_eq!(verify(&*altered), Ok(()));
        }
        for byte in [0, 0x5a, 0xff] {
            let mut altered = opening.clone();
            altered[commitment.clone()].fill(byte);
            assert_eq!(verify(&*altered), Ok(()));
        }

        // its output share by the ciphertext
        for at in 545 + 16 * hidden..545 + 16 * (hidden + 1) {
            let mut altered = opening.clone();
            altered[at] ^= 1 << (at % 8);
            assert_eq!(verify(&*altered), Err(Refusal::ShareDiffers { party: 16 }));
        }

        // its shares of c, a and b by the product of the sums alone
        for at in [1_145 + 4 * hidden, 1_209 + 40 * hidden, 1_849 + 40 * hidden] {
            let mut altered = opening.clone();
            altered[at] ^= 1;
            assert_eq!(
                verify(&*altered),
                Err(Refusal::ProductDiffers { execution: 40 })
            );
        }
        // so another a and b with the same product are accepted: here the sums of a_0 and b_0 change
        // places
        let mut altered = opening.clone();
        for k in 0..4 {
            let sum =
                |from: usize| (0..16).fold(0, |sum, party| sum ^ opening[from + 40 * party + k]);
            let change = sum(1_209) ^ sum(1_849);
            altered[1_209 + 40 * hidden + k] ^= change;
            altered[1_849 + 40 * hidden + k] ^= change;
        }
        assert_ne!(altered, opening);
        assert_eq!(verify(&*altered), Ok(()));
    }
}

/// In a signature the first hash binds it.
#[test]
fn a_hidden_commitment_in_a_signature_is_bound() {
    let (key, public_key) = keys();
    let signature = banquet::sign(&key, &public_key, MESSAGE, &SALT, &SEEDS).unwrap();
    for at in 96 + 5 * 480 + 64..96 + 5 * 480 + 96 {
        let mut altered = signature.clone();
        altered[at] ^= 1;
        assert_eq!(
            banquet::verify(&public_key, MESSAGE, &*altered),
            Err(Refusal::FirstHashDiffers)
        );
    }
}

#[test]
fn numbers_out_of_range_are_refused() {
    let (key, public_key) = keys();
    let open = |execution: Execution| banquet::open(&key, &public_key, &execution).unwrap_err();

    assert_eq!(
        open(Execution {
            number: 41,
            ..execution(0)
        }),
        Refusal::ExecutionRange
    );
    assert_eq!(open(execution(16)), Refusal::HiddenPartyRange);
    assert_eq!(
        open(Execution {
            second_challenge: 19,
            ..execution(0)
        }),
        Refusal::SecondChallengeRange
    );
}

#[test]
fn the_example_key_of_fips_197_meets_a_zero_at_sbox_40() {
    let key = std::array::from_fn(|i| i as u8);
    let plaintext = std::array::from_fn(|i| 0x11 * i as u8);
    assert_eq!(
        banquet::public_key(&key, &plaintext),
        Err(Refusal::ZeroInput { sbox: 40 })
    );
}

#[test]
fn a_key_of_another_public_key_is_refused() {
    let (key, mut public_key) = keys();
    public_key[31] ^= 1;
    assert_eq!(
        banquet::sign(&key, &public_key, MESSAGE, &SALT, &SEEDS).unwrap_err(),
        Refusal::WrongKey
    );
}

#[test]
fn texts_that_break_their_form_are_refused_with_the_line() {
    let form = |text: &[u8]| banquet::verify_card(text).unwrap_err();
    assert_eq!(form(b""), Refusal::TextForm { line: 1 });
    let first = [b'0'; 64];
    assert_eq!(form(&first), Refusal::TextForm { line: 1 });
    assert_eq!(
        form(&[&first[..], b"\n"].concat()),
        Refusal::TextForm { line: 2 }
    );
    assert_eq!(
        form(&[&first[..], b"\n0A\n"].concat()),
        Refusal::TextForm { line: 2 }
    );
}

#[test]
fn lent_slices_end_as_the_header_says() {
    let (key, public_key) = keys();
    let mut out = vec![0xa5; 19_776 + 10];
    let mut work = vec![0x5a; 65_536 + 10];
    slices::sign(
        &key,
        &public_key,
        MESSAGE,
        &SALT,
        &SEEDS,
        &mut out,
        &mut work,
    )
    .unwrap();
    let signature = banquet::sign(&key, &public_key, MESSAGE, &SALT, &SEEDS).unwrap();
    assert_eq!(out[..19_776], signature[..]);
    assert_eq!(out[19_776..], [0xa5; 10]);
    assert!(work[..65_536].iter().all(|&byte| byte == 0));
    assert_eq!(work[65_536..], [0x5a; 10]);

    let mut out = vec![0xa5; 19_775];
    let mut work = vec![0x5a; 65_536];
    let answer = slices::sign(
        &key,
        &public_key,
        MESSAGE,
        &SALT,
        &SEEDS,
        &mut out,
        &mut work,
    );
    assert_eq!(answer, Err(Refusal::FileLength));
    assert!(out.iter().all(|&byte| byte == 0xa5));
    assert!(work.iter().all(|&byte| byte == 0x5a));
}

#[test]
fn empty_slices_are_refused_by_their_lengths() {
    assert_eq!(
        slices::public_key(&[], &[], &mut []),
        Err(Refusal::KeyLength)
    );
    assert_eq!(
        slices::sign(&[], &[], &[], &[], &[], &mut [], &mut []),
        Err(Refusal::KeyLength)
    );
    assert_eq!(
        slices::verify(&[], &[], &[], &mut []),
        Err(Refusal::PublicKeyLength)
    );
    assert_eq!(
        slices::open(&[], &[], &[], &[], 41, &[], 0, 16, &mut [], &mut []),
        Err(Refusal::KeyLength)
    );
    assert_eq!(
        slices::verify_opening(&[], &[], &mut []),
        Err(Refusal::PublicKeyLength)
    );
    assert_eq!(
        slices::verify_card(&[], &mut []),
        Err(Refusal::TextForm { line: 1 })
    );
}

#[test]
fn threads_do_not_disturb_each_other() {
    let (key, public_key) = keys();
    let expected = banquet::sign(&key, &public_key, MESSAGE, &SALT, &SEEDS).unwrap();
    std::thread::scope(|scope| {
        for _ in 0..4 {
            scope.spawn(|| {
                for _ in 0..5 {
                    let signature =
                        banquet::sign(&key, &public_key, MESSAGE, &SALT, &SEEDS).unwrap();
                    assert_eq!(signature, expected);
                    assert_eq!(banquet::verify(&public_key, MESSAGE, &*signature), Ok(()));
                }
            });
        }
    });
}

#[test]
fn slices_that_are_read_may_overlap() {
    let (key, public_key) = keys();
    let apart = banquet::sign(&key, &public_key, &public_key.clone(), &SALT, &SEEDS).unwrap();
    let same = banquet::sign(&key, &public_key, &public_key, &SALT, &SEEDS).unwrap();
    assert_eq!(same, apart);
    assert_eq!(banquet::verify(&public_key, &public_key, &*same), Ok(()));
}
