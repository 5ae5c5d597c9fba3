//! Signs pigment lines, verifies the signature, then alters one byte and shows the refusal.
//!
//! cargo run --release --example sign_and_verify

use banquet::Refusal;
use std::error::Error;
use std::fs::File;
use std::io::{self, Read};

/// Random bytes of the system.
fn random<const N: usize>() -> io::Result<[u8; N]> {
    let mut bytes = [0; N];
    File::open("/dev/urandom")?.read_exact(&mut bytes)?;
    Ok(bytes)
}

/// A key and its public key: keys are tried until one meets no zero S-box input.
fn make_keys() -> Result<(banquet::Key, banquet::PublicKey), Box<dyn Error>> {
    let plaintext = random()?;
    loop {
        let key = random()?;
        match banquet::public_key(&key, &plaintext) {
            Ok(public_key) => return Ok((key, public_key)),
            Err(refusal @ Refusal::ZeroInput { .. }) => println!("make a public key: {refusal}"),
            Err(refusal) => return Err(refusal.into()),
        }
    }
}

fn main() -> Result<(), Box<dyn Error>> {
    let (key, public_key) = make_keys()?;
    println!("make a public key: accepted");

    let mut message = *b"PB29 12,5\nPW6 250\n";
    // salt and seeds are new for every signature
    let signature = banquet::sign(&key, &public_key, &message, &random()?, &random()?)?;
    println!("sign: accepted, {} bytes", signature.len());

    banquet::verify(&public_key, &message, &*signature)?;
    println!("verify: accepted");

    message[5] = b'7'; // 12,5 becomes 72,5
    match banquet::verify(&public_key, &message, &*signature) {
        Ok(()) => Err("an altered message was accepted".into()),
        Err(refusal) => {
            println!("verify 72,5 for 12,5: {refusal}");
            Ok(())
        }
    }
}
