//! Encrypts a message with AEGIS-256, and decrypts it again.

use hunkravy::aegis256::Aegis256;

fn main() -> Result<(), Box<dyn std::error::Error>> {
    let (mut key, mut nonce) = ([0; 32], [0; 32]);
    hunkravy::fill_random(&mut key)?;
    hunkravy::fill_random(&mut nonce)?; // a new one for each message

    let mut buffer = *b"a message";
    let tag = Aegis256::<32>::new(&key, &nonce).encrypt_in_place(&mut buffer, b"header");

    Aegis256::<32>::new(&key, &nonce).decrypt_in_place(&mut buffer, &tag, b"header")?;
    assert_eq!(&buffer, b"a message");
    Ok(())
}
