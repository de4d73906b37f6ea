//! What calls leave in their buffers, above all those that refuse.

use hunkravy::{Cipher, Error, Variant, variants};
use std::panic::{AssertUnwindSafe, catch_unwind};

/// What stands in a destination before a call.
const UNWRITTEN: u8 = 0xaa;
/// The most bytes of a rate block.
const LONGEST_RATE: usize = 128;
const AD: &[u8] = b"associated data";

fn cipher<V: Variant>() -> Cipher<V, 16> {
    let (mut key, mut nonce) = (V::Key::default(), V::Nonce::default());
    key.as_mut().fill(3);
    nonce.as_mut().fill(4);
    Cipher::new(&key, &nonce)
}

fn sealed<V: Variant>(message: &[u8]) -> (Vec<u8>, [u8; 16]) {
    cipher::<V>().encrypt(message, AD)
}

/// Runs a check in each variant.
macro_rules! in_each_variant {
    ($($check:ident)*) => {$(
        #[test]
        fn $check() {
            checks::$check::<variants::Aegis128L>();
            checks::$check::<variants::Aegis128X2>();
            checks::$check::<variants::Aegis128X4>();
            checks::$check::<variants::Aegis256>();
            checks::$check::<variants::Aegis256X2>();
            checks::$check::<variants::Aegis256X4>();
        }
    )*};
}

in_each_variant! {
    a_dropped_decryptor_leaves_zeros
    decrypted_chunks_are_authentic_or_zeros
    a_chunk_without_room_changes_nothing
    a_ciphertext_of_another_length_panics
}

mod checks {
    use super::*;

    pub fn a_dropped_decryptor_leaves_zeros<V: Variant>() {
        for written in [0, 1, 16, LONGEST_RATE - 1, LONGEST_RATE, LONGEST_RATE + 2] {
            let mut buffer = [UNWRITTEN; LONGEST_RATE + 8];
            let mut decryptor = cipher::<V>().decryptor(AD, &mut buffer);
            decryptor.update(&vec![1; written]).unwrap();
            drop(decryptor);
            assert!(buffer[..written].iter().all(|byte| *byte == 0));
            assert!(buffer[written..].iter().all(|byte| *byte == UNWRITTEN));
        }
    }

    pub fn decrypted_chunks_are_authentic_or_zeros<V: Variant>() {
        let (ciphertext, tag) = sealed::<V>(&[6; 40]);
        let decrypt = |end: fn([u8; 16]) -> Result<[u8; 16], Error>| {
            let mut buffer = [UNWRITTEN; 50];
            let decrypted = catch_unwind(AssertUnwindSafe(|| {
                let decrypted = cipher::<V>().decrypt_chunks(AD, &mut buffer, |update| {
                    update(&ciphertext[..30])?;
                    update(&ciphertext[30..])?;
                    end(tag)
                });
                decrypted.map(|message| message == [6; 40])
            }));
            assert_eq!(buffer[40..], [UNWRITTEN; 10]);
            (decrypted.ok(), buffer[..40].to_vec())
        };
        assert_eq!(decrypt(Ok), (Some(Ok(true)), vec![6; 40]));
        let erased = |error| (Some(Err(error)), vec![0; 40]);
        assert_eq!(decrypt(|_| Ok([0; 16])), erased(Error::InvalidTag));
        let fails = |_| Err(Error::MessageTooLong);
        assert_eq!(decrypt(fails), erased(Error::MessageTooLong));
        assert_eq!(decrypt(|_| panic!("a chunk")), (None, vec![0; 40]));
    }

    pub fn a_chunk_without_room_changes_nothing<V: Variant>() {
        let message = [6; 40];
        let (ciphertext, tag) = sealed::<V>(&message);
        let mut buffer = [UNWRITTEN; 40];
        let mut decryptor = cipher::<V>().decryptor(AD, &mut buffer);
        let refused = Err(Error::OutputBufferTooSmall);
        assert_eq!(decryptor.update(&[0; 41]), refused);
        decryptor.update(&ciphertext[..30]).unwrap();
        assert_eq!(decryptor.update(&[0; 11]), refused);
        decryptor.update(&ciphertext[30..]).unwrap();
        assert_eq!(decryptor.update(&[0]), refused);
        decryptor.update(&[]).unwrap();
        assert_eq!(decryptor.finalize(&tag).unwrap(), message);
    }

    pub fn a_ciphertext_of_another_length_panics<V: Variant>() {
        let mut encryptor = cipher::<V>().encryptor(AD);
        let mut ciphertext = [UNWRITTEN; 10];
        for length in [0, 8, 10] {
            let update = || encryptor.update(b"a message", &mut ciphertext[..length]);
            assert!(catch_unwind(AssertUnwindSafe(update)).is_err());
        }
        assert_eq!(ciphertext, [UNWRITTEN; 10]);
        encryptor.update(b"a message", &mut ciphertext[..9]);
        let (expected, tag) = sealed::<V>(b"a message");
        assert_eq!((&ciphertext[..9], encryptor.finalize()), (&expected[..], tag));
    }
}
