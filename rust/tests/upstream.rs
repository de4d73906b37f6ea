//! Programs as they are written for the crate `aegis`: they compile over this one with no other change than its name.

use hunkravy as aegis;

/// One program a module.
macro_rules! programs {
    ($($module:ident $cipher:ident $mac:ident $key_bytes:literal,)*) => {$(
        mod $module {
            use super::aegis::$module::{$cipher, $mac, Decryptor, Encryptor, Key, Nonce, Tag};

            const KEY: Key = [7; $key_bytes];
            const NONCE: Nonce = [9; $key_bytes];

            /// Holds what the chunked calls return, as a program's own types do.
            struct Session<'a> {
                encryptor: Encryptor<32>,
                decryptor: Decryptor<'a, 32>,
            }

            #[test]
            fn in_chunks() -> Result<(), Box<dyn std::error::Error + Send + Sync>> {
                let cipher = $cipher::<32>::new(&KEY, &NONCE);
                let (mut ciphertext, mut plaintext) = ([0; 13], [0; 13]);
                let mut session = Session {
                    encryptor: cipher.encryptor(b"additional data"),
                    decryptor: cipher.decryptor(b"additional data", &mut plaintext),
                };
                session.encryptor.update(b"AEGIS", &mut ciphertext[..5]);
                session.encryptor.update(b" is fast", &mut ciphertext[5..]);
                let tag: Tag<32> = session.encryptor.finalize();
                session.decryptor.update(&ciphertext[..7])?;
                session.decryptor.update(&ciphertext[7..])?;
                assert_eq!(session.decryptor.finalize(&tag)?, b"AEGIS is fast");
                Ok(())
            }

            #[test]
            fn debug() {
                let cipher = $cipher::<16>::new(&KEY, &NONCE);
                let encryptor = cipher.encryptor(&[]);
                let decryptor = cipher.decryptor(&[], &mut []);
                let (module, name) = (stringify!($module), stringify!($cipher));
                assert_eq!(format!("{encryptor:?}"), format!("{module}::Encryptor {{ .. }}"));
                assert_eq!(format!("{decryptor:#?}"), format!("{module}::Decryptor {{ .. }}"));
                assert_eq!(format!("{cipher:?}"), format!("{name} {{ .. }}"));
                let mac = $mac::<16>::new(&KEY);
                assert_eq!(format!("{mac:?}"), format!("{name}Mac {{ .. }}"));
            }
        }
    )*};
}

programs! {
    aegis128l Aegis128L Aegis128LMac 16,
    aegis128x2 Aegis128X2 Aegis128X2Mac 16,
    aegis128x4 Aegis128X4 Aegis128X4Mac 16,
    aegis256 Aegis256 Aegis256Mac 32,
    aegis256x2 Aegis256X2 Aegis256X2Mac 32,
    aegis256x4 Aegis256X4 Aegis256X4Mac 32,
}

/// The ciphers of more than one lane can be copied, and used again.
#[test]
fn copies() {
    fn twice<C: Copy>(cipher: C) -> (C, C) {
        (cipher, cipher)
    }
    let (first, second) = twice(aegis::aegis128x2::Aegis128X2::<16>::new(&[1; 16], &[2; 16]));
    assert_eq!(first.encrypt(b"m", b""), second.encrypt(b"m", b""));
    let _ = twice(aegis::aegis128x4::Aegis128X4::<16>::new(&[1; 16], &[2; 16]));
    let _ = twice(aegis::aegis256x2::Aegis256X2::<16>::new(&[1; 32], &[2; 32]));
    let _ = twice(aegis::aegis256x4::Aegis256X4::<16>::new(&[1; 32], &[2; 32]));
}

/// Each type can be handed to another thread, and looked at from two.
#[test]
fn threads() {
    fn shared<T: Send + Sync>(_: T) {}
    let cipher = aegis::aegis128l::Aegis128L::<16>::new(&[1; 16], &[2; 16]);
    shared(cipher.encryptor(b""));
    shared(cipher.decryptor(b"", &mut []));
    shared(cipher);
    shared(aegis::aegis128l::Aegis128LMac::<16>::new(&[1; 16]));
}

#[test]
fn errors() {
    use aegis::Error::{self, InvalidTag, MessageTooLong, OutputBufferTooSmall};
    for error in [InvalidTag, OutputBufferTooSmall, MessageTooLong] {
        // There are no others.
        let text = match error {
            Error::InvalidTag => "Invalid tag",
            Error::OutputBufferTooSmall => "Output buffer too small",
            Error::MessageTooLong => "Message too long",
        };
        assert_eq!(error.to_string(), text);
        let source: Box<dyn std::error::Error> = error.into();
        assert!(source.source().is_none());
    }
}
