//! Errors, and the limit on lengths.

use crate::exports::{Answer, Refusal};
use core::fmt;

/// The most bytes of associated data, of a message and of a MAC's input: 2^61 - 1, so that a length in bits fits 64 bits.
pub const MAX_AEAD_BYTES: u64 = (1 << 61) - 1;

/// The error of a function on messages and MACs.
///
/// ```
/// use hunkravy::aegis128l::{Aegis128L, Error};
///
/// let decrypted = Aegis128L::<16>::new(&[1; 16], &[2; 16]).decrypt(b"no ciphertext", &[0; 16], b"");
/// assert_eq!(decrypted, Err(Error::InvalidTag));
/// assert_eq!(Error::InvalidTag.to_string(), "Invalid tag");
/// ```
#[derive(Clone, Copy, Debug, PartialEq, Eq)]
pub enum Error {
    /// Authentication fails: the tag of the message, or the MAC of the input, is wrong.
    InvalidTag,
    /// The destination has no room for the chunk.
    OutputBufferTooSmall,
    /// The message would be longer than [`MAX_AEAD_BYTES`].
    MessageTooLong,
}

impl fmt::Display for Error {
    fn fmt(&self, f: &mut fmt::Formatter<'_>) -> fmt::Result {
        f.write_str(match self {
            Error::InvalidTag => "Invalid tag",
            Error::OutputBufferTooSmall => "Output buffer too small",
            Error::MessageTooLong => "Message too long",
        })
    }
}

impl core::error::Error for Error {}

/// Returns an error if the tag was wrong. Panics as [`done`] does.
#[track_caller]
pub(crate) fn accepted(answer: Answer) -> Result<(), Error> {
    if answer == Err(Refusal::INVALID_TAG) {
        return Err(Error::InvalidTag);
    }
    done(answer);
    Ok(())
}

/// Panics if the library returned an error for a length.
#[track_caller]
pub(crate) fn done(answer: Answer) {
    match answer {
        Ok(()) => (),
        Err(Refusal::MESSAGE_TOO_LONG) => panic!("the message is longer than 2^61 - 1 bytes"),
        Err(Refusal::DATA_TOO_LONG) => panic!("the associated data are longer than 2^61 - 1 bytes"),
        Err(refusal) => unreachable!("the library refused a call of this crate: {refusal:?}"),
    }
}
