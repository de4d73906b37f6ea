//! Errors of record streams.

use crate::exports::Refusal;
use core::fmt;

/// The error of a [`Sealer`](super::Sealer) or an [`Opener`](super::Opener). The first six variants are faults of a stream. An
/// opener returns the first fault, in the order of the bytes.
#[derive(Clone, Copy, Debug, PartialEq, Eq)]
#[non_exhaustive]
pub enum Error {
    /// The bytes do not begin with a header.
    Header,
    /// The bytes end before the last record, or inside a record.
    Truncated,
    /// The first byte of a record is neither 0 nor 1.
    Flag,
    /// A message has more than [`MAX_MESSAGE_BYTES`](super::MAX_MESSAGE_BYTES).
    TooLong,
    /// Authentication of the record of this number, counted from 0, fails. It was changed or moved, or the key, the prefix or
    /// the context is wrong.
    Damaged(u64),
    /// Bytes follow the last record.
    Trailing,
    /// The stream would have more than [`MAX_AEAD_BYTES`](crate::MAX_AEAD_BYTES).
    StreamTooLong,
    /// The context has more than [`MAX_CONTEXT_BYTES`](super::MAX_CONTEXT_BYTES).
    ContextTooLong,
    /// The last message was sealed, and none may follow it.
    Ended,
    /// Memory ran out.
    OutOfMemory,
}

impl fmt::Display for Error {
    fn fmt(&self, f: &mut fmt::Formatter<'_>) -> fmt::Result {
        f.write_str(match self {
            Error::Header => "not a record stream: the header is wrong",
            Error::Truncated => "the record stream is truncated",
            Error::Flag => "the first byte of a record is neither 0 nor 1",
            Error::TooLong => "a message is longer than 16 MiB",
            Error::Damaged(number) => {
                return write!(f, "record {number} is damaged, or the key, prefix or context is wrong");
            }
            Error::Trailing => "bytes follow the last record",
            Error::StreamTooLong => "the stream is longer than 2^61 - 1 bytes",
            Error::ContextTooLong => "the context is longer than 65,535 bytes",
            Error::Ended => "the last message of the record stream was sealed",
            Error::OutOfMemory => "out of memory",
        })
    }
}

impl core::error::Error for Error {}

/// An error of kind [`InvalidData`](std::io::ErrorKind::InvalidData), which holds this one, or one of kind
/// [`OutOfMemory`](std::io::ErrorKind::OutOfMemory).
#[cfg(feature = "std")]
impl From<Error> for std::io::Error {
    fn from(error: Error) -> Self {
        match error {
            Error::OutOfMemory => std::io::ErrorKind::OutOfMemory.into(),
            other => std::io::Error::new(std::io::ErrorKind::InvalidData, other),
        }
    }
}

/// The error of beginning a stream.
pub(super) fn of_begin(refusal: Refusal) -> Error {
    match refusal {
        Refusal::CONTEXT_TOO_LONG => Error::ContextTooLong,
        Refusal::UNKNOWN_HEADER => Error::Header,
        Refusal::MESSAGE_TOO_LONG => Error::StreamTooLong,
        other => unreachable!("the library refused to begin a stream: {other:?}"),
    }
}
