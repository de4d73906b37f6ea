//! The errors.

use core::fmt;
use std::io;

/// The error of a function on files. The documentation of the function has the state that it leaves.
#[derive(Debug)]
#[non_exhaustive]
pub enum Error {
    /// Reading, writing or generating random bytes failed.
    Io(io::Error),
    /// The file has no header of this algorithm and this key.
    Header,
    /// The journal belongs to another file, or to another state of this one, or the file of that name is not a journal.
    Journal,
    /// Authentication of the page of this number fails.
    Damaged(u64),
    /// The contents would have more than [`MAX_SIZE`](super::MAX_SIZE) bytes, or 2^64 - 1 commits were made.
    TooLong,
    /// The chunk size is not from 256 to 65,536 bytes.
    ChunkSize,
    /// The context of a key has more than 120 bytes (16-byte key) or 72 (32-byte key).
    ContextTooLong,
    /// The commitment of the file is not the expected one.
    Commitment,
    /// The file is open elsewhere, in this process or in another. After a fork it is open in the process that opened it.
    Locked,
    /// The file was renamed, removed or replaced while it was open, or it has several names (hard links). Its journal would not
    /// be found.
    Moved,
    /// Writing a commit failed. Open the file again.
    Broken,
}

impl Error {
    /// Returns an error of a change or of a commit once more. One of the storage has the same number or kind.
    pub(super) fn again(&self) -> Self {
        match self {
            Error::Io(error) => match error.raw_os_error() {
                Some(number) => Error::Io(io::Error::from_raw_os_error(number)),
                None => Error::Io(error.kind().into()),
            },
            Error::Damaged(page) => Error::Damaged(*page),
            Error::Header => Error::Header,
            Error::Journal => Error::Journal,
            Error::Moved => Error::Moved,
            Error::TooLong => Error::TooLong,
            Error::Locked => Error::Locked,
            _ => Error::Broken,
        }
    }
}

/// The result of a function on files.
pub type Result<T> = core::result::Result<T, Error>;

impl fmt::Display for Error {
    fn fmt(&self, f: &mut fmt::Formatter<'_>) -> fmt::Result {
        let text = match self {
            Error::Io(error) => return error.fmt(f),
            Error::Damaged(page) => return write!(f, "page {page} is damaged"),
            Error::Header => "cannot open the header: wrong key or algorithm, damaged file, or not a raf file",
            Error::Journal => "the journal is of another file, or of another state of this one",
            Error::TooLong => "the contents are too long, or no more commits are possible",
            Error::ChunkSize => "the chunk size must be 256 to 65,536 bytes",
            Error::ContextTooLong => "the context is longer than 120 bytes (16-byte key) or 72 (32-byte key)",
            Error::Commitment => "the commitment is not the expected one",
            Error::Locked => "the file is already open, here or in another process",
            Error::Moved => "the file was renamed, removed or replaced, or has several hard links",
            Error::Broken => "a commit failed: open the file again",
        };
        f.write_str(text)
    }
}

impl std::error::Error for Error {
    fn source(&self) -> Option<&(dyn std::error::Error + 'static)> {
        match self {
            Error::Io(error) => Some(error),
            _ => None,
        }
    }
}

impl From<io::Error> for Error {
    fn from(error: io::Error) -> Self {
        Error::Io(error)
    }
}

impl From<Error> for io::Error {
    fn from(error: Error) -> Self {
        match error {
            Error::Io(error) => error,
            other => io::Error::new(io::ErrorKind::InvalidData, other),
        }
    }
}
