//! Record streams: lists of messages, each of which is encrypted and decrypted on its own with AEGIS-256.
//!
//! They are for messages over a socket, and for more data than memory holds. A record opens only at its place in its stream, so
//! changed, missing, repeated or moved records are detected. The last record is marked, so a truncated stream is detected.
//!
//! A stream has a header of [`HEADER_BYTES`] and a record for each message. Its prefix is sent or stored beside it, and does
//! not have to be secret. **Use a prefix for one stream only under a key**: generate it at random. The context names what the
//! stream belongs to, such as a protocol. It is authenticated, and is not a part of the stream.
//!
//! ```
//! use hunkravy::records::{Error, Opener, Sealer};
//!
//! let (key, prefix, context) = ([1; 32], [2; 24], b"my-app/messages");
//! let mut sealer = Sealer::new(&key, &prefix, context)?;
//! let mut stream = sealer.header().to_vec();
//! sealer.seal_next(b"the first message", &mut stream)?;
//! sealer.seal_last(b"the last message", &mut stream)?;
//!
//! let (header, mut rest) = stream.split_at(hunkravy::records::HEADER_BYTES);
//! let mut opener = Opener::new(&key, &prefix, context, header)?;
//! while !opener.has_ended() {
//!     let opened = opener.open_next(rest)?;
//!     println!("{}", String::from_utf8_lossy(&opened.message));
//!     rest = opened.rest;
//! }
//! opener.finish(rest)?;
//! # Ok::<(), Error>(())
//! ```

mod error;
mod opener;
mod sealer;

pub use crate::aegis256::Key;
pub use crate::exports::{RECORD_BYTES, RECORD_HEAD_BYTES};
pub use error::Error;
pub use opener::{Opened, OpenedInPlace, Opener};
pub use sealer::Sealer;

/// The prefix of a stream: 24 bytes that are used for no other stream under its key.
pub type Prefix = [u8; 24];

/// The number of bytes of a stream's header.
pub const HEADER_BYTES: usize = 4;

/// The most bytes of a message: 16 MiB.
pub const MAX_MESSAGE_BYTES: usize = 1 << 24;

/// The most bytes of a context.
pub const MAX_CONTEXT_BYTES: usize = 65_535;

/// The position of a record in its stream.
///
/// ```
/// use hunkravy::records::Position;
///
/// let third = Position { number: 2, before: 100 };
/// assert_eq!(third.offset(), 4 + 2 * 37 + 100);
/// ```
#[derive(Clone, Copy, Debug, Default, PartialEq, Eq)]
pub struct Position {
    /// The record's number, from 0.
    pub number: u64,
    /// The number of bytes of all messages before it.
    pub before: u64,
}

impl Position {
    /// Returns how many bytes of the stream are in front of the record, or `u64::MAX` if there are more.
    #[must_use]
    pub fn offset(self) -> u64 {
        let records = self.number.saturating_mul(RECORD_BYTES as u64);
        records.saturating_add(self.before).saturating_add(HEADER_BYTES as u64)
    }
}
