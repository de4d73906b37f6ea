//! Sealing a stream.

use super::error::of_begin;
use super::{Error, HEADER_BYTES, Key, MAX_MESSAGE_BYTES, Prefix, RECORD_BYTES, RECORD_HEAD_BYTES};
use crate::exports::{Records, Refusal, record_begin};
use crate::wipe::wipe;
use alloc::vec::Vec;

/// Encrypts the messages of a stream. Its state is overwritten when it is dropped.
///
/// End each stream with [`seal_last`](Self::seal_last) or [`seal_last_in_place`](Self::seal_last_in_place): without it the
/// stream is truncated. After it the other functions return [`Error::Ended`].
///
/// **After a fork only one of the two processes may go on with a sealer**: both have its nonces.
#[must_use]
pub struct Sealer<'c> {
    records: Records<'c>,
    header: [u8; HEADER_BYTES],
}

impl<'c> Sealer<'c> {
    /// Begins a stream.
    ///
    /// # Errors
    ///
    /// [`Error::ContextTooLong`].
    pub fn new(key: &Key, prefix: &Prefix, context: &'c [u8]) -> Result<Self, Error> {
        let (mut records, mut header) = (Records::ENDED, [0; HEADER_BYTES]);
        record_begin(&mut records, key, prefix, context, &mut header).map_err(of_begin)?;
        Ok(Self { records, header })
    }

    /// Returns the header: the first bytes of the stream.
    #[must_use = "a stream does not open without its header"]
    pub fn header(&self) -> [u8; HEADER_BYTES] {
        self.header
    }

    /// Appends the record of the next message to `stream`.
    ///
    /// # Errors
    ///
    /// [`Error::TooLong`], [`Error::StreamTooLong`], [`Error::Ended`] or [`Error::OutOfMemory`]. Nothing has changed then.
    pub fn seal_next(&mut self, message: &[u8], stream: &mut Vec<u8>) -> Result<(), Error> {
        self.append(message, stream, false)
    }

    /// Appends the record of the last message to `stream`.
    ///
    /// # Errors
    ///
    /// Those of [`seal_next`](Self::seal_next). Nothing has changed then, and another message may be the last one.
    pub fn seal_last(&mut self, message: &[u8], stream: &mut Vec<u8>) -> Result<(), Error> {
        self.append(message, stream, true)
    }

    /// Encrypts the next message in place. `record` holds [`RECORD_HEAD_BYTES`] bytes of any value, the message, and 32 bytes
    /// of any value. All of it becomes the record.
    ///
    /// # Errors
    ///
    /// [`Error::TooLong`], [`Error::StreamTooLong`] or [`Error::Ended`]. Nothing has changed then: `record` still has the message,
    /// unencrypted.
    ///
    /// # Panics
    ///
    /// If `record` has less than [`RECORD_BYTES`]. Nothing has changed then.
    ///
    /// ```
    /// use hunkravy::records::{Error, RECORD_BYTES, RECORD_HEAD_BYTES, Sealer};
    ///
    /// let mut sealer = Sealer::new(&[1; 32], &[2; 24], b"context")?;
    /// let mut record = [0; RECORD_BYTES + 5];
    /// record[RECORD_HEAD_BYTES..][..5].copy_from_slice(b"AEGIS");
    /// sealer.seal_next_in_place(&mut record)?;
    /// # Ok::<(), Error>(())
    /// ```
    #[track_caller]
    pub fn seal_next_in_place(&mut self, record: &mut [u8]) -> Result<(), Error> {
        self.seal(record, false)
    }

    /// Encrypts the last message in place. `record` holds it as for [`seal_next_in_place`](Self::seal_next_in_place).
    ///
    /// # Errors
    ///
    /// Those of [`seal_next_in_place`](Self::seal_next_in_place). Nothing has changed then: `record` still has the message,
    /// unencrypted, and another may be the last one.
    ///
    /// # Panics
    ///
    /// If `record` has less than [`RECORD_BYTES`]. Nothing has changed then.
    #[track_caller]
    pub fn seal_last_in_place(&mut self, record: &mut [u8]) -> Result<(), Error> {
        self.seal(record, true)
    }

    fn append(&mut self, message: &[u8], stream: &mut Vec<u8>, is_last: bool) -> Result<(), Error> {
        if message.len() > MAX_MESSAGE_BYTES {
            return Err(Error::TooLong);
        }
        let start = stream.len();
        let end = start + message.len() + RECORD_BYTES;
        stream.try_reserve(end - start).map_err(|_| Error::OutOfMemory)?;
        stream.resize(start + RECORD_HEAD_BYTES, 0);
        stream.extend_from_slice(message);
        stream.resize(end, 0);
        let sealed = self.seal(&mut stream[start..], is_last);
        if sealed.is_err() {
            wipe(&mut stream[start..]);
            stream.truncate(start);
        }
        sealed
    }

    #[track_caller]
    fn seal(&mut self, record: &mut [u8], is_last: bool) -> Result<(), Error> {
        let message_len = record.len().checked_sub(RECORD_BYTES);
        if message_len.expect("the record buffer is less than 37 bytes") > MAX_MESSAGE_BYTES {
            return Err(Error::TooLong);
        }
        match self.records.seal(record, is_last) {
            Ok(()) => Ok(()),
            Err(Refusal::MESSAGE_TOO_LONG) => Err(Error::StreamTooLong),
            Err(Refusal::WRONG_STATE) => Err(Error::Ended),
            Err(refusal) => unreachable!("the library refused to seal a record: {refusal:?}"),
        }
    }
}

debug_as!([] Sealer<'_>, "Sealer");

/// The limit on the length of a stream, which is more than any buffer has.
#[cfg(test)]
mod tests {
    use super::{Error, Sealer};
    use crate::MAX_AEAD_BYTES;
    use alloc::vec;

    /// Neither a vector nor a buffer has changed after the error, and a shorter message may follow.
    #[test]
    fn the_longest_stream() {
        let mut sealer = Sealer::new(&[1; 32], &[2; 24], b"context").unwrap();
        // The bytes of all messages so far.
        sealer.records.opaque[2] = MAX_AEAD_BYTES - 4 - 37 - 10;
        let mut stream = vec![3; 5];
        let sealed = sealer.seal_next(&[9; 11], &mut stream);
        assert_eq!((sealed, &stream[..]), (Err(Error::StreamTooLong), &[3; 5][..]));
        // The message does not stay behind the end of the vector.
        for byte in &mut stream.spare_capacity_mut()[..37 + 11] {
            // SAFETY: the record was written there.
            assert_eq!(unsafe { byte.assume_init_read() }, 0);
        }
        let mut record = [7; 37 + 11];
        let sealed = sealer.seal_next_in_place(&mut record);
        assert_eq!((sealed, record), (Err(Error::StreamTooLong), [7; 37 + 11]));
        sealer.seal_last(&[0; 10], &mut stream).unwrap();
        assert_eq!(stream.len(), 5 + 37 + 10);
    }
}
