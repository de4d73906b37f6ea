//! Opening a stream.

use super::error::of_begin;
use super::{Error, HEADER_BYTES, Key, Position, Prefix, RECORD_BYTES, RECORD_HEAD_BYTES};
use crate::exports::{Records, Refusal};
use crate::exports::{record_begin_open, record_begin_open_at, record_len, record_open};
use alloc::vec::Vec;

/// A record that was opened.
#[derive(Clone, Debug, PartialEq, Eq)]
#[must_use]
#[non_exhaustive]
pub struct Opened<'b> {
    /// Its message.
    pub message: Vec<u8>,
    /// Whether it is the last record.
    pub is_last: bool,
    /// The bytes after the record.
    pub rest: &'b [u8],
}

/// A record that was opened in place.
#[derive(Debug, PartialEq, Eq)]
#[must_use]
#[non_exhaustive]
pub struct OpenedInPlace<'b> {
    /// Its message.
    pub message: &'b mut [u8],
    /// Whether it is the last record.
    pub is_last: bool,
    /// The bytes after the record.
    pub rest: &'b mut [u8],
}

/// Decrypts the records of a stream, in their order. Its state is overwritten when it is dropped.
///
/// The stream is complete only if [`finish`](Self::finish) returns `Ok`. Until then it may be truncated.
///
/// After an error every function returns the same error, so a record cannot be retried with other bytes. Exceptions: after
/// [`Error::OutOfMemory`] nothing has changed; and after the last record [`finish`](Self::finish) returns [`Error::Trailing`] only if its `rest` is not empty.
#[must_use]
pub struct Opener<'c> {
    records: Records<'c>,
    next: Position,
    /// The answer to further calls: a fault, or after the last record that nothing may follow it.
    end: Option<Error>,
}

impl<'c> Opener<'c> {
    /// Begins to open a stream. `header` is its first [`HEADER_BYTES`], or all of its bytes if there are fewer.
    ///
    /// # Errors
    ///
    /// [`Error::ContextTooLong`] or [`Error::Header`].
    pub fn new(key: &Key, prefix: &Prefix, context: &'c [u8], header: &[u8]) -> Result<Self, Error> {
        let known = <&[u8; HEADER_BYTES]>::try_from(header).unwrap_or(&[0; HEADER_BYTES]);
        let mut opener = Self::of(Position::default());
        record_begin_open(&mut opener.records, key, prefix, context, known).map_err(of_begin)?;
        Ok(opener)
    }

    /// Begins to open a stream at one of its records, without those before it.
    ///
    /// The position need not be trusted: a record opens only at its own position. The records before it are not verified.
    ///
    /// # Errors
    ///
    /// [`Error::ContextTooLong`], or [`Error::StreamTooLong`] if the record would begin after the limit of a stream.
    ///
    /// ```
    /// use hunkravy::records::{Error, Opener, Position, Sealer};
    ///
    /// let (key, prefix) = ([1; 32], [2; 24]);
    /// let mut sealer = Sealer::new(&key, &prefix, b"context")?;
    /// let mut stream = sealer.header().to_vec();
    /// sealer.seal_next(b"first", &mut stream)?;
    /// sealer.seal_last(b"last", &mut stream)?;
    ///
    /// let second = Position { number: 1, before: 5 };
    /// let mut opener = Opener::begin_at(&key, &prefix, b"context", second)?;
    /// let opened = opener.open_next(&stream[second.offset() as usize..])?;
    /// assert_eq!(opened.message, b"last");
    /// # Ok::<(), Error>(())
    /// ```
    pub fn begin_at(key: &Key, prefix: &Prefix, context: &'c [u8], position: Position) -> Result<Self, Error> {
        let mut opener = Self::of(position);
        let (st, Position { number, before }) = (&mut opener.records, position);
        record_begin_open_at(st, key, prefix, context, number, before).map_err(of_begin)?;
        Ok(opener)
    }

    fn of(next: Position) -> Self {
        Self { records: Records::ENDED, next, end: None }
    }

    /// Returns the position of the next record, for [`begin_at`](Self::begin_at).
    #[must_use]
    pub fn position(&self) -> Position {
        self.next
    }

    /// Returns whether the last record was opened.
    #[must_use]
    pub fn has_ended(&self) -> bool {
        self.end == Some(Error::Trailing)
    }

    /// Returns the length of the next record in bytes, from its first five bytes. It is at most 16 MiB and 37 bytes.
    ///
    /// **The length is not verified**: allocate memory for a record as its bytes arrive.
    ///
    /// # Errors
    ///
    /// [`Error::Flag`] or [`Error::TooLong`] if no record begins with these bytes; or [`Error::Trailing`] after the last
    /// record.
    pub fn record_len(&mut self, head: &[u8; RECORD_HEAD_BYTES]) -> Result<usize, Error> {
        self.check()?;
        let mut length = 0;
        match record_len(&self.records, head, &mut length) {
            Ok(()) => Ok(length),
            Err(Refusal::INVALID_TAG) => Err(self.fail(Error::Flag)),
            Err(Refusal::MESSAGE_TOO_LONG) => Err(self.fail(Error::TooLong)),
            Err(other) => unreachable!("the library refused the head of a record: {other:?}"),
        }
    }

    /// Opens the next record, which is at the beginning of `bytes`. Pass at least the whole record, or the rest of the stream.
    ///
    /// # Errors
    ///
    /// The first fault of the stream, or [`Error::StreamTooLong`]. [`Error::Truncated`] if `bytes` ends before the record
    /// does. [`Error::Trailing`] after the last record. [`Error::OutOfMemory`].
    pub fn open_next<'b>(&mut self, bytes: &'b [u8]) -> Result<Opened<'b>, Error> {
        let length = self.first_len(bytes)?;
        let (record, rest) = bytes.split_at(length);
        let mut message = Vec::new();
        message.try_reserve_exact(length).map_err(|_| Error::OutOfMemory)?;
        message.extend_from_slice(record);
        let is_last = self.open(&mut message)?;
        message.copy_within(RECORD_HEAD_BYTES.., 0);
        message.truncate(length - RECORD_BYTES);
        Ok(Opened { message, is_last, rest })
    }

    /// Opens the next record in place. The arguments are those of [`open_next`](Self::open_next).
    ///
    /// # Errors
    ///
    /// Those of [`open_next`](Self::open_next). After [`Error::Damaged`] each byte of the record is
    /// [`ERASED`](crate::ERASED). After any other error `bytes` is unchanged.
    pub fn open_next_in_place<'b>(&mut self, bytes: &'b mut [u8]) -> Result<OpenedInPlace<'b>, Error> {
        let length = self.first_len(bytes)?;
        let (record, rest) = bytes.split_at_mut(length);
        let is_last = self.open(record)?;
        Ok(OpenedInPlace { message: &mut record[RECORD_HEAD_BYTES..][..length - RECORD_BYTES], is_last, rest })
    }

    /// Checks that the whole stream was opened. `rest` has the bytes after the records that were opened.
    ///
    /// # Errors
    ///
    /// The error of an earlier call; [`Error::Truncated`] if the last record was not opened; or [`Error::Trailing`] if `rest`
    /// is not empty.
    pub fn finish(self, rest: &[u8]) -> Result<(), Error> {
        match self.end {
            Some(Error::Trailing) if rest.is_empty() => Ok(()),
            end => Err(end.unwrap_or(Error::Truncated)),
        }
    }

    fn check(&self) -> Result<(), Error> {
        self.end.map_or(Ok(()), Err)
    }

    /// Keeps the error, and returns it.
    fn fail(&mut self, error: Error) -> Error {
        self.end = Some(error);
        error
    }

    /// Returns how many bytes the record has with which `bytes` begin, if they have all of it.
    fn first_len(&mut self, bytes: &[u8]) -> Result<usize, Error> {
        self.check()?;
        let fault = match bytes.first() {
            Some(2..) => Error::Flag,
            _ => Error::Truncated,
        };
        let head = bytes.first_chunk().ok_or_else(|| self.fail(fault))?;
        let length = self.record_len(head)?;
        if bytes.len() < length {
            return Err(self.fail(Error::Truncated));
        }
        Ok(length)
    }

    /// Opens the next record, and returns whether it is the last one.
    fn open(&mut self, record: &mut [u8]) -> Result<bool, Error> {
        let (mut message_len, mut is_last) = (0, 0);
        match record_open(&mut self.records, record, &mut message_len, &mut is_last) {
            Ok(()) => (),
            Err(Refusal::INVALID_TAG) => return Err(self.fail(Error::Damaged(self.next.number))),
            Err(Refusal::MESSAGE_TOO_LONG) => return Err(self.fail(Error::StreamTooLong)),
            Err(other) => unreachable!("the library refused to open a record: {other:?}"),
        }
        self.next.number += 1;
        self.next.before += message_len as u64;
        self.end = (is_last == 1).then_some(Error::Trailing);
        Ok(self.has_ended())
    }
}

debug_as!([] Opener<'_>, "Opener");
