//! Opening a file.

use super::{CONTEXT, HEAD_BYTES, Key, PIECE_BYTES};
use crate::memory::with_room;
use crate::records::{Error, Opener, Prefix, RECORD_BYTES, RECORD_HEAD_BYTES};
use crate::wipe::Wiped;
use alloc::vec::Vec;
use std::io::{self, BufRead, ErrorKind, Read};

/// The number of bytes by which memory for a record is taken first: those of a record of a whole piece.
const FIRST_BYTES: usize = RECORD_BYTES + PIECE_BYTES;

/// Decrypts a sealed file, which it reads from an inner reader. It returns only verified bytes.
///
/// **The file is complete only if reading reaches the end without an error.** Then the last record was verified, and nothing
/// follows it. Earlier bytes are a verified prefix of the contents. Nothing is read from the inner reader before the first
/// read or seek.
///
/// If the inner reader is [`Seek`](io::Seek), so is this reader. A seek verifies the record at the new place, and not all of
/// those before it. Seeking past the end is allowed, and reading there returns no bytes.
///
/// # Errors
///
/// A fault of the file is an error of kind [`ErrorKind::InvalidData`]. It holds the first fault, a
/// [`records::Error`](crate::records::Error), which [`io::Error::get_ref`] and [`io::Error::downcast`] return. Reading returns
/// all bytes before the fault first. After a fault every read of bytes and every seek returns it again. **So stop an iterator,
/// such as that of [`lines`](BufRead::lines), at its first error**: it does not end.
///
/// [`ErrorKind::InvalidInput`] if a seek is to before the start or past `u64::MAX`. Nothing has changed then.
///
/// [`ErrorKind::OutOfMemory`] and errors of the inner reader, such as [`ErrorKind::WouldBlock`], are returned, and the next
/// read continues. After [`ErrorKind::Interrupted`] the inner reader is read again. If the inner reader fails in a seek, the
/// position is unchanged. Seek again before you read: until then a read may fail, but returns no wrong byte.
///
/// # Panics
///
/// If an inner reader returns a count that is larger than its buffer.
///
/// # Memory
///
/// Memory is allocated for one record as its bytes arrive, or for two while it grows, and is overwritten when it is freed.
/// Records have up to 64 KiB in files of [`SealedWriter`](super::SealedWriter) and `hunkravy seal`, and up to 16 MiB in others.
///
/// ```
/// use hunkravy::files::{SealedReader, SealedWriter};
/// use std::io::{BufRead, Cursor, Read, Seek, SeekFrom, Write};
///
/// let mut writer = SealedWriter::new(Vec::new(), &[1; 32])?;
/// writer.write_all(b"the first line\nthe last line\n")?;
/// let file = Cursor::new(writer.finish()?);
///
/// let mut reader = SealedReader::new(file, &[1; 32]);
/// reader.seek(SeekFrom::End(-10))?;
/// let mut end = String::new();
/// reader.read_to_string(&mut end)?;
/// assert_eq!(end, "last line\n");
///
/// reader.rewind()?;
/// let lines = reader.lines().collect::<std::io::Result<Vec<_>>>()?;
/// assert_eq!(lines, ["the first line", "the last line"]);
/// # Ok::<(), std::io::Error>(())
/// ```
#[must_use]
pub struct SealedReader<R> {
    pub(super) inner: R,
    pub(super) key: Wiped<Key>,
    pub(super) prefix: Prefix,
    /// None until the prefix and the header were read.
    pub(super) opener: Option<Opener<'static>>,
    /// The record that is read, or the one that was opened, in place.
    pub(super) record: Wiped<Vec<u8>>,
    /// How many bytes of the next record were read, or of the prefix and the header.
    pub(super) filled: usize,
    /// Where the message that was opened begins in the contents, and how many bytes it has.
    pub(super) start: u64,
    pub(super) length: usize,
    /// The place of the next byte in the contents.
    pub(super) position: u64,
    /// How many bytes were read from the inner reader before the first seek.
    pub(super) taken: u64,
    /// The place of the file's first byte in the inner reader, which the first seek finds out.
    pub(super) base: Option<u64>,
    /// Whether nothing follows the last record.
    pub(super) is_at_end: bool,
    /// Whether a seek has failed, so that the inner reader may be anywhere.
    pub(super) is_lost: bool,
    pub(super) fault: Option<Error>,
}

impl<R> SealedReader<R> {
    /// Returns a reader of a sealed file. The file begins at the next byte of `inner`, and ends at the end of `inner`.
    pub fn new(inner: R, key: &Key) -> Self {
        Self {
            inner,
            key: Wiped(*key),
            prefix: Prefix::default(),
            opener: None,
            record: Wiped(Vec::new()),
            filled: 0,
            start: 0,
            length: 0,
            position: 0,
            taken: 0,
            base: None,
            is_at_end: false,
            is_lost: false,
            fault: None,
        }
    }

    /// Returns the inner reader. Do not read from it or move it: later reads may then fail.
    #[must_use]
    pub fn get_ref(&self) -> &R {
        &self.inner
    }

    /// Returns the inner reader. Bytes that were read from it and not returned are lost.
    #[must_use]
    pub fn into_inner(self) -> R {
        self.inner
    }

    /// Returns the verified bytes from the position on.
    fn unread(&self) -> &[u8] {
        let message = self.record.0.get(RECORD_HEAD_BYTES..).unwrap_or(&[]);
        let skipped = (self.position - self.start).min(self.length as u64) as usize;
        &message[..self.length.min(message.len())][skipped..]
    }

    /// Keeps the fault, and returns it as an error.
    pub(super) fn fail(&mut self, fault: Error) -> io::Error {
        self.fault = Some(fault);
        fault.into()
    }

    /// Returns the fault again, if there was one.
    pub(super) fn check(&self) -> io::Result<()> {
        self.fault.map_or(Ok(()), |fault| Err(fault.into()))
    }
}

impl<R: Read> SealedReader<R> {
    /// Reads the next record and opens it, or checks that nothing follows the last one.
    fn advance(&mut self) -> io::Result<()> {
        self.begin()?;
        if self.opener.as_ref().is_some_and(Opener::has_ended) {
            return self.check_end();
        }
        self.open_next()?.map_err(|fault| self.fail(fault))
    }

    /// Reads the prefix and the header, if they were not read yet.
    pub(super) fn begin(&mut self) -> io::Result<()> {
        if self.opener.is_some() {
            return Ok(());
        }
        self.fill(HEAD_BYTES)?;
        let head = &self.record.0[..self.filled];
        let begun = head.split_first_chunk().ok_or(Error::Header);
        let begun = begun.and_then(|(prefix, header)| {
            self.prefix = *prefix;
            Opener::new(&self.key.0, prefix, CONTEXT, header)
        });
        self.opener = Some(begun.map_err(|fault| self.fail(fault))?);
        self.filled = 0;
        Ok(())
    }

    /// Returns an error if anything follows the last record.
    pub(super) fn check_end(&mut self) -> io::Result<()> {
        if read(&mut self.inner, &mut [0])? > 0 {
            return Err(self.fail(Error::Trailing));
        }
        self.is_at_end = true;
        Ok(())
    }

    /// Reads the next record and opens it. After an error of the inner reader it goes on where it was.
    pub(super) fn open_next(&mut self) -> io::Result<Result<(), Error>> {
        // From here on the record's place has no message.
        self.start += self.length as u64;
        self.length = 0;
        self.fill(RECORD_HEAD_BYTES)?;
        let opener = self.opener.as_mut().expect("the header was read");
        let bytes = &self.record.0[..self.filled];
        if let Some(head) = bytes.first_chunk() {
            match opener.record_len(head) {
                Ok(length) => self.fill(length)?,
                Err(fault) => return Ok(Err(fault)),
            }
        }
        // If the file ends before the record does, that is the fault.
        let opener = self.opener.as_mut().expect("the header was read");
        let opened = opener.open_next_in_place(&mut self.record.0[..self.filled]);
        Ok(opened.map(|opened| {
            self.length = opened.message.len();
            self.filled = 0;
        }))
    }

    /// Reads the bytes of the next record until there are `end`, or all that are left of the file.
    pub(super) fn fill(&mut self, end: usize) -> io::Result<()> {
        while self.filled < end {
            if self.filled == self.record.0.len() {
                self.grow(end)?;
            }
            let to = end.min(self.record.0.len());
            let count = read(&mut self.inner, &mut self.record.0[self.filled..to])?;
            if count == 0 {
                break;
            }
            self.filled += count;
            self.taken += count as u64;
        }
        Ok(())
    }

    /// Makes the buffer for a record of `end` bytes longer: to twice its length, or to that of a whole piece. The old buffer is
    /// overwritten: an inner reader may have returned a count of bytes that it did not write.
    fn grow(&mut self, end: usize) -> io::Result<()> {
        let old = &self.record.0;
        let length = end.min(FIRST_BYTES.max(2 * old.len()));
        let mut new = with_room(length)?;
        new.extend_from_slice(old);
        new.resize(length, 0);
        self.record = Wiped(new);
        Ok(())
    }
}

/// Reads, again if it is interrupted.
fn read(inner: &mut impl Read, buf: &mut [u8]) -> io::Result<usize> {
    loop {
        match inner.read(buf) {
            Ok(count) => {
                assert!(count <= buf.len(), "the inner reader returned too large a count");
                return Ok(count);
            }
            Err(error) if error.kind() == ErrorKind::Interrupted => (),
            Err(error) => return Err(error),
        }
    }
}

impl<R: Read> Read for SealedReader<R> {
    fn read(&mut self, buf: &mut [u8]) -> io::Result<usize> {
        if buf.is_empty() {
            return Ok(0);
        }
        let bytes = self.fill_buf()?;
        let count = bytes.len().min(buf.len());
        buf[..count].copy_from_slice(&bytes[..count]);
        self.consume(count);
        Ok(count)
    }
}

impl<R: Read> BufRead for SealedReader<R> {
    /// Returns the verified bytes of a record from the position on. They are empty only at the end of the contents.
    fn fill_buf(&mut self) -> io::Result<&[u8]> {
        self.check()?;
        if self.is_lost {
            return Err(io::Error::other("a seek failed: seek again"));
        }
        while self.unread().is_empty() && !self.is_at_end {
            self.advance()?;
        }
        Ok(self.unread())
    }

    fn consume(&mut self, count: usize) {
        if !self.is_lost {
            self.position += count.min(self.unread().len()) as u64;
        }
    }
}

debug_as!([R] SealedReader<R>, "SealedReader");
