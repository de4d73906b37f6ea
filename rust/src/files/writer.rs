//! Sealing a file.

use super::{CONTEXT, HEAD_BYTES, Key, PIECE_BYTES};
use crate::fill_random;
use crate::memory::zeros;
use crate::records::{Prefix, RECORD_BYTES, RECORD_HEAD_BYTES, Sealer};
use crate::wipe::Wiped;
use alloc::vec::Vec;
use std::io::{self, Write};

/// Encrypts bytes into a sealed file, which it writes to an inner writer.
///
/// **Call [`finish`](Self::finish) at the end: without it the file does not open.** Dropping the writer never finishes the
/// file. So a program that ends early leaves no file that opens.
///
/// Bytes are encrypted and written in pieces of 65,536 bytes. [`flush`](Write::flush) flushes the inner writer, and leaves an
/// incomplete piece in memory. After an error of the inner writer in `write` or `finish`, every function returns an error.
/// The buffer for one piece is overwritten when the writer is dropped.
///
/// **After a fork only one of the two processes may go on with a writer**: both have its nonces.
#[must_use = "without `finish` the file does not open"]
pub struct SealedWriter<W: Write> {
    inner: W,
    sealer: Sealer<'static>,
    /// A record with the next piece in its place.
    record: Wiped<Vec<u8>>,
    /// The number of bytes that the piece has so far.
    filled: usize,
    has_failed: bool,
}

impl<W: Write> SealedWriter<W> {
    /// Begins a file: generates its prefix at random, and writes its first 28 bytes.
    ///
    /// # Errors
    ///
    /// An error of the system's source of random bytes or of the inner writer, or one of kind
    /// [`OutOfMemory`](io::ErrorKind::OutOfMemory).
    pub fn new(mut inner: W, key: &Key) -> io::Result<Self> {
        let record = Wiped(zeros(RECORD_BYTES + PIECE_BYTES)?);
        let mut prefix = Prefix::default();
        fill_random(&mut prefix)?;
        let sealer = Sealer::new(key, &prefix, CONTEXT)?;
        let mut head = [0; HEAD_BYTES];
        head[..prefix.len()].copy_from_slice(&prefix);
        head[prefix.len()..].copy_from_slice(&sealer.header());
        inner.write_all(&head)?;
        Ok(Self { inner, sealer, record, filled: 0, has_failed: false })
    }

    /// Returns the inner writer. Writing to it damages the file.
    #[must_use]
    pub fn get_ref(&self) -> &W {
        &self.inner
    }

    /// Writes the end of the file, flushes the inner writer, and returns it.
    ///
    /// # Errors
    ///
    /// An error of the inner writer, now or in an earlier write. Then the file does not open, unless flushing failed, or the
    /// inner writer keeps bytes after an error and writes them later.
    pub fn finish(mut self) -> io::Result<W> {
        self.check()?;
        if self.filled > 0 {
            self.write_record()?;
        }
        let mut last = [0; RECORD_BYTES];
        self.sealer.seal_last_in_place(&mut last)?;
        self.inner.write_all(&last)?;
        self.inner.flush()?;
        Ok(self.inner)
    }

    fn check(&self) -> io::Result<()> {
        if self.has_failed {
            return Err(io::Error::other("an earlier write of this sealed file failed"));
        }
        Ok(())
    }

    /// Seals the piece, and writes its record.
    fn write_record(&mut self) -> io::Result<()> {
        let record = &mut self.record.0[..RECORD_BYTES + self.filled];
        // It stays so after an error or a panic.
        self.has_failed = true;
        self.sealer.seal_next_in_place(record)?;
        self.inner.write_all(record)?;
        self.filled = 0;
        self.has_failed = false;
        Ok(())
    }
}

impl<W: Write> Write for SealedWriter<W> {
    /// Adds bytes to the current piece until it is full, and then writes the piece.
    fn write(&mut self, data: &[u8]) -> io::Result<usize> {
        self.check()?;
        let count = data.len().min(PIECE_BYTES - self.filled);
        self.record.0[RECORD_HEAD_BYTES + self.filled..][..count].copy_from_slice(&data[..count]);
        self.filled += count;
        if self.filled == PIECE_BYTES {
            self.write_record()?;
        }
        Ok(count)
    }

    /// Flushes the inner writer. The bytes of an incomplete piece stay in memory.
    fn flush(&mut self) -> io::Result<()> {
        self.check()?;
        self.inner.flush()
    }
}

debug_as!([W: Write] SealedWriter<W>, "SealedWriter");
