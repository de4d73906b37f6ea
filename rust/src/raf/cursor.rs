//! A position in the contents of a file.

use super::{Algorithm, Raf, RafIo, RafRng};
use core::fmt;
use std::io::{self, Read, Seek, SeekFrom, Write};

/// A position in the contents of a file, which each read and write advances. [`Raf::cursor`] returns one.
#[must_use]
pub struct RafCursor<'a, A: Algorithm, I: RafIo, R: RafRng, J: RafIo> {
    pub(super) file: &'a mut Raf<A, I, R, J>,
    pub(super) offset: u64,
}

impl<A: Algorithm, I: RafIo, R: RafRng, J: RafIo> fmt::Debug for RafCursor<'_, A, I, R, J> {
    fn fmt(&self, f: &mut fmt::Formatter<'_>) -> fmt::Result {
        f.debug_struct("RafCursor").field("offset", &self.offset).finish_non_exhaustive()
    }
}

impl<A: Algorithm, I: RafIo, R: RafRng, J: RafIo> Read for RafCursor<'_, A, I, R, J> {
    fn read(&mut self, buf: &mut [u8]) -> io::Result<usize> {
        let count = self.file.read(buf, self.offset)?;
        self.offset += count as u64;
        Ok(count)
    }
}

impl<A: Algorithm, I: RafIo, R: RafRng, J: RafIo> Write for RafCursor<'_, A, I, R, J> {
    /// Writes with [`Raf::write`]. Writing no bytes past the end does not extend the contents.
    fn write(&mut self, data: &[u8]) -> io::Result<usize> {
        if data.is_empty() {
            self.file.engine.check()?;
            return Ok(0);
        }
        let count = self.file.write(data, self.offset)?;
        self.offset += count as u64;
        Ok(count)
    }

    /// Commits the changes with [`Raf::commit`]. In a [batch](Raf::batch) they wait for its end.
    fn flush(&mut self) -> io::Result<()> {
        if self.file.engine.is_in_batch() {
            return Ok(self.file.engine.check()?);
        }
        Ok(self.file.commit()?)
    }
}

impl<A: Algorithm, I: RafIo, R: RafRng, J: RafIo> Seek for RafCursor<'_, A, I, R, J> {
    fn seek(&mut self, to: SeekFrom) -> io::Result<u64> {
        let offset = match to {
            SeekFrom::Start(offset) => Some(offset),
            SeekFrom::End(by) => self.file.size().checked_add_signed(by),
            SeekFrom::Current(by) => self.offset.checked_add_signed(by),
        };
        self.offset = offset.ok_or(io::ErrorKind::InvalidInput)?;
        Ok(self.offset)
    }
}
