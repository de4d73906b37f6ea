//! Changes that are committed together, or undone.

use super::engine::Savepoint;
use super::{Algorithm, DefaultRng, Error, FileIo, JournalFile, Raf, RafCursor, RafIo, RafRng};
use core::fmt;

/// A file in a batch. [`Raf::batch`] passes it to its closure.
///
/// Its functions are those of [`Raf`] that commit nothing.
pub struct Batch<'f, A: Algorithm, I: RafIo = FileIo, R: RafRng = DefaultRng, J: RafIo = JournalFile> {
    file: &'f mut Raf<A, I, R, J>,
    savepoint: Savepoint,
}

impl<A: Algorithm, I: RafIo, R: RafRng, J: RafIo> fmt::Debug for Batch<'_, A, I, R, J> {
    fn fmt(&self, f: &mut fmt::Formatter<'_>) -> fmt::Result {
        f.debug_struct("Batch").field("size", &self.size()).finish_non_exhaustive()
    }
}

impl<A: Algorithm, I: RafIo, R: RafRng, J: RafIo> Batch<'_, A, I, R, J> {
    /// Returns the length of the contents in bytes.
    #[must_use]
    pub fn size(&self) -> u64 {
        self.file.size()
    }

    /// Reads the contents, with [`Raf::read`].
    ///
    /// # Errors
    ///
    /// Those of [`Raf::read`].
    pub fn read(&mut self, buf: &mut [u8], offset: u64) -> Result<usize, Error> {
        self.file.read(buf, offset)
    }

    /// Writes over the contents, with [`Raf::write`], but commits nothing, even past the limit.
    ///
    /// # Errors
    ///
    /// Those of [`Raf::write`] after which nothing has changed. The batch goes on.
    pub fn write(&mut self, data: &[u8], offset: u64) -> Result<usize, Error> {
        self.file.write(data, offset)
    }

    /// Truncates or extends the contents, with [`Raf::truncate`], but commits nothing, even past the limit.
    ///
    /// # Errors
    ///
    /// Those of [`write`](Self::write).
    pub fn truncate(&mut self, size: u64) -> Result<(), Error> {
        self.file.truncate(size)
    }

    /// Returns a cursor at the start of the contents. Flushing it commits nothing.
    pub fn cursor(&mut self) -> RafCursor<'_, A, I, R, J> {
        self.file.cursor()
    }

    /// Makes a batch inside this one, with [`Raf::batch`].
    ///
    /// # Errors
    ///
    /// That of `changes`, or that memory runs out. The changes of the inner batch are then undone, and those of this one stay.
    pub fn batch<T, E: From<Error>>(
        &mut self,
        changes: impl FnOnce(&mut Batch<'_, A, I, R, J>) -> Result<T, E>,
    ) -> Result<T, E> {
        self.file.batch(changes)
    }
}

/// Undoes the changes of a batch that has not ended.
impl<A: Algorithm, I: RafIo, R: RafRng, J: RafIo> Drop for Batch<'_, A, I, R, J> {
    fn drop(&mut self) {
        self.file.engine.undo_batch(&mut self.savepoint);
    }
}

impl<A: Algorithm, I: RafIo, R: RafRng, J: RafIo> Raf<A, I, R, J> {
    /// Calls `changes`, and then commits. If `changes` returns `Err` or panics, what it has changed is undone.
    ///
    /// Changes that were made before the batch are committed with it, or stay in memory if it is undone. No write in the batch
    /// commits, so all of its changes are in memory, even past the [limit](super::RafBuilder::buffer_limit). A change that fails
    /// changes nothing, and the batch goes on unless `changes` returns the error.
    ///
    /// The end of a batch inside another commits nothing: its changes become those of the outer one.
    ///
    /// # Errors
    ///
    /// The error of `changes`, or one of [`commit`](Raf::commit). The batch is then undone, unless the file is broken.
    ///
    /// ```
    /// # use hunkravy::raf::{Aegis256, Error, Raf};
    /// # let path = std::env::temp_dir().join(format!("hunkravy-batch-example-{}", std::process::id()));
    /// # let mut file = Raf::<Aegis256>::create_file(&path, &[1; 32])?;
    /// file.batch(|file| {
    ///     file.truncate(0)?;
    ///     file.write(b"the new contents", 0)
    /// })?;
    /// # drop(file);
    /// # std::fs::remove_file(&path)?;
    /// # Ok::<(), Error>(())
    /// ```
    pub fn batch<T, E: From<Error>>(
        &mut self,
        changes: impl FnOnce(&mut Batch<'_, A, I, R, J>) -> Result<T, E>,
    ) -> Result<T, E> {
        let savepoint = self.engine.begin_batch()?;
        let mut batch = Batch { file: self, savepoint };
        let made = changes(&mut batch)?;
        batch.file.engine.end_batch(&batch.savepoint)?;
        Ok(made)
    }
}
