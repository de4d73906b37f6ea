//! How a file is created or opened.

use super::engine::{Draws, Engine, draw};
use super::file::{Beside, FileIo, JournalFile};
use super::io::{JournalChoice, RafIo};
use super::rng::{DefaultRng, RafRng};
use super::{Algorithm, Error, Raf, Result, default_chunk_size};
use core::fmt;
use core::marker::PhantomData;
use std::io;
use std::path::Path;

/// The default limit on bytes of changed pages in memory.
const DEFAULT_BUFFER_LIMIT: usize = 16 << 20;

/// Creates and opens files.
#[must_use]
pub struct RafBuilder<A: Algorithm, R: RafRng = DefaultRng, J: JournalChoice = Beside> {
    pub(super) chunk_size: u32,
    pub(super) truncate: bool,
    pub(super) buffer_limit: usize,
    pub(super) rng: R,
    pub(super) journal: J,
    algorithm: PhantomData<A>,
}

impl<A: Algorithm, R: RafRng, J: JournalChoice> fmt::Debug for RafBuilder<A, R, J> {
    fn fmt(&self, f: &mut fmt::Formatter<'_>) -> fmt::Result {
        f.debug_struct("RafBuilder").field("chunk_size", &self.chunk_size).finish_non_exhaustive()
    }
}

impl<A: Algorithm> RafBuilder<A> {
    /// Returns the default: pages of [`default_chunk_size`], the system's random bytes, and 16 MiB of changes in memory. No file is
    /// overwritten.
    #[cfg(feature = "raf")]
    #[allow(clippy::new_without_default)]
    pub fn new() -> Self {
        Self::with_rng(DefaultRng::default())
    }

    /// Returns the default with another source of random bytes.
    pub fn with_rng<R: RafRng>(rng: R) -> RafBuilder<A, R> {
        RafBuilder {
            chunk_size: default_chunk_size::<A>(),
            truncate: false,
            buffer_limit: DEFAULT_BUFFER_LIMIT,
            rng,
            journal: Beside,
            algorithm: PhantomData,
        }
    }
}

impl<A: Algorithm, R: RafRng, J: JournalChoice> RafBuilder<A, R, J> {
    /// Sets the number of bytes of contents in a page of a new file, from 256 to 65,536.
    pub fn chunk_size(mut self, bytes: u32) -> Self {
        self.chunk_size = bytes;
        self
    }

    /// Sets whether a new file overwrites an old one. A crash or an error of writing may then leave neither.
    pub fn truncate(mut self, truncate: bool) -> Self {
        self.truncate = truncate;
        self
    }

    /// Sets the limit on bytes of changed pages in memory. A [`write`](Raf::write), or a [`truncate`](Raf::truncate) that extends
    /// the contents, commits all changes if there are more. The default is 16 MiB. With `usize::MAX` neither commits.
    pub fn buffer_limit(mut self, bytes: usize) -> Self {
        self.buffer_limit = bytes;
        self
    }

    /// Sets the source of random bytes.
    pub fn rng<S: RafRng>(self, rng: S) -> RafBuilder<A, S, J> {
        self.with(|_, journal| (rng, journal))
    }

    /// Sets the journal. For a [`FileIo`] that was opened through a path the default is a [`JournalFile`] beside the file. A
    /// storage without a [`journal_path`](RafIo::journal_path) has no journal by default: a crash or an error in a commit may
    /// leave some of its changes, or damage the file.
    ///
    /// If a journal is set, opening does not complete a commit from the journal beside the file. First open the file once with
    /// the default journal.
    pub fn journal<K: RafIo>(self, journal: K) -> RafBuilder<A, R, K> {
        self.with(|rng, _| (rng, journal))
    }

    /// Creates an empty file in `io`, and syncs it. A crash before it returns, or [`Error::Io`], may leave a file that does not
    /// open.
    ///
    /// # Errors
    ///
    /// These errors change nothing:
    /// - [`Error::ChunkSize`], and errors of the source of random bytes;
    /// - [`Error::Locked`] and [`Error::Moved`], but a file that is moved while it is being overwritten is empty;
    /// - [`Error::Journal`]: the journal is not empty;
    /// - [`io::ErrorKind::AlreadyExists`]: `io` is not empty, and [`truncate`](Self::truncate) was not set.
    ///
    /// Other errors are [`Error::Io`].
    pub fn create<I: RafIo>(mut self, io: I, key: &A::Key) -> Result<Raf<A, I, R, J::Journal>> {
        let draws = draw::<A>(&mut self.rng, self.chunk_size)?;
        self.begin(io, key, draws)
    }

    /// Opens the file in `io`. An interrupted commit is completed, or discarded as a whole.
    ///
    /// If authentication of the header fails, for example after a torn write, a complete journal under the key is applied. It
    /// overwrites the file, even if the journal belongs to another one.
    ///
    /// # Errors
    ///
    /// These errors change nothing, but may remove an empty journal:
    /// - [`Error::Locked`] and [`Error::Moved`];
    /// - [`Error::Header`]: there is no header of this algorithm and key;
    /// - [`Error::Journal`]: the journal belongs to another file or to another state of this one, or is not a journal. If a
    ///   program has put it there during this call, the commit may have been completed.
    ///
    /// After [`Error::Io`] nothing is lost: open the file again.
    pub fn open<I: RafIo>(self, io: I, key: &A::Key) -> Result<Raf<A, I, R, J::Journal>> {
        let builder = self.choose(&io);
        let engine = Engine::open(io, key, builder)?;
        Ok(Raf { engine })
    }

    /// Creates a file at a path. The file, its header and its name are then synced.
    ///
    /// # Errors
    ///
    /// Those of [`create`](Self::create). After an error that changes nothing, an old file is as it was. After any error there is
    /// no new file, unless another program has opened it meanwhile, or given it another name, or the path is a link to a file
    /// that was missing.
    pub fn create_file(mut self, path: impl AsRef<Path>, key: &A::Key) -> Result<Raf<A, FileIo, R, J::Journal>> {
        let path = path.as_ref();
        let draws = draw::<A>(&mut self.rng, self.chunk_size)?;
        check_no_journal(path)?;
        let io = match FileIo::create_new(path) {
            Err(Error::Io(error)) if self.truncate && error.kind() == io::ErrorKind::AlreadyExists => {
                FileIo::create(path)?
            }
            made => made?,
        };
        self.begin(io, key, draws)
    }

    /// Opens the file at a path.
    ///
    /// # Errors
    ///
    /// Those of [`FileIo::open`] and of [`open`](Self::open).
    pub fn open_file(self, path: impl AsRef<Path>, key: &A::Key) -> Result<Raf<A, FileIo, R, J::Journal>> {
        self.open(FileIo::open(path)?, key)
    }

    /// Replaces the source and the journal.
    fn with<S: RafRng, K: JournalChoice>(self, replace: impl FnOnce(R, J) -> (S, K)) -> RafBuilder<A, S, K> {
        let (rng, journal) = replace(self.rng, self.journal);
        RafBuilder {
            chunk_size: self.chunk_size,
            truncate: self.truncate,
            buffer_limit: self.buffer_limit,
            rng,
            journal,
            algorithm: PhantomData,
        }
    }

    fn choose(self, io: &impl RafIo) -> RafBuilder<A, R, J::Journal> {
        self.with(|rng, journal| (rng, journal.of(io)))
    }

    fn begin<I: RafIo>(self, io: I, key: &A::Key, draws: Draws<A>) -> Result<Raf<A, I, R, J::Journal>> {
        let builder = self.choose(&io);
        let engine = Engine::create(io, key, builder, draws)?;
        Ok(Raf { engine })
    }
}

/// Returns an error if a file that is to be created has a journal: [`Error::Locked`] if the file is open elsewhere. Its
/// journal then belongs to a running commit.
fn check_no_journal(path: &Path) -> Result<()> {
    let mut journal = JournalFile::beside(path)?;
    if matches!(journal.get_size(), Ok(0)) {
        return Ok(());
    }
    let mut io = FileIo::open(path).ok();
    if let Some(io) = &mut io {
        io.lock()?;
    }
    // Nobody else commits meanwhile.
    match journal.get_size()? {
        0 => Ok(()),
        _ => Err(Error::Journal),
    }
}
