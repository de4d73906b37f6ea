//! Encrypted files that are read and written at any position.
//!
//! The contents are split into pages, each of which is encrypted on its own. [`Raf::batch`] makes several changes together: it
//! commits them, or undoes them if the closure returns an error. Outside a batch changes stay in memory until a commit: [`Raf::commit`],
//! [`Raf::sync`], dropping, or a write past the limit. **After a crash all changes of a commit are there, or none.** A commit
//! writes its changes to the journal first, the file `PATH.journal` beside the file. It removes the journal at the end. Opening
//! completes a commit that was interrupted.
//!
//! A read returns zeros, or bytes that were written at this place of this file or of a copy. They may be old: an older page or
//! file is detected only with a [`Raf::commitment`] kept elsewhere. Past the end of its contents an older page holds zeros, or
//! bytes truncated there.
//!
//! ```
//! use hunkravy::raf::{Aegis256, Raf};
//!
//! # fn main() -> Result<(), hunkravy::raf::Error> {
//! # let path = std::env::temp_dir().join(format!("hunkravy-raf-example-{}", std::process::id()));
//! # let master_key = [1; 32];
//! let key = Raf::<Aegis256>::derive_master_key(&master_key, b"my-app/files")?;
//! let mut file = Raf::<Aegis256>::create_file(&path, &key)?;
//! file.batch(|file| file.write(b"a line", 7))?;
//! # drop(file);
//!
//! let mut file = Raf::<Aegis256>::open_file(&path, &key)?;
//! let mut word = [0; 4];
//! file.read(&mut word, 9)?;
//! assert_eq!(&word, b"line");
//! # drop(file);
//! # std::fs::remove_file(&path)?;
//! # Ok(())
//! # }
//! ```
//!
//! The names are those of the module `raf` of the crate `aegis`. The format of the files and the derived keys are different.
//! [`Raf::commitment`] and [`Raf::verify`] replace the Merkle tree. Changes need a commit, and an open file is locked.
//!
//! `docs/FORMATS.md` defines the format. The proved crate `aegis_pages` reads and writes it too. Proved functions of the
//! library encrypt and decrypt each page and each header, authenticate a journal, and return the order of the writes and syncs of
//! a commit and of a recovery. Reading and writing files around them is tested against the proved crate, and not proved.

mod batch;
mod builder;
mod changes;
mod cursor;
mod derive;
#[cfg_attr(c_engine, path = "../tests/c_engine/engine.rs")]
mod engine;
mod error;
mod file;
mod io;
mod journal;
mod layout;
mod recovery;
mod rng;
mod system;

pub use crate::Variant as Algorithm;
pub use crate::variants::{Aegis128L, Aegis128X2, Aegis128X4, Aegis256, Aegis256X2, Aegis256X4};
pub use batch::Batch;
pub use builder::RafBuilder;
pub use cursor::RafCursor;
pub use derive::derive_key;
pub use error::{Error, Result};
pub use file::{Beside, FileIo, JournalFile};
pub use io::{JournalChoice, NoJournal, RafIo};
pub use layout::{AlgorithmId, RafInfo, probe};
#[cfg(not(feature = "raf"))]
pub use rng::NoRng;
#[cfg(feature = "raf")]
pub use rng::OsRng;
pub use rng::{DefaultRng, RafRng};

use core::fmt;
use engine::Engine;
#[cfg(feature = "raf")]
use std::path::Path;

/// Returns the default size of a page, in bytes of contents. A page then fills a block of 4,096 bytes: it has 4,048 for
/// algorithms with nonces of 16 bytes, and 4,032 for the others.
///
/// ```
/// use hunkravy::raf::{Aegis128X4, Aegis256, default_chunk_size};
///
/// assert_eq!(default_chunk_size::<Aegis256>(), 4032);
/// assert_eq!(default_chunk_size::<Aegis128X4>(), 4048);
/// ```
#[must_use]
pub const fn default_chunk_size<A: Algorithm>() -> u32 {
    (4096 - layout::TAG_BYTES - A::KEY_BYTES) as u32
}

/// The most bytes of contents: 2^60.
pub const MAX_SIZE: u64 = 1 << 60;

/// An encrypted file. [`RafBuilder`] has all ways to create and to open one.
///
/// Changes are kept in memory until a commit: [`commit`](Raf::commit), [`sync`](Raf::sync), dropping, and any
/// [`write`](Raf::write) or extending [`truncate`](Raf::truncate) that leaves them past the [limit](RafBuilder::buffer_limit).
///
/// The pages that were read last are kept in memory, up to 64 KiB of them.
///
/// **Dropping ignores the error of its commit**, so call `commit` first. After a change or a commit that has failed or panicked,
/// dropping does not commit, until a `commit` succeeds or [`discard`](Raf::discard) is called. Dropping does not commit while its
/// thread panics. If threads share the file through a mutex and one of them has panicked, call `discard` in the others.
///
/// After an error of a commit the changes are still in memory, and nothing else has changed, unless a part of the commit may be in
/// the file: then the file is broken, and each function that reads, changes or commits it returns [`Error::Broken`]. If it has a
/// journal, opening it again gives the contents before the commit or after it.
///
/// A file belongs to the process that opened it. After `fork` these functions return [`Error::Locked`] in any other process, and
/// dropping commits nothing there, and drops the storages. `_Fork`, and a `clone` without the C library, are not always noticed:
/// do not use the file in it.
///
/// If memory runs out, the error is [`Error::Io`] of kind [`OutOfMemory`](std::io::ErrorKind::OutOfMemory), and nothing has
/// changed, except that a write whose commit fails is made, and a batch is undone. The standard library ends the program if it
/// finds none for the text of an error or for the copy of a path. Opening copies paths, and so does a commit if the path has more
/// than 300 bytes. Both check first that there are 64 KiB.
#[must_use]
pub struct Raf<A: Algorithm, I: RafIo = FileIo, R: RafRng = DefaultRng, J: RafIo = JournalFile> {
    engine: Engine<A, I, R, J>,
}

#[cfg(feature = "raf")]
impl<A: Algorithm> Raf<A> {
    /// Creates a file at a path where there is none.
    ///
    /// # Errors
    ///
    /// Those of [`RafBuilder::create_file`].
    pub fn create_file(path: impl AsRef<Path>, key: &A::Key) -> Result<Self> {
        RafBuilder::new().create_file(path, key)
    }

    /// Opens the file at a path.
    ///
    /// # Errors
    ///
    /// Those of [`RafBuilder::open_file`].
    pub fn open_file(path: impl AsRef<Path>, key: &A::Key) -> Result<Self> {
        RafBuilder::new().open_file(path, key)
    }
}

impl<A: Algorithm> Raf<A> {
    /// Derives the key of a file, or of a family of files, from a master key, as [`derive_key`] does.
    ///
    /// # Errors
    ///
    /// Those of [`derive_key`].
    pub fn derive_master_key(master_key: &A::Key, context: &[u8]) -> Result<A::Key> {
        let mut key = A::Key::default();
        derive::derive(master_key.as_ref(), context, key.as_mut())?;
        Ok(key)
    }
}

impl<A: Algorithm, I: RafIo, R: RafRng, J: RafIo> Raf<A, I, R, J> {
    /// Returns the length of the contents in bytes.
    #[must_use]
    pub fn size(&self) -> u64 {
        self.engine.size()
    }

    /// Reads the contents at `offset` into `buf`. Returns the number of bytes: the length of `buf`, or fewer at the end of the
    /// contents.
    ///
    /// # Errors
    ///
    /// [`Error::Damaged`] with the number of a page whose authentication fails, [`Error::Io`], [`Error::Broken`], or
    /// [`Error::Locked`] after a fork. Each byte of `buf` is then zero.
    pub fn read(&mut self, buf: &mut [u8], offset: u64) -> Result<usize> {
        self.engine.read(buf, offset)
    }

    /// Writes `data` over the contents from `offset` on, and returns its length. If the contents end before `offset`, zeros fill
    /// the gap. They take memory too.
    ///
    /// The change is in memory until a commit. **If there are more changes than the [limit](RafBuilder::buffer_limit), by default
    /// 16 MiB, the write commits all of them.**
    ///
    /// # Errors
    ///
    /// - [`Error::TooLong`], [`Error::Damaged`], [`Error::Broken`], [`Error::Locked`] after a fork, or [`Error::Io`] (of kind
    ///   [`OutOfMemory`](std::io::ErrorKind::OutOfMemory) if memory runs out): nothing has changed.
    /// - An error of [`commit`](Raf::commit), which documents the state. With a limit of `usize::MAX` no write commits.
    pub fn write(&mut self, data: &[u8], offset: u64) -> Result<usize> {
        self.engine.write(data, offset)?;
        Ok(data.len())
    }

    /// Truncates the contents to `size` bytes, or extends them with zeros, in memory. The file itself does not become shorter:
    /// the pages past the end stay in it, encrypted.
    ///
    /// # Errors
    ///
    /// Those of [`write`](Raf::write).
    pub fn truncate(&mut self, size: u64) -> Result<()> {
        self.engine.truncate(size)
    }

    /// Writes all changes since the last commit. After a crash all of them are there, or none. After `Ok` all of them are there.
    /// If nothing has changed, nothing is written.
    ///
    /// If the file becomes longer, room for its new pages is [reserved](RafIo::reserve) first. Then the changed pages and the next
    /// header are written to the journal, then to the file, and then the journal is emptied. Each step ends with a sync.
    ///
    /// # Errors
    ///
    /// - [`Error::Broken`], [`Error::Locked`] after a fork, [`Error::Moved`], [`Error::TooLong`], [`Error::Journal`] if another
    ///   file has the name of the journal, [`Error::Header`] if the file has become shorter than its header, or an error of the
    ///   source of random bytes. The changes are still in memory, and only the size of the file may have changed.
    /// - [`Error::Io`] before anything is written to the file, for example on a full disk, or if memory runs out: as above, if
    ///   the journal could be emptied.
    /// - After any other [`Error::Io`] the file is broken. Open it again: with a journal it has the contents before the changes or
    ///   after them.
    pub fn commit(&mut self) -> Result<()> {
        self.engine.commit()
    }

    /// Commits the changes.
    ///
    /// # Errors
    ///
    /// Those of [`commit`](Raf::commit), which is the same.
    pub fn sync(&mut self) -> Result<()> {
        self.commit()
    }

    /// Commits the changes, and closes the file. Dropping it does the same, and ignores the error.
    ///
    /// # Errors
    ///
    /// - That of a change or a commit that has failed, unless a commit or [`discard`](Raf::discard) came after it.
    /// - Those of [`commit`](Raf::commit).
    ///
    /// The changes in memory are then lost.
    pub fn close(mut self) -> Result<()> {
        self.engine.close()
    }

    /// Discards all changes since the last commit.
    pub fn discard(&mut self) {
        self.engine.discard();
    }

    /// Returns a cursor at the start of the contents, which is `Read`, `Write` and `Seek`.
    pub fn cursor(&mut self) -> RafCursor<'_, A, I, R, J> {
        RafCursor { file: self, offset: 0 }
    }

    /// Returns the commitment of the file at the last commit: a MAC, under the key, of the counter and the size in its header and
    /// of the tag of each page. With an older page or an older header the commitment is different.
    ///
    /// Keep it where nobody can roll it back with the file. Computing it reads every tag. Only opening reads the header:
    /// open the file again to see whether it was replaced.
    ///
    /// # Errors
    ///
    /// [`Error::Io`], [`Error::Broken`], or [`Error::Locked`] after a fork.
    pub fn commitment(&mut self) -> Result<[u8; 32]> {
        Ok(self.engine.commitment()?.finalize())
    }

    /// Returns `Ok` if the commitment of the file is `expected`. The comparison does not stop at the first difference.
    ///
    /// # Errors
    ///
    /// [`Error::Commitment`] if it is not, [`Error::Io`], [`Error::Broken`], or [`Error::Locked`] after a fork.
    pub fn verify(&mut self, expected: &[u8; 32]) -> Result<()> {
        self.engine.commitment()?.verify(expected).map_err(|_| Error::Commitment)
    }
}

impl<A: Algorithm, I: RafIo, R: RafRng, J: RafIo> fmt::Debug for Raf<A, I, R, J> {
    fn fmt(&self, f: &mut fmt::Formatter<'_>) -> fmt::Result {
        f.debug_struct("Raf").field("size", &self.size()).finish_non_exhaustive()
    }
}
