//! The trait of storages, and no journal.

use super::Result;
use std::io;
use std::path::PathBuf;

/// A storage: bytes that are read and written at any position.
///
/// [`Raf`](super::Raf) calls it from one thread at a time. Commits rely on [`sync`](RafIo::sync), and on this: before `sync` has
/// returned, a crash may leave any bytes where something was written, and the old size or the new one. No other byte changes.
pub trait RafIo {
    /// Fills `buf` with the bytes from `offset` on.
    ///
    /// # Errors
    ///
    /// If there are fewer bytes, or the system's.
    fn read_at(&mut self, buf: &mut [u8], offset: u64) -> io::Result<()>;

    /// Writes all of `data` over the bytes from `offset` on. Zeros fill a gap in front of them.
    ///
    /// # Errors
    ///
    /// The system's, for example on a full disk.
    fn write_at(&mut self, data: &[u8], offset: u64) -> io::Result<()>;

    /// Returns the number of bytes.
    ///
    /// # Errors
    ///
    /// The system's.
    fn get_size(&mut self) -> io::Result<u64>;

    /// Truncates the bytes to `size`, or extends them with zeros.
    ///
    /// # Errors
    ///
    /// The system's.
    fn set_size(&mut self, size: u64) -> io::Result<()>;

    /// Makes room for writes of bytes from `from` up to `end`, so that they do not fail because the disk is full. The bytes from
    /// `from` on are not in use, and may become zeros. It is called in a commit, before any bytes are written.
    ///
    /// The default extends the storage to `end` bytes if it has fewer.
    ///
    /// # Errors
    ///
    /// If there is no room.
    fn reserve(&mut self, from: u64, end: u64) -> io::Result<()> {
        let _ = from;
        if end > self.get_size()? {
            self.set_size(end)?;
        }
        Ok(())
    }

    /// Returns once everything that was written survives a loss of power.
    ///
    /// The default does nothing. It is for storages that do not survive a crash, such as memory.
    ///
    /// # Errors
    ///
    /// If something may be lost.
    fn sync(&mut self) -> io::Result<()> {
        Ok(())
    }

    /// Makes reads return what would survive a loss of power now, even after a [`sync`](RafIo::sync) that failed. It is called when
    /// a file with a journal is opened.
    ///
    /// The default does nothing. It is for storages without a memory in front of them.
    ///
    /// # Errors
    ///
    /// If reads may return something else.
    fn forget(&mut self) -> io::Result<()> {
        Ok(())
    }

    /// Makes `bytes` all that it has, such that a crash leaves the old ones or these, and syncs them. It is called when a commit is
    /// completed, with the bytes that a journal already has: after a [`sync`](RafIo::sync) that failed, the disk may not have them.
    ///
    /// The default writes them over the old ones, and syncs. It is for storages on which bytes that are written over themselves
    /// survive a crash: one that may tear them must replace them in another way, for example by renaming a copy.
    ///
    /// # Errors
    ///
    /// The system's, for example on a full disk. Then it has the old bytes or the new ones.
    fn replace(&mut self, bytes: &[u8]) -> io::Result<()> {
        self.write_at(bytes, 0)?;
        self.set_size(bytes.len() as u64)?;
        self.sync()
    }

    /// Locks the storage against all others, until it is dropped in this process: a forked one drops it too, and must not unlock
    /// it. It is called once, before anything is written, and before anything is read except the size.
    ///
    /// The default does nothing: the caller must make sure that nothing else writes the bytes.
    ///
    /// # Errors
    ///
    /// [`Error::Locked`](super::Error::Locked) if another has locked it.
    fn lock(&mut self) -> Result<()> {
        Ok(())
    }

    /// Returns the whole path of the journal, for use if [`RafBuilder::journal`](super::RafBuilder::journal) sets no other. The
    /// path without its last extension is that of the file, if there is one: [`JournalFile`](super::JournalFile) takes its owner
    /// and its mode.
    ///
    /// The default is `None`: a crash or an error in a commit may then leave some of its changes, or damage the file.
    fn journal_path(&self) -> Option<PathBuf> {
        None
    }

    /// Returns whether bytes that are written can be read again. If a journal returns `false`, a commit writes nothing to it.
    ///
    /// The default is `true`.
    fn keeps_bytes(&self) -> bool {
        true
    }

    /// Checks that a later opening would find the journal at [`journal_path`](RafIo::journal_path). It is called in each commit,
    /// before any bytes are written, and at the end of a creation. Then the name of a storage survives a loss of power, if it
    /// has one.
    ///
    /// The default does nothing.
    ///
    /// # Errors
    ///
    /// [`Error::Moved`](super::Error::Moved) if it would not, and any error of a journal that cannot be written.
    fn check_path(&mut self) -> Result<()> {
        Ok(())
    }
}

/// No journal: a crash or an error in a commit may leave some of its changes, or damage the file.
#[derive(Clone, Copy, Debug, Default)]
pub struct NoJournal;

impl RafIo for NoJournal {
    fn keeps_bytes(&self) -> bool {
        false
    }

    fn read_at(&mut self, buf: &mut [u8], _offset: u64) -> io::Result<()> {
        match buf {
            [] => Ok(()),
            _ => Err(io::ErrorKind::UnexpectedEof.into()),
        }
    }

    fn write_at(&mut self, _data: &[u8], _offset: u64) -> io::Result<()> {
        Ok(())
    }

    fn get_size(&mut self) -> io::Result<u64> {
        Ok(0)
    }

    fn set_size(&mut self, _size: u64) -> io::Result<()> {
        Ok(())
    }
}

/// The choice of a journal: one that is set, or the one beside the file.
pub trait JournalChoice {
    /// The type of the journal.
    type Journal: RafIo;

    /// Returns the journal of a file.
    fn of(self, io: &impl RafIo) -> Self::Journal;
}

impl<J: RafIo> JournalChoice for J {
    type Journal = J;

    fn of(self, _io: &impl RafIo) -> J {
        self
    }
}
