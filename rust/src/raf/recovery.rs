//! Opening a file and its journal: completing a commit that was interrupted.

use super::io::RafIo;
use super::journal::{BEGINNING_BYTES, Neighbours, Work};
use super::journal::{checked_writes, journaled_writes};
use super::layout::{HEADER_BLOCK_BYTES, PageHeader, open_header};
use super::{Algorithm, Error, Result};
use crate::exports::{Refusal, State, hunkravy_recovery_step};
use crate::memory::{with_room, zeros};
use alloc::vec::Vec;
use std::io;

/// A journal that does not begin as those of its file do is read if it has no more bytes: a larger file of its name may have
/// more than the memory.
const MOST_FOREIGN_BYTES: u64 = 64 << 20;
/// What each journal begins with.
const MARK: &[u8] = b"AGJ1";

/// What a file begins with.
struct FileStart {
    block: Option<[u8; HEADER_BLOCK_BYTES]>,
    header: Option<PageHeader>,
}

impl FileStart {
    fn read<A: Algorithm>(io: &mut impl RafIo, key: &A::Key) -> Result<Self> {
        let block = read_header_block(io)?;
        let header = block.and_then(|block| open_header::<A>(key, &block));
        Ok(FileStart { block, header })
    }

    /// Returns the part of a journal that has the writes to be made again. A torn journal has none.
    fn writes_in<'j, A: Algorithm>(&self, key: &A::Key, journal: &'j [u8]) -> Result<&'j [u8]> {
        let file = self.block.as_ref().map_or(&[][..], |block| block);
        checked_writes::<A>(file, key, journal).map_err(|refusal| match refusal {
            Refusal::WRONG_JOURNAL => Error::Journal,
            _ => Error::Header,
        })
    }

    /// Reads the journal.
    fn read_journal<A: Algorithm>(&self, journal: &mut impl RafIo, key: &A::Key) -> Result<Vec<u8>> {
        if journal.get_size()? > MOST_FOREIGN_BYTES {
            // This much of it is a torn journal. One of a file without a header may be whole.
            let mut first = [0; BEGINNING_BYTES + 1];
            journal.read_at(&mut first, 0)?;
            match self.writes_in::<A>(key, &first) {
                Err(Error::Header) if first.starts_with(MARK) => (),
                checked => drop(checked?),
            }
        }
        let size = usize::try_from(journal.get_size()?);
        let mut content = zeros(size.map_err(|_| io::Error::from(io::ErrorKind::OutOfMemory))?)?;
        journal.read_at(&mut content, 0)?;
        // Another file may have taken its place while it was read.
        if journal.get_size()? != content.len() as u64 {
            return Err(Error::Journal);
        }
        Ok(content)
    }
}

/// Completes a commit that a crash or an error interrupted, or leaves out all of it. Returns the header of the file.
///
/// - A complete journal under this key is written to the file and emptied. The file has no header then, or its header is the
///   first or the last one of the commit, byte for byte.
/// - A torn journal is emptied if the file has a header and the journal begins as those of this file do, or has at most 512 bytes.
/// - Otherwise nothing is changed, and the error is [`Error::Journal`] or [`Error::Header`].
pub fn recover<A: Algorithm>(io: &mut impl RafIo, journal: &mut impl RafIo, key: &A::Key) -> Result<PageHeader> {
    if journal.get_size()? > 0 {
        io.forget()?;
        journal.forget()?;
    }
    let start = FileStart::read::<A>(io, key)?;
    let content = start.read_journal::<A>(journal, key)?;
    let writes = start.writes_in::<A>(key, &content)?;
    let mut again = with_room(journaled_writes(writes).count())?;
    again.extend(journaled_writes(writes));
    let mut state = State::ENDED;
    let mut work = Work {
        io,
        journal,
        writes: &again,
        state: &mut state,
        bytes: &content,
        neighbours: Neighbours::with_room(writes.len())?,
        is_begun: false,
    };
    work.take_steps(hunkravy_recovery_step)?;
    if journal.get_size()? != 0 {
        // What has its name by now was not read.
        return Err(Error::Journal);
    }
    FileStart::read::<A>(io, key)?.header.ok_or(Error::Io(io::ErrorKind::InvalidData.into()))
}

/// Reads the header block, or returns `None` if there are fewer bytes.
pub fn read_header_block(io: &mut impl RafIo) -> Result<Option<[u8; HEADER_BLOCK_BYTES]>> {
    if io.get_size()? < HEADER_BLOCK_BYTES as u64 {
        return Ok(None);
    }
    let mut header_block = [0; HEADER_BLOCK_BYTES];
    io.read_at(&mut header_block, 0)?;
    Ok(Some(header_block))
}
