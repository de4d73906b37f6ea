//! The steps of a commit and of a recovery, with which all writes of a commit are there after a crash, or none.
//!
//! A journal has the writes, which are encrypted pages and headers, and their MAC. Its bytes, and the order of the steps, come
//! from proved functions of the library. Here neighbouring writes are one call.

use super::Algorithm;
use super::io::RafIo;
use crate::exports::{Order, Refusal, State, Step};
use crate::exports::{journal_check, journal_entry, journal_final, journal_next};
use crate::memory::with_room;
use alloc::vec::Vec;
use std::io;

/// The length of a journal's nonce.
pub const NONCE_BYTES: usize = 16;
/// The length of the beginning of a journal, which names its file, and fills a sector.
pub const BEGINNING_BYTES: usize = 512;
/// How many bytes a journal has in front of its writes: the beginning and the nonce.
pub const START_BYTES: usize = BEGINNING_BYTES + NONCE_BYTES;
/// How many bytes a write in a journal has in front of its own, and a journal after its writes.
const HEAD_BYTES: usize = 16;
const MAC_BYTES: usize = 32;

/// A write that is to be made.
#[derive(Clone, Copy)]
pub struct PendingWrite<'b> {
    pub place: u64,
    pub bytes: &'b [u8],
}

/// A journal that was begun: its MAC so far, and its first bytes.
pub struct JournalSeal {
    pub state: State,
    pub start: [u8; START_BYTES],
}

/// What the steps of a commit or of a recovery work on.
pub struct Work<'w, I, J> {
    pub io: &'w mut I,
    pub journal: &'w mut J,
    pub writes: &'w [PendingWrite<'w>],
    /// Of a commit: the MAC of the journal so far, and the journal in front of its writes. Of a recovery: all of the journal.
    pub state: &'w mut State,
    pub bytes: &'w [u8],
    pub neighbours: Neighbours,
    /// Whether a write was made, or is among the neighbours.
    pub is_begun: bool,
}

impl<I: RafIo, J: RafIo> Work<'_, I, J> {
    /// Takes all steps in this order, or up to the first one that fails.
    pub fn take_steps(&mut self, order: Order) -> io::Result<()> {
        let mut number = 0;
        while let Some(step) = Step::of(order, number, self.writes.len()) {
            self.take(step)?;
            number += 1;
        }
        Ok(())
    }

    fn take(&mut self, step: Step) -> io::Result<()> {
        if !matches!(step, Step::MakeWrite(_)) {
            self.neighbours.flush(self.io)?;
        }
        match step {
            Step::WriteBeginning | Step::WriteRest if !self.journal.keeps_bytes() => Ok(()),
            Step::WriteBeginning => self.journal.write_at(&self.bytes[..BEGINNING_BYTES], 0),
            Step::WriteRest => self.write_rest(),
            Step::SyncJournal => self.journal.sync(),
            Step::ReplaceJournal => self.journal.replace(self.bytes),
            Step::EmptyJournal => self.journal.set_size(0),
            Step::SyncFile => self.io.sync(),
            Step::MakeWrite(number) => {
                let PendingWrite { place, bytes } = self.writes[number];
                self.is_begun = true;
                self.neighbours.write(self.io, place, bytes)
            }
        }
    }

    /// Writes the journal after its beginning.
    fn write_rest(&mut self) -> io::Result<()> {
        let mut place = BEGINNING_BYTES as u64;
        pass_content(self.state, &self.bytes[BEGINNING_BYTES..], self.writes, |bytes| {
            self.neighbours.write(self.journal, place, bytes)?;
            place += bytes.len() as u64;
            Ok(())
        })?;
        self.neighbours.flush(self.journal)
    }

    /// Empties the journal of a commit that has failed before its first write. Returns whether nothing of the commit is left.
    pub fn undo(&mut self) -> bool {
        self.neighbours.bytes.clear();
        let steps = [Step::EmptyJournal, Step::SyncJournal];
        !self.is_begun && steps.into_iter().all(|step| self.take(step).is_ok())
    }
}

/// Passes on the bytes of a journal after its beginning: the rest of those in front of its writes, these, and the MAC.
fn pass_content(
    state: &mut State,
    rest: &[u8],
    writes: &[PendingWrite<'_>],
    mut pass: impl FnMut(&[u8]) -> io::Result<()>,
) -> io::Result<()> {
    pass(rest)?;
    for write in writes {
        let mut head = [0; HEAD_BYTES];
        journal_entry(state, write.place, write.bytes, &mut head).map_err(too_long)?;
        pass(&head)?;
        pass(write.bytes)?;
    }
    let mut mac = [0; MAC_BYTES];
    journal_final(state, &mut mac).map_err(too_long)?;
    pass(&mac)
}

/// No journal is so long, and no write is so far behind, that a file could have both.
fn too_long(_refusal: Refusal) -> io::Error {
    io::ErrorKind::InvalidInput.into()
}

/// The most bytes that are written in one call. A longer write is a call of its own.
pub const MOST_BYTES: usize = 256 * 1024;

/// Bytes that are gathered for one call.
pub struct Neighbours {
    place: u64,
    bytes: Vec<u8>,
}

impl Neighbours {
    /// Takes the memory for so many bytes, or for as many as are written in one call.
    pub fn with_room(bytes: usize) -> io::Result<Self> {
        let bytes = with_room(bytes.min(MOST_BYTES))?;
        Ok(Neighbours { place: 0, bytes })
    }

    /// Adds a write. The bytes may be written later, with their neighbours.
    fn write(&mut self, io: &mut impl RafIo, place: u64, bytes: &[u8]) -> io::Result<()> {
        let end = self.place + self.bytes.len() as u64;
        if place != end || self.bytes.len() + bytes.len() > MOST_BYTES {
            self.flush(io)?;
            self.place = place;
        }
        if bytes.len() > MOST_BYTES {
            self.place += bytes.len() as u64;
            return io.write_at(bytes, place);
        }
        self.bytes.extend_from_slice(bytes);
        Ok(())
    }

    fn flush(&mut self, io: &mut impl RafIo) -> io::Result<()> {
        if !self.bytes.is_empty() {
            io.write_at(&self.bytes, self.place)?;
            self.bytes.clear();
        }
        Ok(())
    }
}

/// Returns the part of a journal that has writes which are to be made again, or no bytes. After them the journal is to be emptied.
/// `file` is the header block of its file, or empty if there are fewer bytes.
///
/// [`Refusal::WRONG_JOURNAL`]: the journal is that of another file, or of another state of this one. Any other error: the file has no
/// header of this algorithm and key, and the journal is not whole.
pub fn checked_writes<'j, A: Algorithm>(file: &[u8], key: &A::Key, journal: &'j [u8]) -> Result<&'j [u8], Refusal> {
    let mut length = 0;
    journal_check(A::NUMBER, file, key.as_ref(), journal, &mut length)?;
    Ok(&journal.get(START_BYTES..).unwrap_or(&[])[..length])
}

/// The writes in the part of a journal that has them.
pub fn journaled_writes(mut part: &[u8]) -> impl Iterator<Item = PendingWrite<'_>> {
    core::iter::from_fn(move || {
        let (mut place, mut length) = (0, 0);
        journal_next(part, &mut place, &mut length).ok()?;
        let (bytes, rest) = part[HEAD_BYTES..].split_at(length);
        part = rest;
        Some(PendingWrite { place, bytes })
    })
}
