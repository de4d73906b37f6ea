//! What a file is while it is open: its changes in memory, reading, committing and opening.
//!
//! The tests can put the engine of the C library in its place.

use super::changes::{Changes, SealedChanges, copy_of};
use super::io::RafIo;
use super::journal::{self, Neighbours, PendingWrite, Work};
use super::layout::{HEADER_BLOCK_BYTES, ID_BYTES, Layout, PageHeader, TAG_BYTES, is_chunk_size};
use super::recovery::{read_header_block, recover};
use super::rng::{RafRng, checked_nonce};
use super::system::Process;
use super::{Algorithm, Error, MAX_SIZE, RafBuilder, Result};
use crate::Mac;
use crate::exports::hunkravy_commit_step;
use crate::memory::{check_memory, with_room, zeros};
use crate::wipe::wipe;
use alloc::vec::Vec;
use core::iter::once;
use core::ops::Range;
use std::io::ErrorKind;

pub struct Engine<A: Algorithm, I: RafIo, R: RafRng, J: RafIo> {
    io: I,
    journal: J,
    rng: R,
    layout: Layout<A>,
    /// Of the last commit: the counter in the header, and the number of bytes of the contents.
    counter: u64,
    stored: u64,
    /// The number of bytes of the contents now.
    size: u64,
    changes: Changes,
    buffer_limit: usize,
    /// The pages that were last read, or the one that was last written, each with its nonce in front of it and its tag after it.
    pages: Vec<u8>,
    /// The numbers of the pages whose contents are in the first ones of `pages`.
    shown: Range<u64>,
    is_broken: bool,
    /// The process that opened it.
    owner: Process,
    /// Why a change has failed since the last commit: those in memory may be a part of what was to be committed.
    failure: Option<Error>,
}

/// The state before a batch, and how many others the batch is in.
pub struct Savepoint {
    depth: usize,
    size: u64,
    failure: Option<Error>,
}

/// The id of a new file, and the nonce of its header.
pub type Draws<A> = ([u8; ID_BYTES], <A as crate::Variant>::Nonce);

/// Generates what a new file needs, before anything is changed.
pub fn draw<A: Algorithm>(rng: &mut impl RafRng, chunk_size: u32) -> Result<Draws<A>> {
    if !is_chunk_size(chunk_size) {
        return Err(Error::ChunkSize);
    }
    let (mut id, mut nonce) = ([0; ID_BYTES], A::Nonce::default());
    rng.fill(&mut id)?;
    rng.fill(nonce.as_mut())?;
    Ok((id, checked_nonce::<A>(nonce)?))
}

impl<A: Algorithm, I: RafIo, R: RafRng, J: RafIo> Engine<A, I, R, J> {
    pub fn create(mut io: I, key: &A::Key, mut builder: RafBuilder<A, R, J>, (id, nonce): Draws<A>) -> Result<Self> {
        io.lock()?;
        builder.journal.lock()?;
        if builder.journal.get_size()? != 0 {
            return Err(Error::Journal);
        }
        let is_empty = io.get_size()? == 0;
        if !is_empty && !builder.truncate {
            return Err(Error::Io(ErrorKind::AlreadyExists.into()));
        }
        let header = PageHeader { page_size: builder.chunk_size, id, ..PageHeader::default() };
        let mut file = Self::over(io, key, builder, &header)?;
        // Also if it is empty: after a sync that failed the disk may have its old bytes.
        file.journal.set_size(0)?;
        file.journal.sync()?;
        if !is_empty {
            file.io.set_size(0)?;
        }
        file.io.write_at(&file.layout.header(0, 0, &nonce), 0)?;
        file.io.sync()?;
        file.io.check_path()?;
        Ok(file)
    }

    pub fn open(mut io: I, key: &A::Key, mut builder: RafBuilder<A, R, J>) -> Result<Self> {
        // Whoever has just made a file locks it next, and must not find it locked.
        if io.get_size()? == 0 && builder.journal.get_size()? == 0 {
            return Err(Error::Header);
        }
        io.lock()?;
        builder.journal.lock()?;
        let header = recover::<A>(&mut io, &mut builder.journal, key)?;
        Self::over(io, key, builder, &header)
    }

    /// The open file that has this header.
    fn over(io: I, key: &A::Key, builder: RafBuilder<A, R, J>, header: &PageHeader) -> Result<Self> {
        let layout = Layout::of(key, header);
        Ok(Engine {
            io,
            journal: builder.journal,
            rng: builder.rng,
            pages: layout.room_for_reads()?,
            shown: 0..0,
            layout,
            counter: header.counter,
            stored: header.contents_len,
            size: header.contents_len,
            changes: Changes::none()?,
            buffer_limit: builder.buffer_limit,
            is_broken: false,
            owner: Process::this()?,
            failure: None,
        })
    }

    /// Returns an error in another process than that which opened the file, or if the file is broken.
    pub fn check(&self) -> Result<()> {
        match self.is_broken {
            _ if !self.owner.seems_this() => Err(Error::Locked),
            true => Err(Error::Broken),
            false => Ok(()),
        }
    }

    pub fn size(&self) -> u64 {
        self.size
    }

    pub fn read(&mut self, buf: &mut [u8], offset: u64) -> Result<usize> {
        let read = self.read_each(buf, offset);
        if read.is_err() {
            buf.fill(0);
        }
        read
    }

    fn read_each(&mut self, buf: &mut [u8], offset: u64) -> Result<usize> {
        self.check()?;
        let count = self.size.saturating_sub(offset).min(buf.len() as u64) as usize;
        // The page that has the next byte, and the byte's place in it.
        let chunk_size = u64::from(self.layout.chunk_size);
        let (mut number, mut at) = (offset / chunk_size, (offset % chunk_size) as usize);
        let mut rest = &mut buf[..count];
        while !rest.is_empty() {
            let shown = self.show_pages(number, self.layout.page_count((at + rest.len()) as u64))?;
            number += shown.len() as u64;
            let pages = self.pages.chunks_exact_mut(self.layout.page_bytes());
            for page in pages.take(shown.end).skip(shown.start) {
                let part = &self.layout.contents(page)[at..];
                let bytes = part.len().min(rest.len());
                rest[..bytes].copy_from_slice(&part[..bytes]);
                rest = &mut rest[bytes..];
                at = 0;
            }
        }
        Ok(count)
    }

    pub fn write(&mut self, data: &[u8], offset: u64) -> Result<()> {
        self.try_to(|file| file.change(data, offset))?;
        let chunk_size = self.layout.chunk_size as usize;
        let changed = self.changes.count().saturating_mul(chunk_size);
        if changed > self.buffer_limit && !self.is_in_batch() {
            self.commit()?;
        }
        Ok(())
    }

    /// Makes the change of a write, in memory.
    fn change(&mut self, data: &[u8], offset: u64) -> Result<()> {
        self.check()?;
        let end = offset.checked_add(data.len() as u64).filter(|end| *end <= MAX_SIZE).ok_or(Error::TooLong)?;
        if data.is_empty() && offset <= self.size {
            return Ok(());
        }
        let chunk_size = u64::from(self.layout.chunk_size);
        let pages = offset.min(self.size) / chunk_size..end.div_ceil(chunk_size);
        self.change_pages(pages, data, offset)?;
        self.size = self.size.max(end);
        Ok(())
    }

    /// Changes pages, or none of them.
    fn change_pages(&mut self, pages: Range<u64>, data: &[u8], offset: u64) -> Result<()> {
        let count = pages.end - pages.start;
        Changes::check_room(count, u64::from(self.layout.chunk_size))?;
        let page_bytes = self.layout.page_bytes();
        let mut changed = with_room(count as usize)?;
        for number in pages {
            self.change_page(number, data, offset)?;
            let page = &self.pages[..page_bytes];
            // One that is changed once more takes no memory.
            if count > 1 || !self.changes.replace(number, page) {
                changed.push((number, copy_of(page)?));
            }
        }
        self.changes.append(changed)?;
        Ok(())
    }

    pub fn truncate(&mut self, size: u64) -> Result<()> {
        if size > self.size {
            return self.write(&[], size);
        }
        self.check()?;
        self.changes.truncate(self.layout.page_count(size));
        self.size = size;
        Ok(())
    }

    /// Makes a change or a commit. If it fails or panics, dropping and closing commit nothing until a commit succeeds.
    fn try_to(&mut self, done: impl FnOnce(&mut Self) -> Result<()>) -> Result<()> {
        let panicked = Error::Io(ErrorKind::Other.into());
        let before = self.failure.replace(panicked);
        let result = done(self);
        self.failure = result.as_ref().err().map(Error::again).or(before);
        result
    }

    pub fn commit(&mut self) -> Result<()> {
        self.try_to(Self::commit_all)?;
        self.changes.clear();
        self.failure = None;
        Ok(())
    }

    fn commit_all(&mut self) -> Result<()> {
        self.check()?;
        if !self.owner.is_this() {
            return Err(Error::Locked);
        }
        let numbers = self.changes.numbers(self.layout.page_count(self.size))?;
        if numbers.is_empty() && self.size == self.stored {
            return Ok(());
        }
        let counter = self.counter.checked_add(1).ok_or(Error::TooLong)?;
        let header = read_header_block(&mut self.io)?.ok_or(Error::Header)?;
        let nonces = self.nonces(numbers.len() + 1)?;
        let (size, nonce) = (self.size, &nonces[numbers.len()]);
        let next_header = self.layout.header(counter, size, nonce);
        self.commit_pages(&numbers, &nonces, [&header, &next_header])?;
        self.counter = counter;
        self.stored = self.size;
        Ok(())
    }

    /// Commits the pages of these numbers between two headers. The first of them does not change the file: it shows to which
    /// file the journal belongs.
    fn commit_pages(
        &mut self,
        numbers: &[u64],
        nonces: &[A::Nonce],
        headers: [&[u8; HEADER_BLOCK_BYTES]; 2],
    ) -> Result<()> {
        let mut nonce = [0; journal::NONCE_BYTES];
        self.rng.fill(&mut nonce)?;
        let mut seal = self.layout.journal(&nonce);
        let neighbours = Neighbours::with_room(journal::MOST_BYTES)?;
        let mut writes = with_room(numbers.len() + headers.len())?;
        let sealed = SealedChanges::new(&self.layout, &mut self.changes, numbers, nonces);
        let [first, last] = headers.map(|bytes| PendingWrite { place: 0, bytes });
        writes.extend(once(first).chain(sealed.writes()).chain(once(last)));
        // Below, the standard library allocates copies of long paths.
        check_memory()?;
        let new = self.layout.page_place(self.layout.page_count(self.stored));
        let end = numbers.last().map_or(0, |last| self.layout.page_place(*last) + self.layout.page_bytes() as u64);
        // Not before: sealing may take long, and the file may be moved meanwhile.
        prepare(&mut self.io, &mut self.journal, new..end)?;
        let mut work = Work {
            io: &mut self.io,
            journal: &mut self.journal,
            writes: &writes,
            state: &mut seal.state,
            bytes: &seal.start,
            neighbours,
            is_begun: false,
        };
        self.is_broken = true;
        let taken = work.take_steps(hunkravy_commit_step);
        self.is_broken = taken.is_err() && !work.undo();
        taken?;
        drop(writes);
        sealed.forget();
        Ok(())
    }

    /// Commits the changes, unless one has failed.
    pub fn close(&mut self) -> Result<()> {
        self.check()?;
        match &self.failure {
            Some(error) => Err(error.again()),
            None => self.commit(),
        }
    }

    pub fn discard(&mut self) {
        self.shown = 0..0;
        self.changes.clear();
        self.size = self.stored;
        self.failure = None;
    }

    /// Begins a batch, and returns the state before it.
    pub fn begin_batch(&mut self) -> Result<Savepoint> {
        self.check()?;
        Ok(Savepoint { depth: self.changes.begin_batch()?, size: self.size, failure: self.failure.take() })
    }

    /// Commits the changes of a batch, or leaves them to the outer one. After an error it is to be undone.
    pub fn end_batch(&mut self, savepoint: &Savepoint) -> Result<()> {
        match savepoint.depth {
            0 => self.commit(),
            _ => Ok(self.changes.join_batches()?),
        }
    }

    /// Undoes a batch, unless it has ended.
    pub fn undo_batch(&mut self, savepoint: &mut Savepoint) {
        if self.changes.undo_batch(savepoint.depth) {
            self.shown = 0..0;
            self.size = savepoint.size;
            self.failure = savepoint.failure.take();
        }
    }

    pub fn is_in_batch(&self) -> bool {
        self.changes.is_in_batch()
    }

    /// Shows pages from this one on: those that are shown already, or others. Returns which of `pages` they are, 1 to `most`.
    fn show_pages(&mut self, number: u64, most: u64) -> Result<Range<usize>> {
        if self.shown.contains(&number) {
            let first = (number - self.shown.start) as usize;
            let count = most.min(self.shown.end - number) as usize;
            return Ok(first..first + count);
        }
        self.shown = 0..0;
        let count = self.read_pages(number, most)?;
        self.shown = number..number + count as u64;
        Ok(0..count)
    }

    /// Puts the contents of pages into the first places, from this page on, and returns of how many pages: 1 to `most`. A changed
    /// page comes alone. Others are read in one call, up to the next changed one.
    fn read_pages(&mut self, number: u64, most: u64) -> Result<usize> {
        let page_bytes = self.layout.page_bytes();
        if let Some(page) = self.changes.get(number) {
            self.pages[..page_bytes].copy_from_slice(&page.0);
            return Ok(1);
        }
        let most = most.min((self.pages.len() / page_bytes) as u64);
        let count = self.changes.unchanged_from(number, most) as usize;
        let pages = &mut self.pages[..count * page_bytes];
        self.io.read_at(pages, self.layout.page_place(number))?;
        for (page, number) in pages.chunks_exact_mut(page_bytes).zip(number..) {
            if !self.layout.open(number, page) {
                return Err(Error::Damaged(number));
            }
        }
        Ok(count)
    }

    /// Puts the contents of a page into the first place as it is after `data` was written over the contents from `offset` on. The page is
    /// read only if some of its bytes are kept.
    fn change_page(&mut self, number: u64, data: &[u8], offset: u64) -> Result<()> {
        self.shown = 0..0;
        let chunk_size = u64::from(self.layout.chunk_size);
        let first = number * chunk_size;
        let end = offset + data.len() as u64;
        let mut live = self.size.saturating_sub(first).min(chunk_size);
        if offset <= first && first + live <= end {
            live = 0;
        }
        if live > 0 {
            self.read_pages(number, 1)?;
        }
        let contents = self.layout.contents(&mut self.pages);
        contents[live as usize..].fill(0);
        let (from, to) = (offset.max(first), end.min(first + chunk_size));
        if from < to {
            let part = &data[(from - offset) as usize..(to - offset) as usize];
            contents[(from - first) as usize..(to - first) as usize].copy_from_slice(part);
        }
        Ok(())
    }

    /// Returns nonces that are generated in one call.
    fn nonces(&mut self, count: usize) -> Result<Vec<A::Nonce>> {
        let mut nonce = A::Nonce::default();
        let bytes = nonce.as_ref().len();
        let mut random = zeros(count * bytes)?;
        self.rng.fill(&mut random)?;
        let mut nonces = with_room(count)?;
        for bytes in random.chunks_exact(bytes) {
            nonce.as_mut().copy_from_slice(bytes);
            nonces.push(checked_nonce::<A>(nonce)?);
        }
        Ok(nonces)
    }

    /// Returns the MAC of the commitment.
    pub fn commitment(&mut self) -> Result<Mac<A, 32>> {
        self.check()?;
        // No page and no header has this nonce.
        let mut nonce = A::Nonce::default();
        nonce.as_mut().fill(255);
        let mut mac = Mac::<A, 32>::new_with_nonce(&self.layout.key.0, &nonce);
        mac.update(&self.layout.plaintext_header());
        mac.update(&self.counter.to_le_bytes());
        mac.update(&self.stored.to_le_bytes());
        for number in 0..self.layout.page_count(self.stored) {
            let mut tag = [0; TAG_BYTES];
            let in_page = self.layout.page_bytes() - TAG_BYTES;
            self.io.read_at(&mut tag, self.layout.page_place(number) + in_page as u64)?;
            mac.update(&tag);
        }
        Ok(mac)
    }
}

/// Checks that the writes of a commit can be made, with room for new pages, and that no other journal is there.
fn prepare(io: &mut impl RafIo, journal: &mut impl RafIo, room: Range<u64>) -> Result<()> {
    io.check_path()?;
    if !room.is_empty() {
        // Nobody could make the writes of a journal without room, and so the file would not open.
        io.reserve(room.start, room.end)?;
    }
    journal.check_path()?;
    match journal.get_size()? {
        0 => Ok(()),
        _ => Err(Error::Journal),
    }
}

/// Commits the changes, and ignores the error, unless a change has failed or the thread panics. A commit in another process than
/// that which opened the file does nothing.
impl<A: Algorithm, I: RafIo, R: RafRng, J: RafIo> Drop for Engine<A, I, R, J> {
    fn drop(&mut self) {
        if self.failure.is_none() && !std::thread::panicking() {
            let _ = self.commit();
        }
        wipe(&mut self.pages);
    }
}

#[cfg(all(test, feature = "raf"))]
mod tests {
    use crate::raf::file::tests::Paths;
    use crate::raf::layout::{Layout, PageHeader};
    use crate::raf::{Aegis256, Error, FileIo, MAX_SIZE, NoJournal, OsRng, Raf, RafBuilder};

    type File = Raf<Aegis256, FileIo, OsRng, NoJournal>;

    /// Opens a file that has its header alone: after so many commits, and with contents of this length.
    fn file(Paths(path, _): &Paths, counter: u64, size: u64) -> File {
        let header = PageHeader { page_size: 256, ..PageHeader::default() };
        let layout = Layout::<Aegis256>::of(&[7; 32], &header);
        std::fs::write(path, layout.header(counter, size, &[1; 32])).unwrap();
        RafBuilder::new().journal(NoJournal).open_file(path, &[7; 32]).unwrap()
    }

    /// The counter of commits does not begin again.
    #[test]
    fn the_last_commit() {
        let paths = Paths::new("last");
        for (counter, is_last) in [(u64::MAX, true), (u64::MAX - 1, false)] {
            let mut file = file(&paths, counter, 0);
            file.write(&[1], 0).unwrap();
            let committed = file.commit();
            assert_eq!(matches!(committed, Err(Error::TooLong)), is_last);
            assert_eq!(committed.is_ok(), !is_last);
            file.discard();
        }
    }

    /// The last byte of the longest contents may be written, and none after it.
    #[test]
    fn the_longest_contents() {
        let mut file = file(&Paths::new("longest"), 0, MAX_SIZE);
        assert_eq!(file.size(), MAX_SIZE);
        // Its page is not there.
        let written = file.write(&[1], MAX_SIZE - 1);
        assert!(matches!(written, Err(Error::Io(_))), "{written:?}");
        let (last, end) = (MAX_SIZE - 1, MAX_SIZE);
        for (data, offset) in [(&[1, 2][..], last), (&[1], end), (&[], end + 1)] {
            let written = file.write(data, offset);
            assert!(matches!(written, Err(Error::TooLong)), "{written:?}");
        }
        assert!(matches!(file.write(&[], MAX_SIZE), Ok(0)));
        assert!(file.truncate(MAX_SIZE).is_ok());
        assert!(matches!(file.truncate(MAX_SIZE + 1), Err(Error::TooLong)));
        file.discard();
    }
}
