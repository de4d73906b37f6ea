//! The pages that were changed since the last commit.

use super::Algorithm;
use super::journal::PendingWrite;
use super::layout::Layout;
use crate::memory::with_room;
use crate::wipe::Wiped;
use alloc::vec::Vec;
use core::hint::black_box;
use core::mem;
use std::collections::HashMap;
use std::hash::{BuildHasherDefault, DefaultHasher};
use std::io::{self, ErrorKind};

/// The number of bytes that a page takes beside its contents, at most.
const ADDED_BYTES: u64 = 192;

/// A page with its nonce in front of it and its tag after it. It is overwritten when it is dropped.
pub type Page = Wiped<Vec<u8>>;

/// Returns a copy of a page, or an error if memory runs out.
pub fn copy_of(page: &[u8]) -> io::Result<Page> {
    let mut copy = with_room(page.len())?;
    copy.extend_from_slice(page);
    Ok(Wiped(copy))
}

/// Changed pages by their numbers, each with room for its nonce and its tag. A tree would be sorted, but takes its memory without
/// a way to fail.
type Layer = HashMap<u64, Page, BuildHasherDefault<DefaultHasher>>;

/// The changed pages: those outside any batch, and above them those of each open batch, the innermost last. So undoing a batch
/// takes no memory. Pages past the end of the contents have no meaning: a batch leaves those that it truncates to the outer one.
pub struct Changes(Vec<Layer>);

impl Changes {
    /// Returns that there are none.
    pub fn none() -> io::Result<Self> {
        let mut layers = with_room(1)?;
        layers.push(Layer::default());
        Ok(Changes(layers))
    }

    fn own(&mut self) -> &mut Layer {
        self.0.last_mut().expect("there is a layer")
    }

    /// Returns how many pages were changed outside any batch.
    pub fn count(&self) -> usize {
        self.0[0].len()
    }

    /// Returns a page that was changed.
    pub fn get(&self, number: u64) -> Option<&Page> {
        self.0.iter().rev().find_map(|layer| layer.get(&number))
    }

    fn get_mut(&mut self, number: u64) -> Option<&mut Page> {
        let mut layers = self.0.iter_mut().rev();
        layers.find_map(|layer| layer.get_mut(&number))
    }

    /// Returns how many pages from this number on are unchanged, at most this many.
    pub fn unchanged_from(&self, number: u64, most: u64) -> u64 {
        if self.0.iter().all(Layer::is_empty) {
            return most;
        }
        let is_changed = |count: &u64| self.get(number + count).is_some();
        (0..most).find(is_changed).unwrap_or(most)
    }

    /// Returns the numbers below `count` of the pages, the lowest first.
    pub fn numbers(&self, count: u64) -> io::Result<Vec<u64>> {
        let mut numbers = with_room(self.0.iter().map(Layer::len).sum())?;
        numbers.extend(self.0.iter().flat_map(Layer::keys).filter(|number| **number < count));
        numbers.sort_unstable();
        numbers.dedup();
        Ok(numbers)
    }

    /// Returns an error if there is no memory for this number of pages of contents of this length.
    pub fn check_room(pages: u64, contents_bytes: u64) -> io::Result<()> {
        let bytes = pages.saturating_mul(contents_bytes + ADDED_BYTES);
        let bytes = usize::try_from(bytes).map_err(|_| ErrorKind::OutOfMemory)?;
        black_box(with_room::<u8>(bytes)?);
        Ok(())
    }

    /// Replaces a page that was changed since the innermost batch began. Returns whether there is one.
    pub fn replace(&mut self, number: u64, page: &[u8]) -> bool {
        let own = self.own().get_mut(&number);
        own.map(|own| own.0.copy_from_slice(page)).is_some()
    }

    /// Takes over pages, in place of those of the same numbers. If memory runs out nothing has changed.
    pub fn append(&mut self, pages: Vec<(u64, Page)>) -> io::Result<()> {
        reserve(self.own(), pages.len())?;
        self.own().extend(pages);
        Ok(())
    }

    /// Forgets the pages from this number on that were changed since the innermost batch began.
    pub fn truncate(&mut self, count: u64) {
        self.own().retain(|number, _| *number < count);
    }

    /// Forgets all pages.
    pub fn clear(&mut self) {
        self.0.truncate(1);
        self.own().clear();
    }

    /// Returns whether a batch is open.
    pub fn is_in_batch(&self) -> bool {
        self.0.len() > 1
    }

    /// Begins a batch, and returns how many it is in.
    pub fn begin_batch(&mut self) -> io::Result<usize> {
        self.0.try_reserve(1).map_err(|_| ErrorKind::OutOfMemory)?;
        self.0.push(Layer::default());
        Ok(self.0.len() - 2)
    }

    /// Ends the innermost batch, whose changes become those of the outer one. If memory runs out nothing has changed.
    pub fn join_batches(&mut self) -> io::Result<()> {
        if let [.., outer, own] = &mut self.0[..] {
            reserve(outer, own.len())?;
            outer.extend(own.drain());
        }
        self.0.pop();
        Ok(())
    }

    /// Forgets the changes of a batch that is in so many others. Returns whether it was open.
    pub fn undo_batch(&mut self, depth: usize) -> bool {
        let is_open = self.0.len() > depth + 1;
        self.0.truncate(depth + 1);
        is_open
    }
}

fn reserve(layer: &mut Layer, count: usize) -> io::Result<()> {
    Ok(layer.try_reserve(count).map_err(|_| ErrorKind::OutOfMemory)?)
}

/// Changed pages that are sealed where they are, for a commit. If it is dropped they are opened again.
pub struct SealedChanges<'c, A: Algorithm> {
    layout: &'c Layout<A>,
    changes: &'c mut Changes,
    /// The numbers of the pages that are sealed, the lowest first.
    numbers: &'c [u64],
}

impl<'c, A: Algorithm> SealedChanges<'c, A> {
    /// Seals each page with one of these nonces. `numbers` are those of all changes.
    pub fn new(layout: &'c Layout<A>, changes: &'c mut Changes, numbers: &'c [u64], nonces: &[A::Nonce]) -> Self {
        let mut sealed = SealedChanges { layout, changes, numbers: &[] };
        for (at, (number, nonce)) in numbers.iter().zip(nonces).enumerate() {
            if let Some(page) = sealed.changes.get_mut(*number) {
                layout.seal(*number, nonce, &mut page.0);
            }
            sealed.numbers = &numbers[..=at];
        }
        sealed
    }

    /// Returns the writes of the pages, the lowest first.
    pub fn writes(&self) -> impl Iterator<Item = PendingWrite<'_>> {
        self.numbers.iter().filter_map(|number| {
            Some(PendingWrite { place: self.layout.page_place(*number), bytes: &self.changes.get(*number)?.0 })
        })
    }

    /// Forgets the pages, which were written. They are not overwritten, since they are encrypted.
    pub fn forget(mut self) {
        let numbers = mem::take(&mut self.numbers);
        for number in numbers {
            if let Some(page) = self.changes.get_mut(*number) {
                drop(mem::take(&mut page.0));
            }
        }
        // glibc gives freed memory back to the system, which clears it for the next changes. But it keeps as much as was once
        // freed in one piece.
        let _ = black_box(with_room::<u8>(numbers.len() * self.layout.page_bytes()));
    }
}

impl<A: Algorithm> Drop for SealedChanges<'_, A> {
    fn drop(&mut self) {
        for number in self.numbers {
            let page = self.changes.get_mut(*number);
            let is_opened = page.is_some_and(|page| self.layout.open(*number, &mut page.0));
            // Otherwise a later commit would write an erased page.
            assert!(is_opened, "nobody else has the page");
        }
    }
}
