//! Disks on which there is not enough room for a commit.

use crate::support::*;
use hunkravy::raf::*;
use std::cell::Cell;
use std::os::unix::fs::MetadataExt;
use std::rc::Rc;
use std::{fs, io};

/// A storage on a disk with room for so many bytes, which a new size does not take, and a write or a reservation does.
fn small(disk: &Disk, room: &Rc<Cell<u64>>) -> impl RafIo + Clone + use<> {
    let room = room.clone();
    let taken = Rc::new(Cell::new(disk.bytes.borrow().len() as u64));
    let take = move |at| {
        let needed = match at {
            At::Write(end) | At::Reserve(end) => taken.get().max(end),
            At::Resize(size) => taken.get().min(size),
            _ => taken.get(),
        };
        let left = (room.get() + taken.get()).checked_sub(needed);
        room.set(left.ok_or(io::Error::from(io::ErrorKind::StorageFull))?);
        taken.set(needed);
        Ok(())
    };
    Before(disk.clone(), take)
}

/// A file always opens, with the text of before if its commit failed.
#[test]
fn an_append_without_room() {
    let begun = Disks::with(&[1; 1000]).bytes();
    let mut seen = [0; 2];
    for free in (0..20_000).step_by(50) {
        let room = Rc::new(Cell::new(free));
        let disks = Disks::of(begun.clone());
        let file = small(&disks.file, &room);
        let journal = small(&disks.journal, &room);
        let open = || disks.builder().journal(journal.clone()).open(file.clone(), &KEY).unwrap();
        let mut opened = open();
        opened.write(&[2; 5000], 900).unwrap();
        let is_made = opened.commit().is_ok();
        drop(opened);
        assert_eq!(open().size(), if is_made { 5900 } else { 1000 }, "{free}");
        seen[usize::from(is_made)] += 1;
    }
    assert!(seen[0] > 100 && seen[1] > 50, "{seen:?}");
}

/// A whole journal is replaced before it is applied, so the file does not open until there is room for a second one. Until then
/// nothing is changed.
#[test]
fn a_whole_journal_without_room() {
    let disks = cut_short(&Disks::with(&[1; 1000]).bytes(), &[2; 300], 0, JOURNAL_CALLS);
    let left = disks.bytes();
    disks.log().is_full = true;
    for _ in 0..2 {
        assert_eq!(outcome(disks.open()), "StorageFull");
        assert_eq!(disks.bytes(), left);
    }
    disks.log().is_full = false;
    assert_eq!(text_of(&mut disks.open().unwrap()), [[2; 300].as_slice(), &[1; 700]].concat());
}

/// The calls that the system makes room with: a file of the system has room on its disk for what is reserved.
#[test]
fn room_in_a_file() {
    let folder = Folder::new();
    let mut io = FileIo::create(folder.file()).unwrap();
    io.reserve(4096, 1 << 20).unwrap();
    let found = fs::metadata(folder.file()).unwrap();
    assert_eq!(found.len(), 1 << 20);
    assert!(found.blocks() * 512 >= (1 << 20) - 4096, "{found:?}");
    // A file that cannot be so long keeps its length.
    assert!(io.reserve(1 << 20, 1 << 63).is_err());
    assert!(io.reserve(1 << 20, (1 << 63) - 1).is_err());
    assert_eq!(io.get_size().unwrap(), 1 << 20);
}
