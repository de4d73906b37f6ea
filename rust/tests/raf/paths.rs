//! Files at paths: their journals, locks and cursors.

use crate::support::*;
use hunkravy::raf::*;
use std::collections::HashSet;
use std::fs;
use std::io::{Read, Seek, SeekFrom, Write};
use std::os::unix::fs::symlink;

/// A whole journal that lies beside a file is completed, and a torn one is left out; both are then gone. A new file is not made over
/// a journal.
#[test]
fn journals_beside_a_file() {
    let folder = Folder::with(b"before");
    let before = fs::read(folder.file()).unwrap();
    // The same commit over a copy in memory gives the journal.
    let whole = cut_short(&(before.clone(), Vec::new()), b"after!", 0, JOURNAL_CALLS).bytes().1;
    let put = |length| {
        fs::write(folder.file(), &before).unwrap();
        fs::write(folder.journal(), &whole[..length]).unwrap();
    };
    for (length, text) in [(whole.len(), b"after!"), (whole.len() - 1, b"before"), (0, b"before")] {
        put(length);
        let opened = RafBuilder::new().open(FileIo::open(folder.file()).unwrap(), &KEY);
        assert_eq!(text_of(&mut opened.unwrap()), text);
        assert_eq!(folder.names(), ["file"]);
    }
    put(whole.len());
    assert_eq!(outcome(folder.create_over()), "Journal");
    assert_eq!(fs::read(folder.file()).unwrap(), before);
    fs::remove_file(folder.file()).unwrap();
    assert_eq!(outcome(folder.create()), "Journal");
    assert_eq!((folder.names(), fs::read(folder.journal()).unwrap()), (vec!["file.journal".to_owned()], whole));
}

/// A lock ends with its file, even if a copy of the descriptor is still open, as one is in a process that is being started. Until
/// then the copy shares it, and what has not locked the file does not unlock it.
#[test]
fn locks_of_descriptors() {
    let folder = Folder::with(b"");
    let mut options = fs::File::options();
    let file = options.read(true).write(true).open(folder.file()).unwrap();
    let copy = || FileIo::new(file.try_clone().unwrap());
    let over_copy = RafBuilder::<Aegis256>::new().open(copy(), &KEY).unwrap();
    probe(&mut copy()).unwrap();
    assert_eq!(outcome(folder.open()), "Locked");
    drop(over_copy);
    assert_eq!(outcome(folder.open()), "Ok");
}

/// However a file is made, it has a journal: here one that cannot be written.
#[test]
fn each_way_to_create_a_file() {
    let folder = Folder::new();
    let (path, link) = (folder.file(), folder.path("link"));
    symlink(&path, &link).unwrap();
    let is_written = |created: Result<Raf<Aegis256>>| {
        let mut file = created.unwrap();
        fs::create_dir(folder.journal()).unwrap();
        file.write(b"text", 0).unwrap();
        let committed = file.commit();
        fs::remove_dir(folder.journal()).unwrap();
        committed.is_ok()
    };
    // The link leads to no file yet.
    assert!(!is_written(over().create_file(&link, &KEY)));
    assert!(!is_written(folder.create_over()));
    let io = FileIo::create(&path).unwrap();
    assert!(!is_written(over().create(io, &KEY)));
    let io = FileIo::open(&link).unwrap();
    assert!(!is_written(over().create(io, &KEY)));
    // But not if its path is not known.
    let io = fs::File::options().read(true).write(true).open(&path);
    assert!(is_written(over().create(FileIo::new(io.unwrap()), &KEY)));
}

/// The id of a file, and the nonce of each header and page, are drawn.
#[test]
fn files_differ() {
    let mut seen = HashSet::new();
    for _ in 0..4 {
        let folder = Folder::new();
        let mut file = folder.create().unwrap();
        for _ in 0..3 {
            file.write(b"same", 0).unwrap();
            file.commit().unwrap();
            let bytes = fs::read(folder.file()).unwrap();
            assert!(seen.insert(bytes[33..65].to_vec()) && seen.insert(bytes[4096..4128].to_vec()));
        }
        assert!(seen.insert(fs::read(folder.file()).unwrap()[9..33].to_vec()));
    }
}

/// What is refused before a file is made makes none, and keeps one that is there.
#[test]
fn refused_before_anything_is_changed() {
    let folder = Folder::new();
    let path = folder.file();
    for calls in 0..2 {
        let builder = RafBuilder::<Aegis256>::with_rng(failing(calls));
        assert_eq!(outcome(builder.create_file(&path, &KEY)), "UnexpectedEof");
        assert!(folder.names().is_empty());
    }
    folder.create().unwrap().write(b"kept", 0).unwrap();
    let created = over().chunk_size(65_537).create_file(&path, &KEY);
    assert_eq!(outcome(created), "ChunkSize");
    assert_eq!(outcome(over().rng(failing(1)).create_file(&path, &KEY)), "UnexpectedEof");
    assert_eq!(outcome(folder.create()), "AlreadyExists");
    assert_eq!(folder.text(), b"kept");
    assert_eq!(folder.create_over().unwrap().size(), 0);
    assert_eq!(outcome(Raf::<Aegis256>::open_file(folder.path("none"), &KEY)), "NotFound");
    assert_eq!(outcome(Raf::<Aegis256>::create_file(folder.path("no/folder"), &KEY)), "NotFound");
}

/// What fails after a file was made removes it again, unless another program has it or gave it another name.
#[test]
fn refused_after_a_file_was_made() {
    let folder = Folder::new();
    let used = || Disks::of((Vec::new(), vec![1])).journal;
    let unsynced = || {
        let disks = Disks::new();
        disks.leave(0);
        disks.journal
    };
    for builder in [RafBuilder::<Aegis256>::new, over] {
        for (journal, error) in [(used(), "Journal"), (unsynced(), "Other")] {
            assert_eq!(outcome(builder().journal(journal).create_file(folder.file(), &KEY)), error);
            assert!(folder.names().is_empty());
        }
    }
    // One that is there already is kept, and so is one that another program opens meanwhile.
    fs::write(folder.file(), b"").unwrap();
    assert_eq!(outcome(over().journal(used()).create_file(folder.file(), &KEY)), "Journal");
    assert_eq!(folder.names(), ["file"]);
    let links = on(At::Sync, || Ok(fs::hard_link(folder.path("new"), folder.path("other"))?));
    let builder = over().journal(Before(Disks::new().journal, links));
    assert_eq!(outcome(builder.create_file(folder.path("new"), &KEY)), "Moved");
    assert_eq!(folder.names(), ["file", "new", "other"]);
}

/// Opening empties no journal that it has not read.
#[test]
fn a_file_that_appears_in_place_of_a_journal() {
    let folder = Folder::with(b"");
    let appears = on(At::Sync, || Ok(fs::write(folder.journal(), [7; 40])?));
    let io = Before(FileIo::open(folder.file()).unwrap(), appears);
    assert_eq!(outcome(RafBuilder::<Aegis256>::new().open(io, &KEY)), "Journal");
    assert_eq!(fs::read(folder.journal()).unwrap(), [7; 40]);
}

/// A commit that another file's journal has kept back succeeds once that is gone.
#[test]
fn a_foreign_journal_that_goes_away() {
    let folder = Folder::with(b"");
    let mut file = RafBuilder::<Aegis256>::new().open_file(folder.file(), &KEY).unwrap();
    file.write(b"a", 0).unwrap();
    fs::write(folder.journal(), [7; 40]).unwrap();
    assert_eq!(outcome(file.commit()), "Journal");
    fs::remove_file(folder.journal()).unwrap();
    file.commit().unwrap();
}

/// What was read of one journal does not decide on another that has taken its place, which is not changed.
#[test]
fn a_journal_that_is_replaced_as_it_is_read() {
    let folder = Folder::with(b"");
    let disks = Disks::of((Vec::new(), vec![7; 20]));
    let replaced = on(At::Read, || {
        disks.journal.bytes.borrow_mut().resize(1000, 7);
        Ok(())
    });
    let builder = RafBuilder::<Aegis256>::new();
    let builder = builder.journal(Before(disks.journal.clone(), replaced));
    assert_eq!(outcome(builder.open_file(folder.file(), &KEY)), "Journal");
    assert_eq!(disks.calls(), 0);
}

/// What is no file, or shorter than the first sector, has no header that is read without its key.
#[test]
fn files_that_are_none() {
    let (file, _) = Disks::with(b"").bytes();
    assert_eq!(probe(&mut Disks::of((file.clone(), Vec::new())).file).unwrap().file_size, 512);
    for bytes in [b"", &file[..511], b"AGP1", &[0; 600], &[b"AGP2\x21\0\x10\0\0", &file[9..]].concat()] {
        assert_eq!(outcome(probe(&mut Disks::of((bytes.to_vec(), Vec::new())).file)), "Header");
    }
}

/// Closing commits, as dropping does, and returns the error. A file may go to another thread.
#[test]
fn closing() {
    let folder = Folder::new();
    let mut file = folder.create().unwrap();
    file.write(b"kept", 0).unwrap();
    let thread = std::thread::spawn(move || file.close());
    thread.join().unwrap().unwrap();
    assert_eq!(folder.text(), b"kept");
    let mut file = folder.open().unwrap();
    file.write(b"lost", 0).unwrap();
    fs::rename(folder.file(), folder.path("other")).unwrap();
    assert_eq!(outcome(file.close()), "Moved");
    fs::rename(folder.path("other"), folder.file()).unwrap();
    assert_eq!(folder.text(), b"kept");
}

#[test]
fn cursors() {
    let folder = Folder::new();
    let mut file = folder.create().unwrap();
    let mut cursor = file.cursor();
    for part in [&b"one two "[..], b"thr", b"ee"] {
        cursor.write_all(part).unwrap();
    }
    cursor.seek(SeekFrom::End(-5)).unwrap();
    let mut word = String::new();
    cursor.read_to_string(&mut word).unwrap();
    assert_eq!(word, "three");
    assert!(cursor.seek(SeekFrom::Current(-14)).is_err());
    assert_eq!(cursor.seek(SeekFrom::Current(-13)).unwrap(), 0);
    let length = || fs::metadata(folder.file()).unwrap().len();
    assert_eq!(length(), 512);
    cursor.flush().unwrap();
    assert_eq!(length(), 4096 + 4096);
    cursor.seek(SeekFrom::Start(20)).unwrap();
    assert_eq!(cursor.read(&mut [0; 9]).unwrap(), 0);
    // As with a file of the system, no bytes that are written past the end change nothing.
    assert_eq!(cursor.write(b"").unwrap(), 0);
    cursor.seek(SeekFrom::Start(u64::MAX)).unwrap();
    assert_eq!(cursor.write(b"").unwrap(), 0);
    drop(file);
    assert_eq!(folder.text(), b"one two three");
}

#[test]
fn a_journal_beside_no_file() {
    let folder = Folder::new();
    for name in ["text.journal", "text.wal", "text"] {
        let mut disk = Disks::new().file;
        disk.journal = Some(folder.path(name));
        let mut file = RafBuilder::<Aegis256>::new().create(disk, &KEY).unwrap();
        file.write(b"text", 0).unwrap();
        file.commit().unwrap();
        assert!(folder.names().is_empty());
    }
}
