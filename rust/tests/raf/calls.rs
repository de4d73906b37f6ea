//! What single calls do: drops, the limit on changes in memory, sources of random bytes that fail, and numbers out of range.

use crate::support::*;
use hunkravy::raf::*;
use std::cell::Cell;
use std::error::Error as _;
use std::io::{self, Write};
use std::panic::{AssertUnwindSafe, catch_unwind};

type Change = fn(&mut File) -> Result<()>;

/// A drop commits, but not after a change that has failed, as others may belong to it. Nor does it while its thread panics.
#[test]
fn drops() {
    let cases: [(Change, usize); 4] = [
        (|_| Ok(()), 4),
        (|file| file.write(b"too far", MAX_SIZE).map(drop), 0),
        (|file| file.truncate(MAX_SIZE + 1), 0),
        (|_| panic!("in the middle of a change"), 0),
    ];
    for (number, (change, size)) in cases.into_iter().enumerate() {
        let disks = Disks::new();
        let made = catch_unwind(AssertUnwindSafe(|| {
            let mut file = disks.create();
            file.write(b"kept", 0).unwrap();
            change(&mut file)
        }));
        assert_eq!(made.is_ok_and(|made| made.is_ok()), size > 0, "{number}");
        assert_eq!(disks.text().len(), size, "{number}");
    }
}

/// A call that fails in a commit breaks the file. If it was to make the file longer, the changes are still in memory.
#[test]
fn each_call_that_fails() {
    let begun = Disks::with(&[1; 1100]).bytes();
    for left in 0.. {
        let disks = Disks::of(begun.clone());
        let mut file = disks.open().unwrap();
        file.truncate(300).unwrap();
        file.write(&[2; 2200], 300).unwrap();
        disks.leave(left);
        if file.commit().is_ok() {
            return assert_eq!(left, 11);
        }
        disks.leave(usize::MAX);
        match disks.log().calls.last() {
            Some((Part::File, Call::Resize(_))) => assert_eq!(file.size(), 2500),
            _ => check_is_broken(&mut file),
        }
        let calls = disks.calls();
        drop(file);
        assert_eq!(disks.calls(), calls);
        assert!([1100, 2500].contains(&disks.text().len()));
    }
}

fn check_is_broken(file: &mut File) {
    assert_eq!(outcome(read(file)), "Broken");
    assert!(file.cursor().write(b"").is_err());
    for result in [
        file.write(b"no", 0).map(drop),
        file.truncate(0),
        file.truncate(5000),
        file.commit(),
        file.sync(),
        file.commitment().map(drop),
    ] {
        assert_eq!(outcome(result), "Broken");
    }
}

/// A drop ignores the error of its commit.
#[test]
fn a_drop_that_fails() {
    let disks = Disks::new();
    let mut file = disks.create();
    file.write(b"lost", 0).unwrap();
    disks.leave(0);
    drop(file);
    assert_eq!(disks.text(), b"");
}

/// A change that panics is one that has failed, also if the file is dropped after the panic was caught.
#[test]
fn a_drop_after_a_panic_in_a_change_commits_nothing() {
    let disks = Disks::with(&[1; 600]);
    let panics = Cell::new(false);
    let reads = |at| {
        assert!(at != At::Read || !panics.get(), "a read that panics");
        Ok(())
    };
    let mut file = disks.builder().open(Before(disks.file.clone(), reads), &KEY).unwrap();
    file.write(b"the first of two", 0).unwrap();
    panics.set(true);
    let second = AssertUnwindSafe(|| file.write(b"the second", 300));
    assert!(catch_unwind(second).is_err());
    panics.set(false);
    drop(file);
    assert_eq!(disks.text(), [1; 600]);
}

#[test]
fn nothing_changed_is_no_commit() {
    let disks = Disks::with(&[1; 300]);
    let mut file = disks.open().unwrap();
    let count = disks.calls();
    file.commit().unwrap();
    file.sync().unwrap();
    file.truncate(300).unwrap();
    for offset in [0, 100, 256, 300] {
        file.write(b"", offset).unwrap();
    }
    file.discard();
    drop(file);
    assert_eq!(disks.calls(), count);
}

/// A write or a truncation past the limit is a commit, and one up to it is none.
#[test]
fn the_limit_on_changes() {
    let disks = Disks::new();
    let mut file = disks.builder().buffer_limit(4 * 256).create(disks.file.clone(), &KEY).unwrap();
    let mut is_commit = |change: Change| {
        let before = disks.calls();
        change(&mut file).unwrap();
        disks.calls() > before
    };
    assert!(!is_commit(|file| file.write(&[1; 1024], 0).map(drop)));
    assert!(!is_commit(|file| file.write(&[2; 1024], 0).map(drop)));
    assert!(is_commit(|file| file.write(&[3; 1], 1024).map(drop)));
    assert!(is_commit(|file| file.truncate(5000)));
    assert_eq!(disks.text()[..1025], [&[2; 1024][..], &[3]].concat());
}

/// By default so many changes are kept: 16 MiB.
#[test]
fn the_default_limit() {
    let disks = Disks::new();
    let mut file = RafBuilder::<Aegis128X2>::new().chunk_size(65_536).create(disks.file.clone(), &[7; 16]).unwrap();
    let count = disks.calls();
    file.write(&vec![1; 16 << 20], 0).unwrap();
    assert_eq!(disks.calls(), count);
    file.write(&[1], 16 << 20).unwrap();
    assert!(disks.calls() > count);
}

/// Returns the calls of the disks, and forgets them.
fn calls(disks: &Disks) -> String {
    let shown = |(part, call): (Part, Call)| match call {
        Call::Write(place, _) => format!("{part:?} write {place}"),
        Call::Resize(size) => format!("{part:?} resize {size}"),
        Call::Replace(bytes) => format!("{part:?} replace {}", bytes.len()),
        _ => format!("{part:?} sync"),
    };
    let shown: Vec<String> = disks.log().calls.drain(..).map(shown).collect();
    shown.join(", ")
}

/// A creation locks the file and the journal, and writes the header once the journal is certain to be empty. An opening locks both
/// too, and syncs the file, since what can be read may not be synced. It empties the journal even if it is empty: after a sync
/// that failed its old bytes may be on the disk. Whoever opens a file that has only been made does not lock it, so that whoever
/// has made it can.
#[test]
fn the_calls_of_a_creation_and_an_opening() {
    let disks = Disks::new();
    assert_eq!(outcome(disks.open()), "Header");
    assert_eq!(disks.log().locks, 0);
    let mut file = disks.create();
    let expected = "Journal resize 0, Journal sync, File write 0, File sync";
    assert_eq!((calls(&disks).as_str(), disks.log().locks), (expected, 2));
    let commitment = file.commitment().unwrap();
    drop(file);
    let mut file = disks.open().unwrap();
    let expected = "File sync, Journal sync, Journal resize 0, Journal sync";
    assert_eq!((calls(&disks).as_str(), disks.log().locks), (expected, 4));
    file.verify(&commitment).unwrap();
}

/// A file whose lock, or whose journal's, is refused is not changed or synced, also if a commit is to be completed.
#[test]
fn locks_that_are_refused() {
    fn locked(disk: &Disk) -> impl RafIo + use<> {
        Before(disk.clone(), on(At::Lock, || Err(Error::Locked)))
    }
    // All is written but the end of the file.
    let disks = cut_short(&Disks::with(b"").bytes(), &[1; 600], 0, 1 + JOURNAL_CALLS + 2);
    disks.log().calls.clear();
    let builder = || disks.builder().truncate(true);
    let beside = || builder().journal(locked(&disks.journal));
    let refused = [
        outcome(builder().open(locked(&disks.file), &KEY)),
        outcome(builder().create(locked(&disks.file), &KEY)),
        outcome(beside().open(disks.file.clone(), &KEY)),
        outcome(beside().create(disks.file.clone(), &KEY)),
    ];
    assert_eq!((refused, disks.calls()), (["Locked"; 4].map(String::from), 0));
    assert_eq!(disks.text(), [1; 600]);
}

/// Without a journal a commit writes the file alone, which is read again.
#[test]
fn no_journal() {
    fn check<J: JournalChoice>(builder: impl Fn() -> RafBuilder<Aegis256, OsRng, J>) {
        let disks = Disks::new();
        let mut file = builder().chunk_size(256).create(disks.file.clone(), &KEY).unwrap();
        file.write(&[1; 600], 0).unwrap();
        disks.log().calls.clear();
        file.commit().unwrap();
        let expected = "File resize 5056, File write 0, File write 4096, File write 0, File sync";
        assert_eq!(calls(&disks), expected);
        drop(file);
        let mut file = builder().open(disks.file, &KEY).unwrap();
        assert_eq!(text_of(&mut file), [1; 600]);
    }
    check(RafBuilder::new);
    check(|| RafBuilder::new().journal(NoJournal));
}

/// A source that fails keeps what is there, and the changes.
#[test]
fn a_source_of_random_bytes_that_fails() {
    let disks = Disks::with(b"kept");
    let bytes = disks.bytes();
    for calls in 0..2 {
        let builder = disks.builder().truncate(true).rng(failing(calls));
        assert_eq!(outcome(builder.create(disks.file.clone(), &KEY)), "UnexpectedEof");
    }
    let open = |calls| {
        let mut file = disks.builder().rng(failing(calls)).open(disks.file.clone(), &KEY).unwrap();
        file.write(&[1; 300], 0).unwrap();
        file
    };
    // The nonces of two pages and of the header, and that of the journal.
    for calls in 0..2 {
        let mut file = open(calls);
        let count = disks.calls();
        assert_eq!(outcome(file.commit()), "UnexpectedEof");
        assert_eq!(text_of(&mut file), [1; 300]);
        drop(file);
        assert_eq!((disks.calls(), disks.bytes()), (count, bytes.clone()));
    }
    open(2).commit().unwrap();
}

/// The nonce that commitments have is used for no header and no page.
#[test]
fn the_reserved_nonce() {
    let disks = Disks::new();
    // It is that of a header, or of the last page and the header.
    let builder = |reserved| {
        disks.builder().rng(Source::new(5, move |call, buf| {
            if call == reserved {
                buf.iter_mut().rev().take(64).for_each(|byte| *byte = 255);
            }
            Ok(())
        }))
    };
    let created = builder(1).create(disks.file.clone(), &KEY);
    assert_eq!((outcome(created).as_str(), disks.calls()), ("InvalidData", 0));
    drop(builder(2).create(disks.file.clone(), &KEY).unwrap());
    let mut file = builder(0).open(disks.file.clone(), &KEY).unwrap();
    file.write(b"kept", 0).unwrap();
    let count = disks.calls();
    assert_eq!(outcome(file.commit()), "InvalidData");
    assert_eq!((disks.calls(), file.size()), (count, 4));
    file.discard();
}

/// Each error has its text, and the kind and the cause of the `io::Error` that is made of it.
#[test]
fn errors() {
    let errors = [
        Error::Io(io::Error::from_raw_os_error(2)),
        Error::Header,
        Error::Journal,
        Error::Damaged(70),
        Error::TooLong,
        Error::ChunkSize,
        Error::ContextTooLong,
        Error::Commitment,
        Error::Locked,
        Error::Moved,
        Error::Broken,
    ];
    let texts = "\
No such file or directory (os error 2)
cannot open the header: wrong key or algorithm, damaged file, or not a raf file
the journal is of another file, or of another state of this one
page 70 is damaged
the contents are too long, or no more commits are possible
the chunk size must be 256 to 65,536 bytes
the context is longer than 120 bytes (16-byte key) or 72 (32-byte key)
the commitment is not the expected one
the file is already open, here or in another process
the file was renamed, removed or replaced, or has several hard links
a commit failed: open the file again";
    assert_eq!(errors.each_ref().map(Error::to_string).join("\n"), texts);
    for (error, text) in errors.into_iter().zip(texts.lines()) {
        let is_io = matches!(error, Error::Io(_));
        assert_eq!(error.source().is_some(), is_io);
        let error = io::Error::from(error);
        let kinds = [io::ErrorKind::InvalidData, io::ErrorKind::NotFound];
        assert_eq!(error.kind(), kinds[usize::from(is_io)]);
        assert_eq!(error.to_string(), text);
        assert_eq!(error.raw_os_error(), is_io.then_some(2));
    }
}

/// What is set before a source or a journal is set is kept.
#[test]
fn builders_keep_what_was_set() {
    let disks = Disks::of((vec![1], Vec::new()));
    let builder = RafBuilder::<Aegis256>::new().buffer_limit(0).truncate(true).chunk_size(300).rng(Random(5));
    let mut file = builder.journal(disks.journal.clone()).create(disks.file.clone(), &KEY).unwrap();
    file.write(b"text", 0).unwrap();
    assert_eq!(disks.text(), b"text");
    assert_eq!(probe(&mut disks.file.clone()).unwrap().chunk_size, 300);
    assert_eq!(format!("{file:?}"), "Raf { size: 4, .. }");
}

/// A file that has lost its header while it was open is not committed to.
#[test]
fn a_file_that_was_truncated_while_open() {
    let disks = Disks::new();
    let mut file = disks.create();
    file.write(b"text", 0).unwrap();
    disks.file.bytes.borrow_mut().truncate(511);
    let count = disks.calls();
    assert_eq!(outcome(file.commit()), "Header");
    assert_eq!((disks.calls(), file.size()), (count, 4));
    file.discard();
}

#[test]
fn chunk_sizes() {
    for bytes in [0, 1, 255, 65_537, u32::MAX] {
        let disks = Disks::of((vec![1; 10], Vec::new()));
        let created = disks.builder().truncate(true).chunk_size(bytes).create(disks.file.clone(), &KEY);
        assert_eq!(outcome(created), "ChunkSize");
        assert_eq!(disks.bytes().0, [1; 10]);
    }
    for bytes in [256, 257, 4032, 65_535, 65_536] {
        let disks = Disks::new();
        let mut file = RafBuilder::<Aegis128L>::new().chunk_size(bytes).create(disks.file.clone(), &[7; 16]).unwrap();
        file.write(&[1, 2, 3], u64::from(bytes) - 1).unwrap();
        file.commit().unwrap();
        let found = probe(&mut disks.file.clone()).unwrap();
        assert_eq!((found.chunk_size, found.algorithm), (bytes, AlgorithmId::Aegis128L));
        assert_eq!(found.file_size, 4096 + 2 * (u64::from(bytes) + 48));
    }
}

#[test]
fn sizes_and_offsets() {
    assert_eq!(MAX_SIZE, 1 << 60);
    let mut file = Disks::new().create();
    file.write(b"text", 0).unwrap();
    for offset in [MAX_SIZE, MAX_SIZE + 1, u64::MAX - 3, u64::MAX] {
        assert_eq!(outcome(file.write(b"a", offset)), "TooLong");
    }
    for size in [MAX_SIZE + 1, u64::MAX] {
        assert_eq!(outcome(file.truncate(size)), "TooLong");
    }
    let mut buf = [7; 4];
    for offset in [4, 5, MAX_SIZE, u64::MAX] {
        assert_eq!(file.read(&mut buf, offset).unwrap(), 0);
        assert_eq!(buf, [7; 4]);
    }
    assert_eq!(file.read(&mut buf, 3).unwrap(), 1);
    assert_eq!(&buf, b"t\x07\x07\x07");
    assert_eq!((file.size(), file.write(b"", 4).unwrap()), (4, 0));
    // No byte far away, so a longer text.
    assert_eq!((file.write(b"", 9).unwrap(), file.size()), (0, 9));
    assert_eq!(file.read(&mut [0; 20], 0).unwrap(), 9);
}

/// Bytes that hold something are overwritten only if that is asked for, and never over a journal.
#[test]
fn bytes_that_hold_something() {
    let disks = Disks::of((vec![1; 1000], vec![1]));
    let create = |truncate| outcome(disks.builder().truncate(truncate).create(disks.file.clone(), &KEY));
    assert_eq!(create(true), "Journal");
    disks.journal.bytes.borrow_mut().clear();
    assert_eq!(create(false), "AlreadyExists");
    assert_eq!(disks.bytes().0, [1; 1000]);
    assert_eq!(create(true), "Ok");
    assert_eq!((disks.bytes().0.len(), disks.text()), (512, Vec::new()));
}

/// A write far past the end, for whose zeros there is no memory, changes nothing.
#[test]
fn a_write_without_memory() {
    let disks = Disks::new();
    let mut file = disks.create();
    file.write(b"before", 0).unwrap();
    for offset in [1 << 50, MAX_SIZE - 1] {
        assert_eq!(outcome(file.write(b"x", offset)), "OutOfMemory");
        assert_eq!(outcome(file.truncate(offset)), "OutOfMemory");
        assert_eq!(file.size(), 6);
    }
    file.commit().unwrap();
    assert_eq!(disks.text(), b"before");
}
