//! Memory that runs out: each allocation of a call fails in turn, alone or with all after it. The call returns an error, and
//! nothing has changed. One that cannot fail would end this program.

#[allow(dead_code)]
#[path = "raf/support.rs"]
mod support;

use hunkravy::files::{SealedReader, SealedWriter};
use hunkravy::raf::{Aegis256, Raf, Result, derive_key};
use hunkravy::records::{self, Opener, Sealer};
use std::alloc::{GlobalAlloc, Layout, System};
use std::cell::Cell;
use std::fs;
use std::io::{self, BufRead, ErrorKind, Read, Write};
use support::*;

thread_local! {
    /// How many allocations still succeed in this thread, whether only one fails then, and whether one has failed.
    static LEFT: Cell<usize> = const { Cell::new(usize::MAX) };
    static IS_ONE: Cell<bool> = const { Cell::new(false) };
    static HAS_FAILED: Cell<bool> = const { Cell::new(false) };
}

/// Returns whether an allocation fails.
fn fails() -> bool {
    let left = LEFT.try_with(Cell::get).unwrap_or(usize::MAX);
    if left > 0 {
        LEFT.set(left - usize::from(left < usize::MAX));
        return false;
    }
    HAS_FAILED.set(true);
    if IS_ONE.get() {
        LEFT.set(usize::MAX);
    }
    true
}

struct Failing;

// SAFETY: it is the system's allocator, which is called with the same arguments, or it returns null.
unsafe impl GlobalAlloc for Failing {
    unsafe fn alloc(&self, layout: Layout) -> *mut u8 {
        if fails() {
            return std::ptr::null_mut();
        }
        // SAFETY: as above.
        unsafe { System.alloc(layout) }
    }

    unsafe fn dealloc(&self, place: *mut u8, layout: Layout) {
        // SAFETY: as above.
        unsafe { System.dealloc(place, layout) }
    }
}

#[global_allocator]
static FAILING: Failing = Failing;

/// Does something while the allocation of this number fails, and those after it if it is not the only one. Returns the result,
/// and whether an allocation failed.
fn with_failure<T>(number: usize, is_one: bool, done: impl FnOnce() -> T) -> (T, bool) {
    IS_ONE.set(is_one);
    HAS_FAILED.set(false);
    LEFT.set(number);
    let result = done();
    LEFT.set(usize::MAX);
    (result, HAS_FAILED.get())
}

/// Lets each allocation of a call fail, until none does. `make` makes what the call is on. A call that has failed is checked
/// with `is_kept`, and made again.
fn each_failure<S, T>(
    make: impl Fn() -> S,
    call: impl Fn(&mut S) -> io::Result<T>,
    is_kept: impl Fn(&mut S) -> bool,
) -> usize {
    for number in 0..1000 {
        let mut has_failed = false;
        for is_one in [true, false] {
            let mut state = make();
            let (result, failed) = with_failure(number, is_one, || call(&mut state));
            has_failed |= failed;
            if let Err(error) = result {
                assert!(failed, "{error}");
                assert_eq!(error.kind(), ErrorKind::OutOfMemory);
                assert!(is_kept(&mut state), "allocation {number}");
                assert!(call(&mut state).is_ok(), "allocation {number}");
            }
        }
        if !has_failed {
            return number;
        }
    }
    panic!("more than 1000 allocations");
}

/// A file of 50,000 bytes with changes in memory, in some of its pages.
fn changed(folder: &Folder) -> Raf<Aegis256> {
    let mut file = folder.create_over().unwrap();
    file.write(&[1; 50_000], 0).unwrap();
    file.commit().unwrap();
    file.write(&[2; 10], 5).unwrap();
    file.write(&[1; 20_000], 20_000).unwrap();
    file
}

/// A change, a commit or a batch without memory changes nothing, and can be made again. What was changed before a batch may be
/// committed. A read and a commitment take no memory.
#[test]
fn calls_of_a_file() {
    type Call = fn(&mut Raf<Aegis256>) -> Result<()>;
    let calls: [(Call, usize); 8] = [
        (|file| file.write(&[3; 60_000], 7).map(drop), 1),
        (|file| file.write(&[3], 45_000).map(drop), 1),
        (|file| file.truncate(70_000), 1),
        (|file| file.read(&mut [0; 100], 0).map(drop), 0),
        (|file| file.commitment().map(drop), 0),
        (|file| Ok(file.cursor().write_all(b"text")?), 1),
        (|file| file.commit(), 5),
        (
            |file| {
                file.batch(|file| {
                    file.write(&[3; 9000], 100)?;
                    file.batch(|file| file.write(&[4; 9000], 200))?;
                    file.truncate(60_000)
                })
            },
            11,
        ),
    ];
    let folder = Folder::new();
    let mut contents = vec![1; 50_000];
    contents[5..15].fill(2);
    let is_kept = |file: &mut Raf<Aegis256>| text_of(file) == contents;
    for (call, least) in calls {
        let call = |file: &mut Raf<Aegis256>| Ok(call(file)?);
        let count = each_failure(|| changed(&folder), call, is_kept);
        assert!(count >= least, "{count} of {least}");
    }
    changed(&folder).commit().unwrap();
    assert_eq!(folder.text(), contents);
}

/// Disks that take no memory.
fn quiet(bytes: &Bytes) -> Disks {
    let disks = Disks::of(bytes.clone());
    for disk in [&disks.file, &disks.journal] {
        disk.bytes.borrow_mut().reserve(200_000);
    }
    disks.log().is_off = true;
    disks
}

/// An opening without memory loses nothing, also if it is to complete a commit.
#[test]
fn openings() {
    let begun = Disks::with(&[1; 20_000]).bytes();
    let (file, journal) = cut_short(&begun, &[2; 20_000], 0, JOURNAL_CALLS).bytes();
    for (journal, byte) in [(&[][..], 1), (&journal, 2), (&journal[..9000], 1)] {
        let bytes = (file.clone(), journal.to_vec());
        let call = |disks: &mut Disks| Ok(disks.open().map(drop)?);
        let is_kept = |disks: &mut Disks| disks.text() == [byte; 20_000];
        assert!(each_failure(|| quiet(&bytes), call, is_kept) > 0);
    }
}

/// Opening or creating at a path returns an error if there is no memory at all.
#[test]
fn files_at_paths() {
    let folder = Folder::with(b"text");
    let path = folder.file();
    let open = || Raf::<Aegis256>::open_file(&path, &KEY);
    assert_eq!(outcome(with_failure(0, false, open).0), "OutOfMemory");
    assert_eq!(folder.text(), b"text");
    fs::remove_file(&path).unwrap();
    let create = || Raf::<Aegis256>::create_file(&path, &KEY);
    assert_eq!(outcome(with_failure(0, false, create).0), "OutOfMemory");
    assert!(!path.exists());
}

/// A commit without memory returns an error before the standard library copies a long path, which would end the program.
#[test]
fn commits_at_long_paths() {
    let folder = Folder::new();
    let deep = folder.path(&"deep/".repeat(80));
    fs::create_dir_all(&deep).unwrap();
    let mut file = Raf::<Aegis256>::create_file(deep.join("file"), &KEY).unwrap();
    file.write(b"text", 0).unwrap();
    // Five allocations of its own, and the check.
    for number in 0..6 {
        let (result, _) = with_failure(number, false, || file.commit());
        assert_eq!(outcome(result), "OutOfMemory");
    }
    file.commit().unwrap();
}

#[test]
fn creations() {
    let make = || quiet(&Bytes::default());
    let create = |disks: &mut Disks| Ok(disks.builder().create(disks.file.clone(), &KEY).map(drop)?);
    let is_kept = |disks: &mut Disks| disks.bytes() == Bytes::default();
    assert!(each_failure(make, create, is_kept) > 0);
    let derive = |_: &mut ()| Ok(derive_key(&KEY, b"context").map(drop)?);
    assert_eq!(each_failure(|| (), derive, |()| true), 0);
}

#[test]
fn record_streams() {
    let make = || (Sealer::new(&KEY, &[1; 24], b"context").unwrap(), b"before".to_vec());
    for is_last in [false, true] {
        let seal = |(sealer, stream): &mut (Sealer<'_>, Vec<u8>)| {
            let sealed = match is_last {
                false => sealer.seal_next(&[9; 1000], stream),
                true => sealer.seal_last(&[9; 1000], stream),
            };
            Ok(sealed?)
        };
        assert_eq!(each_failure(make, seal, |state| state.1 == b"before"), 1);
    }
    let (mut sealer, mut stream) = make();
    stream.clear();
    sealer.seal_last(&[9; 1000], &mut stream).unwrap();
    let make = || Opener::new(&KEY, &[1; 24], b"context", &sealer.header()).unwrap();
    let open = |opener: &mut Opener<'_>| Ok(opener.open_next(&stream).map(drop)?);
    assert_eq!(each_failure(make, open, |opener| !opener.has_ended()), 1);
    assert_eq!(io::Error::from(records::Error::OutOfMemory).kind(), ErrorKind::OutOfMemory);
}

#[test]
fn sealed_files() {
    let begin = |_: &mut ()| SealedWriter::new(io::sink(), &KEY).map(drop);
    assert_eq!(each_failure(|| (), begin, |()| true), 1);
    let make = || Some(SealedWriter::new(io::sink(), &KEY).unwrap());
    let write = |writer: &mut Option<SealedWriter<io::Sink>>| {
        writer.as_mut().unwrap().write_all(&[1; 100_000])?;
        writer.take().unwrap().finish().map(drop)
    };
    assert_eq!(each_failure(make, write, |_| true), 0);
    let mut writer = SealedWriter::new(Vec::new(), &KEY).unwrap();
    writer.write_all(&[1; 100_000]).unwrap();
    let file = writer.finish().unwrap();
    let make = || SealedReader::new(&file[..], &KEY);
    let fill = |reader: &mut SealedReader<&[u8]>| reader.fill_buf().map(drop);
    let read = |reader: &mut SealedReader<&[u8]>| {
        let mut bytes = Vec::new();
        reader.read_to_end(&mut bytes).unwrap();
        bytes == [1; 100_000]
    };
    assert!(each_failure(make, fill, read) > 0);
}
