//! A fork: the child has a copy of each file that its parent has open, and must neither write through it nor use its nonces.

#[allow(dead_code)]
#[path = "raf/support.rs"]
mod support;

use hunkravy::raf::{Aegis256, Error, FileIo, Raf, RafBuilder, RafRng, Result};
use std::cell::Cell;
use std::env;
use std::ffi::c_int;
use std::fs;
use std::io::{Read, Write};
use std::os::unix::fs::symlink;
use std::panic::{AssertUnwindSafe, catch_unwind};
use std::path::PathBuf;
use std::process::Command;
use std::rc::Rc;
use support::{Folder, KEY, Source, outcome, rows, word_of};

// SAFETY: they are declared as in `unistd.h` and `sys/wait.h`.
unsafe extern "C" {
    fn fork() -> c_int;
    fn waitpid(process: c_int, status: *mut c_int, options: c_int) -> c_int;
    safe fn _exit(status: c_int) -> !;
}

/// Makes a child, and returns 0 in it.
fn child() -> c_int {
    // SAFETY: the child calls nothing that another thread of the parent may have locked, except the allocator, which forks well.
    unsafe { fork() }
}

/// Waits for the end of a child, and returns whether it has succeeded.
fn succeeds(child: c_int) -> bool {
    let mut status = -1;
    // SAFETY: the pointer is that of a number.
    let waited = unsafe { waitpid(child, &mut status, 0) };
    waited == child && status == 0
}

/// Does something in a child, and returns whether it returned true there.
fn is_so_in_a_child(done: impl FnOnce() -> bool) -> bool {
    let child = child();
    if child == 0 {
        let is_so = catch_unwind(AssertUnwindSafe(done)).unwrap_or(false);
        _exit(c_int::from(!is_so));
    }
    succeeds(child)
}

type File<R> = Raf<Aegis256, FileIo, R>;

/// A file with committed contents and a change in memory, its folder, and the number of calls of its source of random bytes. The
/// source returns the same bytes in both processes.
fn file() -> (File<impl RafRng>, Folder, Rc<Cell<usize>>) {
    let folder = Folder::with(b"committed");
    let calls = Rc::new(Cell::new(0));
    let counted = calls.clone();
    let source = Source::new(9, move |call, _| {
        counted.set(call + 1);
        Ok(())
    });
    let mut file = RafBuilder::<Aegis256>::with_rng(source).open_file(folder.file(), &KEY).unwrap();
    file.write(b"a change", 5000).unwrap();
    (file, folder, calls)
}

fn bytes(folder: &Folder) -> Vec<u8> {
    fs::read(folder.file()).unwrap()
}

fn is_locked<T>(result: Result<T>) -> bool {
    outcome(result) == "Locked"
}

/// Returns whether each function returns the error in this process.
fn is_locked_in_each(file: &mut File<impl RafRng>) -> bool {
    let mut buf = [1; 4];
    let results = [
        is_locked(file.read(&mut buf, 0)),
        is_locked(file.write(b"no", 0)),
        is_locked(file.truncate(1)),
        is_locked(file.truncate(9000)),
        is_locked(file.commit()),
        is_locked(file.sync()),
        is_locked(file.commitment()),
        is_locked(file.verify(&[0; 32])),
        is_locked(file.batch(|_| Ok::<_, Error>(()))),
        file.cursor().read(&mut [1; 4]).is_err(),
        file.cursor().write(b"no").is_err(),
        file.cursor().write(b"").is_err(),
        file.cursor().flush().is_err(),
    ];
    buf == [0; 4] && results == [true; 13]
}

/// The child can use no function of the file, reads no random bytes, and does not unlock the file when it drops it.
fn is_locked_in_a_child() -> bool {
    let (file, folder, calls) = file();
    let (before, count) = (bytes(&folder), calls.get());
    let mut file = Some(file);
    let is_so = is_so_in_a_child(|| {
        let is_locked = is_locked_in_each(file.as_mut().unwrap());
        drop(file.take());
        is_locked && calls.get() == count
    });
    is_so && bytes(&folder) == before && is_locked(folder.open())
}

/// Opens a file in another process, by running this test again.
fn opens_elsewhere(folder: &Folder, expected: &str) -> bool {
    let mut test = Command::new(env::current_exe().unwrap());
    test.args(["locks_of_files", "--exact"]);
    test.env(PATH, folder.file()).env(EXPECTED, expected);
    test.output().unwrap().status.success()
}

const PATH: &str = "HUNKRAVY_PATH";
const EXPECTED: &str = "HUNKRAVY_EXPECTED";

/// Each row on locks in the table.
#[test]
fn locks_of_files() {
    let open = |path| word_of(Raf::<Aegis256>::open_file(path, &KEY));
    if let (Some(path), Ok(expected)) = (env::var_os(PATH), env::var(EXPECTED)) {
        return assert_eq!(open(PathBuf::from(path)), expected);
    }
    for words in rows("lock") {
        let (case, expected) = (words[1], words[2]);
        let (mut file, folder, _) = file();
        let link = folder.path("link");
        symlink(folder.file(), &link).unwrap();
        if case.starts_with("closed") {
            file.commit().unwrap();
            drop(file);
            let elsewhere = case == "closed-other-process" && opens_elsewhere(&folder, expected);
            assert!(elsewhere || open(folder.file()) == expected, "{case}");
            continue;
        }
        let is_so = match case {
            "same-process" => open(folder.file()) == expected,
            "same-process-link" => open(link) == expected,
            "other-process" => opens_elsewhere(&folder, expected),
            "forked-child-opens" => is_so_in_a_child(|| open(folder.file()) == expected),
            "forked-child-uses" => expected == "locked" && is_locked_in_a_child(),
            "parent-after-child" => {
                let mut file = Some(file);
                let is_dropped = is_so_in_a_child(|| file.take().is_some());
                is_dropped && word_of(file.unwrap().close()) == expected
            }
            _ => panic!("no test of the row {case}"),
        };
        assert!(is_so, "{case}");
    }
}

/// A child that does nothing but drop the file undoes no commit that its parent has made meanwhile.
#[test]
fn a_child_that_drops_the_file() {
    let (mut file, folder, calls) = file();
    file.write(&[7; 9000], 6000).unwrap();
    file.commit().unwrap();
    let (before, count) = (bytes(&folder), calls.get());
    file.write(b"another change", 0).unwrap();
    let mut file = Some(file);
    assert!(is_so_in_a_child(|| {
        drop(file.take());
        calls.get() == count
    }));
    assert_eq!(bytes(&folder), before);
    drop(file);
    assert_eq!(folder.text().len(), 15_000);
}

/// A batch in which the process forks commits in the parent alone.
#[test]
fn a_batch_in_a_child() {
    let (mut file, folder, calls) = file();
    let before = file.batch(|file| {
        file.write(b"in the batch", 0)?;
        // The child returns from the batch too, with a copy of all that is below it.
        let (before, count) = (bytes(&folder), calls.get());
        assert!(is_so_in_a_child(|| {
            let made = file.batch(|file| file.write(b"inner", 0));
            is_locked(made) && file.cursor().flush().is_err() && calls.get() == count
        }));
        assert_eq!(bytes(&folder), before);
        Ok::<_, Error>(before)
    });
    assert_ne!(bytes(&folder), before.unwrap());
    drop(file);
    assert_eq!(folder.text()[..12], *b"in the batch");
}

/// A child returns from a batch that its parent began: it commits nothing.
#[test]
fn the_end_of_a_batch_in_a_child() {
    let (mut file, folder, calls) = file();
    file.commit().unwrap();
    let (before, count) = (bytes(&folder), calls.get());
    let mut process = -1;
    let made = file.batch(|file| {
        file.write(b"in the batch", 0)?;
        process = child();
        match process {
            0 => Ok(()),
            _ => Err(Error::Commitment),
        }
    });
    if process == 0 {
        let is_so = is_locked(made) && calls.get() == count;
        drop(file);
        _exit(c_int::from(!is_so));
    }
    assert!(succeeds(process));
    assert_eq!(bytes(&folder), before);
}

/// A storage that was opened before the fork shares its lock with the child, which therefore cannot lock it.
#[test]
fn a_storage_that_was_opened_before() {
    let folder = Folder::with(b"text");
    let mut io = Some(FileIo::open(folder.file()).unwrap());
    assert!(is_so_in_a_child(|| { is_locked(RafBuilder::<Aegis256>::new().open(io.take().unwrap(), &KEY)) }));
    assert_eq!(RafBuilder::<Aegis256>::new().open(io.unwrap(), &KEY).unwrap().size(), 4);
}
