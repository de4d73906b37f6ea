//! The calls of the system that change something, which files at paths make in their creation, in commits and in recoveries, in
//! their order. `testkit/disk` lets each of them fail.

#[allow(dead_code)]
#[path = "raf/support.rs"]
mod support;

use hunkravy::raf::{Aegis256, Raf};
use std::cell::{Cell, RefCell};
use std::ffi::{CStr, OsStr, c_char, c_int, c_void};
use std::fs;
use std::mem::transmute;
use std::os::unix::ffi::OsStrExt;
use std::path::{Path, PathBuf};
use support::*;

thread_local! {
    static CALLS: RefCell<Vec<String>> = const { RefCell::new(Vec::new()) };
    /// A path where another program puts its own file, after so many syncs.
    static EXCHANGE: Cell<Option<(usize, PathBuf)>> = const { Cell::new(None) };
}

// SAFETY: it is declared as in `dlfcn.h`.
unsafe extern "C" {
    fn dlsym(handle: isize, name: *const c_char) -> *const c_void;
}

fn log(call: &str, path: &Path) {
    let name = path.file_name().unwrap_or_default().to_string_lossy();
    let shown = format!("{call} {}", if name.starts_with("hunkravy-") { "folder" } else { &name });
    CALLS.with_borrow_mut(|calls| calls.push(shown));
    match EXCHANGE.take() {
        Some((0, path)) if call == "sync" => {
            fs::remove_file(&path).unwrap();
            fs::write(&path, "another").unwrap();
        }
        Some((syncs, path)) => EXCHANGE.set(Some((syncs - usize::from(call == "sync"), path))),
        None => {}
    }
}

/// Anything by which a call names a file.
trait Named {
    fn log(self, call: &str);
}

impl Named for c_int {
    fn log(self, call: &str) {
        log(call, &fs::read_link(format!("/proc/self/fd/{self}")).unwrap());
    }
}

impl Named for *const c_char {
    fn log(self, call: &str) {
        // SAFETY: it is a path that is passed to the system.
        let path = unsafe { CStr::from_ptr(self) };
        log(call, Path::new(OsStr::from_bytes(path.to_bytes())));
    }
}

/// Defines calls of the system that are logged, with the file that the first argument names, and then made.
macro_rules! logged {
    ($($shown:literal: $name:ident($file:ident: $of:ty $(, $argument:ident: $type:ty)*) -> $result:ty;)*) => {$(
        // SAFETY: it has the type of the function of this name in glibc, which it calls with the same arguments.
        #[unsafe(no_mangle)]
        unsafe extern "C" fn $name($file: $of $(, $argument: $type)*) -> $result {
            const NEXT: isize = -1;
            $file.log($shown);
            // SAFETY: as above.
            unsafe {
                let found = dlsym(NEXT, concat!(stringify!($name), "\0").as_ptr().cast());
                transmute::<*const c_void, unsafe extern "C" fn($of $(, $type)*) -> $result>(found)($file $(, $argument)*)
            }
        }
    )*};
}

logged! {
    "write": pwrite64(file: c_int, bytes: *const c_void, length: usize, offset: i64) -> isize;
    "resize": ftruncate64(file: c_int, size: i64) -> c_int;
    "reserve": fallocate(file: c_int, mode: c_int, offset: i64, length: i64) -> c_int;
    "sync": fsync(file: c_int) -> c_int;
    "forget": posix_fadvise(file: c_int, offset: i64, length: i64, advice: c_int) -> c_int;
    "rename": rename(from: *const c_char, to: *const c_char) -> c_int;
    "remove": unlink(path: *const c_char) -> c_int;
}

/// Returns the calls since this was last called.
fn calls() -> String {
    CALLS.take().join(", ")
}

#[test]
fn the_calls_of_the_system() {
    let folder = Folder::new();
    let mut file = folder.create().unwrap();
    assert_eq!(calls(), "write file, sync file, sync folder");
    let commit = "reserve file, write file.journal, sync file.journal, sync folder, write file.journal, sync file.journal, \
         write file, write file, write file, sync file, resize file.journal, sync file.journal, remove file.journal";
    file.write(b"before", 0).unwrap();
    file.commit().unwrap();
    assert_eq!(calls(), commit);
    drop(file);
    // The name of a file that was only opened is synced too, once.
    let mut file = folder.open().unwrap();
    assert_eq!(calls(), "sync file");
    for synced in ["sync folder, ", ""] {
        file.truncate(file.size() + 5000).unwrap();
        file.commit().unwrap();
        assert_eq!(calls(), format!("{synced}{commit}"));
    }
    drop(file);
    let before = (fs::read(folder.file()).unwrap(), Vec::new());
    let journal = cut_short(&before, b"after!", 0, JOURNAL_CALLS).bytes().1;
    fs::write(folder.journal(), &journal[..600]).unwrap();
    drop(folder.open().unwrap());
    let torn = "sync file, forget file, sync file.journal, forget file.journal, sync file, sync file.journal, sync folder, \
         resize file.journal, sync file.journal, remove file.journal";
    assert_eq!(calls(), torn);
    // It may be empty only in what can be read: a sync of that has failed.
    fs::write(folder.journal(), b"").unwrap();
    drop(folder.open().unwrap());
    let empty = "sync file, resize file.journal, sync file.journal, remove file.journal";
    assert_eq!(calls(), empty);
    fs::write(folder.journal(), &journal).unwrap();
    let opened = Raf::<Aegis256>::open_file(folder.file(), &KEY);
    let whole = "sync file, forget file, sync file.journal, forget file.journal, sync file, remove file.jrncopy, \
         write file.jrncopy, sync file.jrncopy, rename file.jrncopy, sync folder, write file, write file, write file, \
         sync file, resize file.journal, sync file.journal, remove file.journal";
    assert_eq!(text_of(&mut opened.unwrap())[..6], *b"after!");
    assert_eq!(calls(), whole);
}

/// A commit writes nothing to its file unless the journal that it has synced has its name.
#[test]
fn journals_that_are_exchanged_in_a_commit() {
    for syncs in 0..3 {
        let folder = Folder::new();
        let mut file = folder.create().unwrap();
        file.write(b"contents", 0).unwrap();
        EXCHANGE.set(Some((syncs, folder.journal())));
        assert!(file.commit().is_err() && EXCHANGE.take().is_none());
        drop(file);
        assert_eq!(fs::read(folder.journal()).unwrap(), b"another");
        fs::remove_file(folder.journal()).unwrap();
        assert_eq!(folder.open().unwrap().size(), 0);
    }
}

/// A recovery renames no other copy of the journal than its own.
#[test]
fn copies_that_are_exchanged() {
    let folder = Folder::with(b"before");
    let before = (fs::read(folder.file()).unwrap(), Vec::new());
    let journal = cut_short(&before, b"after!", 0, JOURNAL_CALLS).bytes().1;
    fs::write(folder.journal(), &journal).unwrap();
    EXCHANGE.set(Some((3, folder.path("file.jrncopy"))));
    assert!(folder.open().is_err() && EXCHANGE.take().is_none());
    assert!(fs::read(folder.journal()).unwrap() == journal);
    assert_eq!(folder.text(), b"after!");
}
