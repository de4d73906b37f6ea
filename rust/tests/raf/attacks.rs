//! What others do to a file, its journal and its folder, by accident or on purpose: nothing is lost, and nothing that
//! is not verified is returned.

use crate::support::*;
use hunkravy::raf::*;
use std::env;
use std::fs;
use std::os::unix::fs::{FileExt, symlink};

/// A commit of a file that is not where it was opened would leave a journal that nobody finds: it is refused before anything is
/// written, and keeps the changes, also if the file is moved while pages are sealed. The table of owners has other moves.
#[test]
fn a_file_that_is_moved() {
    for draw in 0..3 {
        let folder = Folder::with(b"before");
        let moves = || fs::rename(folder.file(), folder.path("other"));
        let rng = Source::new(draw as u64 + 1, |call, _| match call + 1 == draw {
            true => Ok(moves()?),
            false => Ok(()),
        });
        let mut file = RafBuilder::<Aegis256>::with_rng(rng).open_file(folder.file(), &KEY).unwrap();
        file.write(b"after!", 0).unwrap();
        let bytes = fs::read(folder.file()).unwrap();
        if draw == 0 {
            moves().unwrap();
        }
        assert_eq!(outcome(file.commit()), "Moved", "{draw}");
        assert_eq!(outcome(file.sync()), "Moved", "{draw}");
        assert_eq!(fs::read(folder.path("other")).unwrap(), bytes);
        assert!(!folder.journal().exists() && text_of(&mut file) == b"after!");
        fs::rename(folder.path("other"), folder.file()).unwrap();
        file.commit().unwrap();
        drop(file);
        assert_eq!(folder.text(), b"after!");
    }
}

/// Whoever creates a file over one that is open elsewhere is told so, also while its journal is written, which is not
/// to be taken for a stray one.
#[test]
fn a_file_that_is_created_over_one_in_a_commit() {
    let folder = Folder::with(b"before");
    let file = folder.open().unwrap();
    fs::write(folder.journal(), [1; 40]).unwrap();
    // What is wrong with the journal, as its second name, does not matter then.
    for has_second in [false, true] {
        if has_second {
            fs::hard_link(folder.journal(), folder.path("other")).unwrap();
        }
        for created in [folder.create(), folder.create_over()] {
            assert_eq!(outcome(created), "Locked");
        }
    }
    fs::remove_file(folder.path("other")).unwrap();
    drop(file);
    assert_eq!(outcome(folder.create()), "Journal");
}

/// A large file of the journal's name that is none of the file's is not read: its bytes may be more than the memory.
#[test]
fn a_large_file_that_is_no_journal() {
    let folder = Folder::with(b"before");
    let journal = fs::File::create(folder.journal()).unwrap();
    for front in [vec![0; 600], front_of_another().to_vec()] {
        journal.write_all_at(&front, 0).unwrap();
        journal.set_len(1 << 40).unwrap();
        assert_eq!(outcome(folder.open()), "Journal");
    }
    // Nor if the file has no header.
    fs::write(folder.file(), [0; 600]).unwrap();
    journal.write_all_at(b"AGJ2", 0).unwrap();
    assert_eq!(outcome(folder.open()), "Header");
}

/// A link that leads to no file yet leads to the journal of the file that is made.
#[test]
fn a_link_to_no_file_and_a_journal() {
    let folder = Folder::new();
    fs::create_dir(folder.path("in")).unwrap();
    symlink("in/file", folder.file()).unwrap();
    fs::write(folder.path("in/file.journal"), b"something").unwrap();
    assert_eq!(outcome(folder.create_over()), "Journal");
    assert!(!folder.path("in/file").exists());
    assert_eq!(fs::read(folder.path("in/file.journal")).unwrap(), b"something");
}

/// Bytes after the last page are read by nobody, and are written over when the text grows.
#[test]
fn bytes_after_the_last_page() {
    for added in [1, 319, 320, 321, 1000] {
        let disks = Disks::with(&[1; 300]);
        disks.file.bytes.borrow_mut().extend(vec![0x41; added]);
        let mut file = disks.open().unwrap();
        assert_eq!(text_of(&mut file), [1; 300]);
        file.truncate(1500).unwrap();
        file.commit().unwrap();
        assert_eq!(disks.text(), [&[1; 300][..], &[0; 1200]].concat());
    }
}

/// A page that has one byte of the text keeps it when others are written behind it.
#[test]
fn a_page_of_one_byte() {
    let text = [&[1; 256][..], &[2, 0, 3, 3, 3]].concat();
    let mut file = Disks::with(&text[..257]).open().unwrap();
    file.write(&[3; 3], 258).unwrap();
    assert_eq!(text_of(&mut file), text);
}

/// A read that fails half way is an error, of an opening, a reading, a writing and a commit. Nothing of it is returned,
/// and nothing is changed.
#[test]
fn each_read_that_fails() {
    let text = Random(9).bytes(1000);
    let bytes = Disks::with(&text).bytes();
    let mut failed = 0;
    for left in 0..20 {
        let disks = Disks::of(bytes.clone());
        disks.log().reads_left = left;
        let results = disks.open().and_then(|mut file| {
            let results = [
                read(&mut file).map(|found| assert_eq!(found, text)),
                file.write(&[7; 300], 100).map(drop),
                file.commit(),
            ];
            disks.log().reads_left = usize::MAX;
            let mut expected = text.clone();
            if results[1].is_ok() {
                expected[100..400].fill(7);
            }
            assert_eq!(text_of(&mut file), expected);
            file.discard();
            results.into_iter().collect::<Result<()>>()
        });
        if results.is_err() {
            failed += 1;
            assert_eq!(outcome(results), "Other");
            assert!(disks.calls() <= 4 && disks.bytes().0 == bytes.0, "{left}");
        }
    }
    assert!(failed > 3, "{failed}");
}

/// Names the path that a test is about which runs itself once more as another user.
const PATH: &str = "HUNKRAVY_PATH";

/// Another user cannot give a journal to the owner of the file beside it: that user could write it, and not the file. So it is
/// removed. Only root can become another user.
#[test]
fn a_journal_that_is_not_safe() {
    if let Some(journal) = env::var_os(PATH) {
        let mut disk = Disks::new().file;
        disk.journal = Some(journal.into());
        let mut file = RafBuilder::<Aegis256>::new().create(disk, &KEY).unwrap();
        file.write(b"text", 0).unwrap();
        assert_eq!(outcome(file.commit()), "InvalidData");
        return;
    }
    if !is_root() {
        return;
    }
    let folder = Folder::new();
    fs::write(folder.file(), "of root").unwrap();
    allow(&folder.file(), 0o600);
    let test = "attacks::a_journal_that_is_not_safe";
    run_as_another_user(&folder, 0o777, test, PATH, &folder.journal());
    assert_eq!(folder.names(), ["file", "program"]);
}

/// In a folder that the user may not write to, or not read, the file is read, and a commit is refused and changes nothing. It writes
/// no journal that it has not made, even if it may.
#[test]
fn a_folder_that_may_not_be_used() {
    if let Some(path) = env::var_os(PATH) {
        let mut file = Raf::<Aegis256>::open_file(path, &KEY).unwrap();
        assert_eq!(text_of(&mut file), b"before");
        file.write(b"after!", 0).unwrap();
        for _ in 0..2 {
            assert_eq!(outcome(file.commit()), "PermissionDenied");
        }
        assert_eq!(text_of(&mut file), b"after!");
        return;
    }
    let folder = Folder::with(b"before");
    let bytes = fs::read(folder.file()).unwrap();
    allow(&folder.file(), 0o666);
    for (mode, has_journal) in [(0o555, false), (0o333, false), (0o555, true)] {
        if has_journal {
            fs::write(folder.journal(), b"").unwrap();
            allow(&folder.journal(), 0o666);
        }
        let test = "attacks::a_folder_that_may_not_be_used";
        run_as_another_user(&folder, mode, test, PATH, &folder.file());
    }
    assert_eq!(fs::read(folder.file()).unwrap(), bytes);
    assert_eq!(fs::read(folder.journal()).unwrap(), b"");
    assert_eq!(folder.text(), b"before");
    assert_eq!(folder.names(), ["file", "program"]);
}
