//! Which journals are trusted, and which names are accepted, in files of the system: the rows of a table.

use crate::support::*;
use hunkravy::raf::*;
use std::cell::Cell;
use std::fs::{self, Permissions};
use std::os::unix::fs::{MetadataExt, PermissionsExt, chown, symlink};
use std::path::Path;
use std::process::Command;

fn own_ids() -> (u32, u32) {
    let own = fs::metadata("/proc/self").unwrap();
    (own.uid(), own.gid())
}

/// Gives a file its mode, owner and group. Returns whether it could.
fn give(path: &Path, words: &[&str]) -> bool {
    let [mode, user, group] = [0, 1, 2].map(|at| words[at]);
    let (own_user, own_group) = own_ids();
    let id = |word: &str, ours, own| match word == ours && own_user != 0 {
        true => own,
        false => word.parse().unwrap(),
    };
    let (user, group) = (id(user, "1000", own_user), id(group, "100", own_group));
    let is_given = chown(path, Some(user), Some(group)).is_ok();
    set_mode(path, mode);
    is_given
}

fn set_mode(path: &Path, mode: &str) {
    fs::set_permissions(path, Permissions::from_mode(u32::from_str_radix(mode, 8).unwrap())).unwrap();
}

/// A journal is trusted if each user who may write it may write its file.
#[test]
fn owners_of_journals() {
    let (mut left_out, mut tried) = (0, 0);
    let mut folder_mode = "755";
    for row in TABLE.lines() {
        let words: Vec<&str> = row.split_whitespace().collect();
        match words[..] {
            ["folder", mode] => folder_mode = mode,
            ["owner", ..] => {
                let folder = Folder::with(b"text");
                fs::write(folder.journal(), [7; 20]).unwrap();
                set_mode(&folder.path(""), folder_mode);
                if !give(&folder.file(), &words[1..4]) || !give(&folder.journal(), &words[4..7]) {
                    left_out += 1;
                    continue;
                }
                check_owner(&folder, words[7], row);
                tried += 1;
            }
            _ => (),
        }
    }
    println!("{tried} rows were tried, and {left_out} left out, which need root");
    assert!(tried >= 25 && (own_ids().0 != 0 || left_out == 0));
}

fn check_owner(folder: &Folder, expected: &str, row: &str) {
    let before = [folder.file(), folder.journal()].map(|path| fs::metadata(path).unwrap());
    let opened = word_of(folder.open());
    assert_eq!(opened == "ok", expected == "trusted", "{row}: {opened}");
    if opened == "ok" {
        assert_eq!(folder.names(), ["file"], "{row}");
        return;
    }
    assert_eq!(opened, "rejected", "{row}");
    for (path, before) in [folder.file(), folder.journal()].iter().zip(before) {
        let after = fs::metadata(path).unwrap();
        assert_eq!((after.mode(), after.len(), after.mtime_nsec()), (before.mode(), before.len(), before.mtime_nsec()));
    }
}

/// Returns the mode of the journal while a commit writes the file.
fn mode_in_a_commit(path: &Path) -> u32 {
    let mode = Cell::new(0);
    let looks = |at| {
        if matches!(at, At::Write(_)) {
            mode.set(fs::metadata(path.with_extension("journal"))?.mode() & 0o777);
        }
        Ok(())
    };
    let mut file = RafBuilder::<Aegis256>::new().open(Before(FileIo::open(path).unwrap(), looks), &KEY).unwrap();
    file.write(b"text", 0).unwrap();
    file.commit().unwrap();
    mode.get()
}

/// Checks the rows whose journals get the group of their file, or another. The files are in the folder, by the numbers of the rows.
fn check_modes(folder: &Path, group: &str) {
    for (number, words) in rows("made").enumerate() {
        // Only root may open a file that its owner may not write.
        if words[2] == group && (is_root() || words[1] != "464") {
            let expected = u32::from_str_radix(words[3], 8).unwrap();
            assert_eq!(mode_in_a_commit(&folder.join(number.to_string())), expected, "{words:?}");
        }
    }
}

/// A journal gets the mode of its file, and only what all others may do if it does not get its group. Root tries that as another
/// user, who is not in the group of the files.
#[test]
fn modes_of_journals() {
    const VARIABLE: &str = "HUNKRAVY_FILES_OF_A_GROUP";
    if let Some(folder) = std::env::var_os(VARIABLE) {
        return check_modes(Path::new(&folder), "other");
    }
    let folder = Folder::new();
    for (number, words) in rows("made").enumerate() {
        let path = folder.path(&number.to_string());
        drop(Raf::<Aegis256>::create_file(&path, &KEY).unwrap());
        if words[2] == "other" && is_root() {
            chown(&path, Some(65_534), Some(100)).unwrap();
        }
        set_mode(&path, words[1]);
    }
    check_modes(&folder.path(""), "own");
    if is_root() {
        run_as_another_user(&folder, 0o777, "owners::modes_of_journals", VARIABLE, &folder.path(""));
    }
}

/// A whole journal of a commit to the file, which has the contents `after!` then.
fn whole_journal(folder: &Folder) -> Vec<u8> {
    cut_short(&(fs::read(folder.file()).unwrap(), Vec::new()), b"after!", 0, JOURNAL_CALLS).bytes().1
}

/// Prepares a folder for a row, and returns the name that is opened.
fn prepare(folder: &Folder, case: &str) -> &'static str {
    let (file, journal, other) = (folder.file(), folder.journal(), folder.path("other"));
    let (link, copy) = (folder.path("link"), folder.path("file.jrncopy"));
    fs::write(&other, b"another file").unwrap();
    match case {
        "link" => fs::write(journal, b"torn").and_then(|()| symlink(file, link)),
        "link-journal-beside-link" => {
            fs::write(folder.path("link.journal"), b"torn").and_then(|()| symlink(file, link))
        }
        "hard-link" | "open-hard-link" => fs::hard_link(file, folder.path("second")),
        "journal-folder" | "open-journal-folder" => fs::create_dir(journal),
        "journal-link" | "open-journal-link" => symlink(other, journal),
        "journal-link-to-nothing" => symlink("nothing", journal),
        "journal-fifo" => Command::new("mkfifo").arg(journal).status().map(|status| assert!(status.success())),
        "journal-hard-link" => fs::write(&journal, [7; 20]).and_then(|()| fs::hard_link(journal, link)),
        "open-journal" => fs::write(journal, [7; 20]),
        "journal-empty" | "open-journal-empty" => fs::write(journal, b""),
        "journal-empty-mode-666" => fs::write(&journal, b"").map(|()| set_mode(&journal, "666")),
        "journal-empty-hard-link" => fs::write(&journal, b"").and_then(|()| fs::hard_link(journal, link)),
        "copy-file" => fs::write(&journal, whole_journal(folder)).and_then(|()| fs::write(copy, b"copy")),
        "copy-link" => fs::write(&journal, whole_journal(folder)).and_then(|()| symlink(other, copy)),
        "copy-folder" => fs::write(&journal, whole_journal(folder)).and_then(|()| fs::create_dir(copy)),
        "open-renamed" => fs::rename(file, folder.path("renamed")),
        "open-removed" => fs::remove_file(file),
        "open-replaced" => fs::rename(other, file),
        _ => panic!("no test of the row {case}"),
    }
    .unwrap();
    if case.starts_with("link") { "link" } else { "file" }
}

/// Names: links, what is in the place of a journal or of its copy, and what happens to a file that is open.
#[test]
fn names_of_files_and_journals() {
    for words in rows("name") {
        let (case, expected) = (words[1], words[2]);
        let folder = Folder::with(b"before");
        let mut open = case.starts_with("open").then(|| folder.open().unwrap());
        let path = folder.path(prepare(&folder, case));
        let left = || (folder.names(), fs::read(folder.file()).ok());
        let (names, bytes) = left();
        let result = match &mut open {
            None => word_of(Raf::<Aegis256>::open_file(&path, &KEY)),
            Some(file) => word_of(file.write(b"after!", 0).and_then(|_| file.commit())),
        };
        assert_eq!(result, expected, "{case}");
        if expected != "ok" {
            assert_eq!(left(), (names, bytes), "{case}");
            match &mut open {
                Some(file) => assert_eq!(text_of(file), b"after!", "{case}"),
                None if case == "copy-folder" => (),
                None => assert!(over().create_file(&path, &KEY).is_err(), "{case}"),
            }
            continue;
        }
        let is_changed = open.take().is_some() || case.starts_with("copy");
        let text: &[u8] = if is_changed { b"after!" } else { b"before" };
        assert_eq!(folder.text(), text, "{case}");
        let kept = ["file", "link", "link.journal", "other"];
        let kept = names.into_iter().filter(|name| kept.contains(&&**name));
        assert_eq!(folder.names(), kept.collect::<Vec<_>>(), "{case}");
        assert_eq!(fs::read(folder.path("other")).unwrap(), b"another file");
    }
}
