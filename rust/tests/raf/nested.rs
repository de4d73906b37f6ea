//! Batches, and batches inside batches.

use crate::support::*;
use hunkravy::raf::{Aegis256, Batch, Error, Result};
use std::io::{ErrorKind, Write};
use std::panic::{AssertUnwindSafe, catch_unwind};
use std::str::Lines;

type FileBatch<'f> = Batch<'f, Aegis256, Disk, Random, Disk>;

/// What batches mean in each language.
const SCENES: &str = include_str!("../../../testkit/batches.txt");

/// The scenes that do not compile in Rust: they commit, discard or close in a batch, or end one that is not the innermost, or
/// one that has ended.
const NOT_IN_RUST: [&str; 6] = [
    "committing in a batch changes nothing",
    "closing in a batch commits nothing",
    "discarding ends each batch",
    "undoing an outer batch ends those within it",
    "ending an outer batch before one within it undoes both",
    "a batch ends once",
];

fn bytes_of(digits: &str) -> Vec<u8> {
    let places = (0..digits.trim_start_matches('-').len()).step_by(2);
    let byte = |at| u8::from_str_radix(&digits[at..at + 2], 16).unwrap();
    places.map(byte).collect()
}

fn result_of<T>(result: Result<T>) -> &'static str {
    match result {
        Ok(_) => "ok",
        Err(Error::TooLong) => "too-long",
        Err(Error::Io(error)) if error.kind() == ErrorKind::StorageFull => "no-room",
        Err(error) => panic!("{error:?}"),
    }
}

/// A file, in a batch or not.
trait Contents {
    fn change(&mut self, words: &[&str]) -> Result<()>;
    fn contents(&mut self) -> Vec<u8>;
    fn batch(&mut self, run: &mut dyn FnMut(&mut FileBatch<'_>) -> Result<()>) -> Result<()>;
}

macro_rules! contents {
    ($type:ty) => {
        impl Contents for $type {
            fn change(&mut self, words: &[&str]) -> Result<()> {
                let number = words[1].parse().unwrap();
                match words[0] {
                    "write" => self.write(&bytes_of(words[2]), number).map(drop),
                    _ => self.truncate(number),
                }
            }

            fn contents(&mut self) -> Vec<u8> {
                let mut found = vec![0; self.size() as usize];
                self.read(&mut found, 0).unwrap();
                found
            }

            fn batch(&mut self, run: &mut dyn FnMut(&mut FileBatch<'_>) -> Result<()>) -> Result<()> {
                self.batch(run)
            }
        }
    };
}
contents!(File);
contents!(FileBatch<'_>);

/// Makes the calls of a scene up to the end of a batch. Returns the words of the line that follows the last call that was made.
fn run_calls<'t>(file: &mut dyn Contents, lines: &mut Lines<'t>, disks: &Disks) -> Vec<&'t str> {
    while let Some(line) = lines.next() {
        let words: Vec<&str> = line.split(' ').collect();
        match words[0] {
            "write" | "truncate" => {
                assert_eq!(result_of(file.change(&words)), words[words.len() - 1], "{line}");
            }
            "contents" => assert_eq!(file.contents(), bytes_of(words[1]), "{line}"),
            "stored" => assert_eq!(disks.text(), bytes_of(words[1]), "{line}"),
            "room" | "no-room" => disks.log().is_full = words[0] == "no-room",
            "begin" => run_batch(file, lines, disks),
            _ => return words,
        }
    }
    Vec::new()
}

/// Makes the calls of a scene in a batch. A scene that ends before the batch is a kill.
fn run_batch(file: &mut dyn Contents, lines: &mut Lines<'_>, disks: &Disks) {
    let mut end = Vec::new();
    let ended = file.batch(&mut |batch| {
        end = run_calls(batch, lines, disks);
        let is_end = end.first() == Some(&"end");
        is_end.then_some(()).ok_or(Error::Commitment)
    });
    match end[..] {
        ["end", expected] => assert_eq!(result_of(ended), expected, "{end:?}"),
        ["undo", "ok"] => assert!(matches!(ended, Err(Error::Commitment))),
        _ => panic!("{end:?} in a batch"),
    }
}

fn run_scene(text: &str) {
    let disks = Disks::new();
    let mut file = Some(disks.create());
    let mut lines = text.lines();
    loop {
        let words = match &mut file {
            Some(open) => run_calls(open, &mut lines, &disks),
            // It was closed: only what is stored is left to compare.
            None => run_calls(&mut disks.open().unwrap(), &mut lines, &disks),
        };
        let result = match words[..] {
            [] => break,
            ["commit", _] => file.as_mut().unwrap().commit(),
            ["close", _] => file.take().unwrap().close(),
            ["discard", _] => {
                file.as_mut().unwrap().discard();
                Ok(())
            }
            _ => panic!("{words:?} outside a batch"),
        };
        assert_eq!(result_of(result), words[1], "{words:?}");
    }
    std::mem::forget(file);
}

/// Each scene of the table gives what it says, except those that do not compile.
#[test]
fn scenes_of_batches() {
    let lines = SCENES.lines().map(str::trim_end);
    let lines = lines.filter(|line| !line.is_empty() && !line.starts_with('#'));
    let text = lines.collect::<Vec<_>>().join("\n");
    let (mut run, mut left_out) = (0, Vec::new());
    for scene in text.split('[').skip(1) {
        let (name, calls) = scene.split_once("]\n").unwrap();
        if NOT_IN_RUST.contains(&name) {
            left_out.push(name);
            continue;
        }
        println!("{name}");
        run_scene(calls);
        run += 1;
    }
    assert!(run > 15, "{run}");
    assert_eq!(left_out, NOT_IN_RUST);
}

/// A file whose contents are this text, with a limit on changes of 600 bytes.
fn with_text(text: &[u8]) -> (File, Disks) {
    let disks = Disks::with(text);
    (disks.builder().buffer_limit(600).open(disks.file.clone(), &KEY).unwrap(), disks)
}

/// No write and no flush in a batch commits, whatever the limit on changes in memory. After it they do.
#[test]
fn the_limit_in_a_batch() {
    let (mut file, disks) = with_text(b"0000");
    let made = file.batch(|file| {
        file.write(b"A", 0)?;
        file.batch(|file| file.write(&[1; 2000], 1))?;
        file.cursor().write_all(b"C")?;
        file.cursor().flush()?;
        assert_eq!((disks.text(), file.size()), (b"0000".to_vec(), 2001));
        file.truncate(3)
    });
    made.unwrap();
    assert_eq!(disks.text(), b"C\x01\x01");
    file.write(&[2; 2000], 0).unwrap();
    assert_eq!(disks.text(), [2; 2000]);
    file.truncate(1).unwrap();
    file.cursor().flush().unwrap();
    assert_eq!(disks.text(), [2]);
}

/// Pages that an inner batch truncates are not written.
#[test]
fn pages_that_are_truncated_in_a_batch() {
    let (mut file, disks) = with_text(b"0000");
    let length = disks.bytes().0.len();
    let made = file.batch(|file| {
        file.write(&[1; 2000], 0)?;
        file.batch(|file| file.truncate(3))
    });
    made.unwrap();
    assert_eq!((disks.text(), disks.bytes().0.len()), (vec![1; 3], length));
}

/// A batch that panics is undone, also one inside another, which goes on.
#[test]
fn batches_that_panic() {
    let (mut file, disks) = with_text(b"0000");
    let panics = AssertUnwindSafe(|| {
        file.batch(|file| -> Result<()> {
            file.truncate(0)?;
            panic!("in the middle of a batch");
        })
    });
    assert!(catch_unwind(panics).is_err());
    assert_eq!(text_of(&mut file), b"0000");
    let made = file.batch(|file| {
        file.write(b"A", 0)?;
        let panics = AssertUnwindSafe(|| {
            file.batch(|file| -> Result<()> {
                file.write(b"BB", 2)?;
                panic!("in the middle of an inner batch");
            })
        });
        assert!(catch_unwind(panics).is_err());
        file.write(b"C", 1)
    });
    made.unwrap();
    assert_eq!(disks.text(), b"AC00");
    // Its file may be dropped by the same panic.
    let dropped = AssertUnwindSafe(|| {
        let mut file = disks.open().unwrap();
        file.write(b"lost", 0).unwrap();
        file.batch(|_| -> Result<()> { panic!("in the middle of a batch") })
    });
    assert!(catch_unwind(dropped).is_err());
    assert_eq!(disks.text(), b"AC00");
}
