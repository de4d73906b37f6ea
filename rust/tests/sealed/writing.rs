//! Sealed files that are written.

use crate::random::Random;
use crate::support::*;
use hunkravy::files::{SealedReader, SealedWriter};
use hunkravy::records::{Error, MAX_MESSAGE_BYTES};
use std::cell::Cell;
use std::collections::HashSet;
use std::io::{self, BufRead, ErrorKind, Read, Write};
use std::panic::{AssertUnwindSafe, catch_unwind};
use std::process::Command;

/// A file is cut into pieces as the program cuts it, whatever is written at a time.
#[test]
fn written_in_any_lengths() {
    let contents = Random(1).bytes(200_000);
    let mut prefixes = HashSet::new();
    let around = [PIECE_BYTES - 1, PIECE_BYTES, PIECE_BYTES + 1, 2 * PIECE_BYTES];
    for length in [0, 1, 1000, 200_000].into_iter().chain(around) {
        for most in [1, 999, PIECE_BYTES, 200_000] {
            let mut writer = SealedWriter::new(Before(Vec::new(), slow(50_000)), &key()).unwrap();
            for chunk in contents[..length].chunks(most) {
                writer.write_all(chunk).unwrap();
                assert_eq!(writer.write(&[]).unwrap(), 0);
            }
            let file = writer.finish().unwrap().0;
            let prefix = *file.first_chunk().unwrap();
            assert!(file == sealed_in_pieces(&key(), &prefix, &contents[..length]));
            assert_eq!(file.len(), length + 37 * length.div_ceil(PIECE_BYTES) + 65);
            assert!(read(&file).unwrap() == contents[..length]);
            assert!(prefixes.insert(prefix), "a prefix is used twice");
        }
    }
}

/// This test runs itself again: the prefixes of other processes differ from each other.
#[test]
fn prefixes_of_other_processes() {
    const VARIABLE: &str = "HUNKRAVY_SHOWS_PREFIX";
    let writer = SealedWriter::new(Vec::new(), &key()).unwrap();
    if std::env::var_os(VARIABLE).is_some() {
        eprintln!("{:?}", &writer.get_ref()[..24]);
        return;
    }
    let shown = || {
        let mut test = Command::new(std::env::current_exe().unwrap());
        test.args(["writing::prefixes_of_other_processes", "--nocapture"]);
        test.env(VARIABLE, "1").output().unwrap().stderr
    };
    let first = shown();
    assert!(first.len() > 50 && first != shown());
}

/// A reader that returns too large a count.
struct TooLarge;

impl Read for TooLarge {
    fn read(&mut self, buf: &mut [u8]) -> io::Result<usize> {
        Ok(buf.len() + 1)
    }
}

#[test]
#[should_panic = "the inner reader returned too large a count"]
fn a_reader_that_returns_too_large_a_count() {
    let _ = SealedReader::new(TooLarge, &key()).read(&mut [0; 10]);
}

fn read(file: &[u8]) -> io::Result<Vec<u8>> {
    let mut contents = Vec::new();
    SealedReader::new(file, &key()).read_to_end(&mut contents)?;
    Ok(contents)
}

/// What is written at once is written out once a piece is full. A flush writes no incomplete piece.
#[test]
fn written_before_the_end() {
    let mut writer = SealedWriter::new(Vec::new(), &key()).unwrap();
    assert_eq!(writer.get_ref().len(), 28);
    writer.write_all(&[1; PIECE_BYTES - 1]).unwrap();
    writer.flush().unwrap();
    assert_eq!(writer.get_ref().len(), 28);
    assert_eq!(writer.write(&[1; 3]).unwrap(), 1);
    assert_eq!(writer.get_ref().len(), 28 + WHOLE_BYTES);
    assert_eq!(format!("{writer:?}"), "SealedWriter { .. }");
    let mut file = writer.get_ref().clone();
    drop(writer);
    assert_eq!(fault_of(&read(&file).unwrap_err()), Error::Truncated);
    // Nor does a file of which the last record is missing.
    file.truncate(28);
    assert_eq!(fault_of(&read(&file).unwrap_err()), Error::Truncated);
}

/// A writer that has failed stays failed, and what it wrote does not open.
#[test]
fn writers_that_fail() {
    let contents = vec![5; 2 * PIECE_BYTES + 10];
    let write = |calls| {
        let (mut file, left) = (Vec::new(), Cell::new(calls));
        let mut inner = Before(Before(&mut file, slow(30_000)), failing(&left));
        let written = written(&mut inner, &contents);
        (file, written)
    };
    let (whole, written) = write(usize::MAX);
    assert!(written.is_ok() && read(&whole).unwrap() == contents);
    let mut calls = 0;
    while let (file, Err(error)) = write(calls) {
        assert_eq!(error.kind(), ErrorKind::WouldBlock);
        // A flush that fails is the last call.
        assert_eq!(read(&file).is_ok(), file.len() == whole.len());
        calls += 1;
    }
    assert!(calls > 10, "{calls}");
}

fn written(file: &mut impl Write, contents: &[u8]) -> io::Result<()> {
    let mut writer = SealedWriter::new(file, &key())?;
    let first = writer.write_all(contents).and_then(|()| writer.flush());
    if let Err(error) = first {
        if error.kind() == ErrorKind::WouldBlock && writer.write(&[1]).is_ok() {
            // Only a flush leaves the writer as it was.
            return Err(error);
        }
        let results = [writer.write(&[]).map(drop), writer.flush(), writer.finish().map(drop)];
        for result in results {
            assert_eq!(result.unwrap_err().kind(), ErrorKind::Other);
        }
        return Err(error);
    }
    writer.finish().map(drop)
}

/// The inner writer is flushed at the end, after everything is written.
#[test]
fn writers_that_cannot_be_flushed() {
    let mut file = Vec::new();
    let refuse = |call| match call {
        Call::Flush => Err(ErrorKind::StorageFull.into()),
        _ => Ok(usize::MAX),
    };
    let mut writer = SealedWriter::new(Before(&mut file, refuse), &key()).unwrap();
    writer.write_all(b"contents").unwrap();
    assert_eq!(writer.flush().unwrap_err().kind(), ErrorKind::StorageFull);
    assert_eq!(writer.finish().map(drop).unwrap_err().kind(), ErrorKind::StorageFull);
    assert_eq!(read(&file).unwrap(), b"contents");
}

#[test]
fn writers_that_are_full() {
    for room in [0, 27, 28, 28 + 36, 28 + 38 + 36] {
        let mut room = vec![0; room];
        let writer = SealedWriter::new(&mut room[..], &key());
        let written = writer.and_then(|mut writer| {
            writer.write_all(&[1])?;
            writer.finish().map(drop)
        });
        assert_eq!(written.unwrap_err().kind(), ErrorKind::WriteZero);
    }
}

/// After a panic in the middle of a record no other is written.
#[test]
fn writers_that_panic() {
    let mut calls = 0;
    let panics = |_| {
        calls += 1;
        assert_ne!(calls, 2, "a writer panics");
        Ok(usize::MAX)
    };
    let mut writer = SealedWriter::new(Before(Vec::new(), panics), &key()).unwrap();
    let write = AssertUnwindSafe(|| writer.write_all(&[1; PIECE_BYTES]));
    assert!(catch_unwind(write).is_err());
    for result in [writer.write(&[1]).map(drop), writer.finish().map(drop)] {
        assert_eq!(result.unwrap_err().kind(), ErrorKind::Other);
    }
}

/// Records of any lengths open, up to the longest.
#[test]
fn records_of_any_lengths() {
    let longest = vec![3; MAX_MESSAGE_BYTES];
    let messages: [&[u8]; 6] = [70_000, 0, 200_000, MAX_MESSAGE_BYTES, 5, 1].map(|length| &longest[..length]);
    let file = sealed(&key(), &[9; 24], &messages);
    assert!(read(&file).unwrap() == messages.concat());
    let mut reader = SealedReader::new(&file[..], &key());
    for message in messages.iter().filter(|message| !message.is_empty()) {
        assert!(reader.fill_buf().unwrap() == *message);
        reader.consume(usize::MAX);
    }
    assert_eq!(reader.fill_buf().unwrap(), []);
    assert_eq!(format!("{reader:?}"), "SealedReader { .. }");
    assert_eq!(reader.into_inner(), []);
}

#[test]
fn threads() {
    fn shared<T: Send + Sync>(_: T) {}
    shared(SealedWriter::new(Vec::new(), &key()).unwrap());
    shared(SealedReader::new(io::empty(), &key()));
}
