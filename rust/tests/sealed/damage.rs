//! The stored file, damaged in each way.

use crate::support::*;
use hunkravy::ERASED;
use hunkravy::files::{SealedReader, read_key};
use hunkravy::records::{Error, OpenedInPlace, Opener};
use std::cell::Cell;
use std::fs;
use std::io::{BufRead, Cursor, ErrorKind, Read, Seek, SeekFrom};

/// What is read, and the fault after it.
type Found = (Vec<u8>, Option<Error>);

/// Reads to the end or to a fault, in reads of so many bytes.
fn read_all(reader: &mut impl Read, most: usize) -> Found {
    let (mut contents, mut buf) = (Vec::new(), vec![0; most]);
    loop {
        match reader.read(&mut buf) {
            Ok(0) => return (contents, None),
            Ok(count) => contents.extend_from_slice(&buf[..count]),
            Err(error) => return (contents, Some(fault_of(&error))),
        }
    }
}

fn check(damaged: &Damaged, (contents, fault): Found) {
    let (name, expected) = (&damaged.name, (damaged.cause, damaged.verified));
    assert_eq!((fault, contents.len()), expected, "{name}");
    let is_of_a_variant = CONTENTS.starts_with(&contents) || b"xyz".starts_with(&contents);
    assert!(is_of_a_variant, "{name}");
}

/// The stored file is what the messages are sealed to, and its key is that of the key file.
#[test]
fn the_stored_file() {
    let file = fs::read(data("records.sealed")).unwrap();
    assert_eq!(sealed(&key(), file.first_chunk().unwrap(), &MESSAGES), file);
    assert_eq!(read_key(data("key")).unwrap(), key());
    assert_eq!(read_key(data("none")).unwrap_err().kind(), ErrorKind::NotFound);
    assert_eq!(read_key(data("records.sealed")).unwrap_err().kind(), ErrorKind::InvalidData);
}

/// The fault is the same in reads of any lengths, and all bytes before it are returned.
#[test]
fn read_in_any_lengths() {
    for damaged in damaged() {
        for inner_most in [1, 3, 64, usize::MAX] {
            for most in [1, 2, 7, 100_000] {
                let mut reader = SealedReader::new(Before(&damaged.bytes[..], slow(inner_most)), &damaged.key);
                check(&damaged, read_all(&mut reader, most));
                stays(&damaged, &mut reader);
            }
        }
    }
}

/// A fault or an end stays.
fn stays(damaged: &Damaged, reader: &mut SealedReader<impl Read>) {
    for _ in 0..2 {
        assert_eq!(read_all(reader, 10), (Vec::new(), damaged.cause));
        let found = reader.fill_buf().map(<[u8]>::len);
        let found = found.map_err(|error| fault_of(&error));
        assert_eq!(found, damaged.cause.map_or(Ok(0), Err));
    }
    assert_eq!(reader.read(&mut []).unwrap(), 0);
}

/// After an error of the inner reader the next read goes on.
#[test]
fn read_with_errors() {
    for damaged in damaged() {
        for calls in 0..20 {
            let left = Cell::new(calls);
            let inner = Before(Before(&damaged.bytes[..], slow(17)), failing(&left));
            let mut reader = SealedReader::new(inner, &damaged.key);
            let (mut contents, mut blocked) = (Vec::new(), 0);
            let fault = loop {
                match reader.fill_buf() {
                    Ok([]) => break None,
                    Ok(bytes) => {
                        contents.extend_from_slice(bytes);
                        let count = bytes.len();
                        reader.consume(count);
                    }
                    Err(error) if error.kind() == ErrorKind::WouldBlock => blocked += 1,
                    Err(error) => break Some(fault_of(&error)),
                }
            };
            assert_eq!(blocked, usize::from(left.get() > calls));
            check(&damaged, (contents, fault));
        }
    }
}

/// From any place there are the right bytes or a fault, whatever is damaged.
#[test]
fn sought() {
    for damaged in damaged() {
        let mut whole = SealedReader::new(&damaged.bytes[..], &damaged.key);
        let contents = match read_all(&mut whole, 100) {
            (contents, None) => contents,
            (_, Some(_)) if damaged.name.starts_with("last-with-contents") => b"xyz".to_vec(),
            (_, Some(_)) => CONTENTS.to_vec(),
        };
        for place in 0..contents.len() + 3 {
            let back = place as i64 - contents.len() as i64;
            for to in [SeekFrom::Start(place as u64), SeekFrom::End(back)] {
                check_sought(&damaged, &contents, place, to);
            }
        }
    }
}

fn check_sought(damaged: &Damaged, contents: &[u8], place: usize, to: SeekFrom) {
    let expected = contents.get(place..).unwrap_or(&[]);
    let mut reader = SealedReader::new(Cursor::new(&damaged.bytes), &damaged.key);
    let fault = match reader.seek(to) {
        Ok(found) => {
            let is_from_end = matches!(to, SeekFrom::End(_));
            assert!(!is_from_end || damaged.cause != Some(Error::Trailing));
            assert_eq!(found, place as u64, "{} {to:?}", damaged.name);
            let (bytes, fault) = read_all(&mut reader, 3);
            let is_right = match fault {
                Some(_) => expected.starts_with(&bytes),
                None => bytes == expected,
            };
            assert!(is_right, "{} {to:?} {bytes:?} {fault:?}", damaged.name);
            fault
        }
        Err(error) => Some(fault_of(&error)),
    };
    if let Some(fault) = fault {
        assert!(damaged.cause.is_some(), "{} {to:?}", damaged.name);
        assert_eq!(fault_of(&reader.rewind().unwrap_err()), fault);
        assert_eq!(read_all(&mut reader, 3), (Vec::new(), Some(fault)));
    }
}

/// In memory the fault is the same, and stays.
#[test]
fn opened_in_memory() {
    for damaged in damaged().iter().filter(|damaged| damaged.bytes.len() >= 24) {
        let (prefix, stream) = damaged.bytes.split_first_chunk().unwrap();
        let (header, records) = stream.split_at(stream.len().min(4));
        let opener = || Opener::new(&damaged.key, prefix, CONTEXT, header);
        match (opener(), opener()) {
            (Ok(first), Ok(second)) => check(damaged, open_all(first, second, records)),
            (error, _) => check(damaged, (Vec::new(), error.err())),
        }
    }
}

/// Opens each record in place and in a vector. In place a damaged record is erased, and what is after it, or not a record, stays.
fn open_all(mut in_place: Opener, mut in_vector: Opener, mut rest: &[u8]) -> Found {
    let mut contents = Vec::new();
    while !in_place.has_ended() {
        let mut copy = rest.to_vec();
        let length = |head: &[u8]| u32::from_le_bytes(head[1..5].try_into().unwrap()) as usize;
        match in_place.open_next_in_place(&mut copy) {
            Ok(OpenedInPlace { message, is_last, .. }) => {
                let opened = in_vector.open_next(rest).unwrap();
                assert_eq!((&opened.message[..], opened.is_last), (&*message, is_last));
                contents.extend(opened.message);
                rest = opened.rest;
            }
            Err(error) => {
                let is_erased = matches!(error, Error::Damaged(_));
                let erased = if is_erased { length(rest) + 37 } else { 0 };
                assert!(copy[..erased].iter().all(|byte| *byte == ERASED));
                assert_eq!(copy[erased..], rest[erased..]);
                for mut opener in [in_place, in_vector] {
                    assert_eq!(opener.open_next(rest), Err(error));
                    assert_eq!(opener.record_len(&[0; 5]), Err(error));
                    assert!(!opener.has_ended());
                    assert_eq!(opener.finish(&[]), Err(error));
                }
                return (contents, Some(error));
            }
        }
    }
    assert_eq!(in_place.open_next(rest), Err(Error::Trailing));
    assert_eq!(in_vector.record_len(&[0; 5]), Err(Error::Trailing));
    (contents, in_place.finish(rest).err())
}
