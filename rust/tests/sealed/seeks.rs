//! Reading at any place.

use crate::random::Random;
use crate::support::*;
use hunkravy::files::SealedReader;
use hunkravy::records::Error;
use std::cell::Cell;
use std::io::SeekFrom::{Current, End, Start};
use std::io::{BufRead, Cursor, ErrorKind, Read, Result, Seek, SeekFrom};
use std::panic::{AssertUnwindSafe, catch_unwind};

const PREFIX: [u8; 24] = [9; 24];

/// Files of contents in whole pieces, and of messages of random lengths, some of them empty.
fn files(random: &mut Random) -> Vec<(Vec<u8>, Vec<u8>)> {
    let pieces = [0, 1, PIECE_BYTES - 1, PIECE_BYTES, PIECE_BYTES + 1];
    let pieces = pieces.into_iter().chain([3 * PIECE_BYTES, 150_000]);
    let regular = pieces.map(|length| Random(length as u64 + 1).bytes(length));
    let regular = regular.map(|contents| (sealed_in_pieces(&key(), &PREFIX, &contents), contents));
    let mut files: Vec<_> = regular.collect();
    for _ in 0..40 {
        let count = 1 + random.below(12);
        let mut message = |_| {
            let most = [1, 40, 3000][random.below(3) as usize];
            let length = random.below(most) as usize;
            random.bytes(length)
        };
        let messages: Vec<Vec<u8>> = (0..count).map(&mut message).collect();
        let slices: Vec<&[u8]> = messages.iter().map(Vec::as_slice).collect();
        files.push((sealed(&key(), &PREFIX, &slices), messages.concat()));
    }
    files
}

/// A place to seek, which is mostly within so many bytes.
fn seek_from(random: &mut Random, length: u64) -> SeekFrom {
    let place = random.below(length + 3);
    match random.below(3) {
        0 => Start(place),
        1 => End(place as i64 - length as i64),
        _ => Current(place as i64 - random.below(length + 3) as i64),
    }
}

/// Reads and seeks give what they give over the contents.
#[test]
fn beside_a_slice() {
    let mut random = Random(3);
    for (file, contents) in files(&mut random) {
        for garbage in [0, 7] {
            let mut inner = Cursor::new([vec![0x41; garbage], file.clone()].concat());
            inner.set_position(garbage as u64);
            let mut reader = SealedReader::new(inner, &key());
            let mut expected = Cursor::new(&contents);
            for _ in 0..60 {
                step(&mut random, &mut reader, &mut expected);
            }
        }
    }
}

fn step(random: &mut Random, reader: &mut (impl BufRead + Seek), expected: &mut Cursor<&Vec<u8>>) {
    let length = expected.get_ref().len() as u64;
    match random.below(3) {
        0 => {
            let to = seek_from(random, length);
            let kind = |result: Result<u64>| result.map_err(|error| error.kind());
            let (found, expected) = (kind(reader.seek(to)), kind(expected.seek(to)));
            assert_eq!(found, expected, "{to:?} {length}");
        }
        1 => {
            let count = random.below(200);
            let (mut one, mut other) = (Vec::new(), Vec::new());
            reader.take(count).read_to_end(&mut one).unwrap();
            expected.take(count).read_to_end(&mut other).unwrap();
            assert_eq!(one, other);
        }
        _ => {
            let bytes = reader.fill_buf().unwrap();
            let (count, place) = (bytes.len(), expected.position().min(length));
            assert_eq!(bytes, &expected.get_ref()[place as usize..][..count]);
            assert_eq!(count == 0, place == length);
            reader.consume(count / 2);
            expected.consume(count / 2);
        }
    }
    assert_eq!(reader.stream_position().unwrap(), expected.position());
}

/// Places that no contents have.
#[test]
fn places_out_of_bounds() {
    let mut reader = SealedReader::new(Cursor::new(sealed_in_pieces(&key(), &PREFIX, &[1; 100])), &key());
    reader.seek(Start(50)).unwrap();
    for to in [Current(-51), End(-101), Current(i64::MIN), End(i64::MIN)] {
        assert_eq!(reader.seek(to).unwrap_err().kind(), ErrorKind::InvalidInput);
        assert_eq!(reader.stream_position().unwrap(), 50);
        assert_eq!(reader.fill_buf().unwrap(), [1; 50]);
    }
    for to in [Start(101), Start(u64::MAX), End(0), End(i64::MAX)] {
        reader.seek(to).unwrap();
        assert_eq!(reader.fill_buf().unwrap(), []);
        assert_eq!(reader.read(&mut [0]).unwrap(), 0);
    }
    reader.seek(Start(u64::MAX)).unwrap();
    assert_eq!(reader.seek(Current(1)).unwrap_err().kind(), ErrorKind::InvalidInput);
    reader.rewind().unwrap();
    assert_eq!(reader.fill_buf().unwrap(), [1; 100]);
}

/// A seek to before the start changes nothing, even where the record is damaged or there is none.
#[test]
fn before_the_start() {
    let mut file = sealed(&key(), &PREFIX, &[b"first", b"damaged", b"third", b""]);
    file[28 + 42 + 10] ^= 1;
    for place in [0, 3, 5, 12, 14, 17, 100] {
        let mut reader = SealedReader::new(Cursor::new(&file), &key());
        match place {
            5 => reader.read_exact(&mut [0; 5]).unwrap(),
            _ => assert_eq!(reader.seek(Start(place)).unwrap(), place),
        }
        for _ in 0..2 {
            assert_eq!(reader.seek(End(-18)).unwrap_err().kind(), ErrorKind::InvalidInput);
            assert_eq!(reader.stream_position().unwrap(), place);
        }
        let found = reader.fill_buf().map_err(|error| fault_of(&error));
        match place {
            0 | 3 => assert_eq!(found.unwrap(), &b"first"[place as usize..]),
            5 => assert_eq!(found, Err(Error::Damaged(1))),
            12 | 14 => assert_eq!(found.unwrap(), &b"third"[place as usize - 12..]),
            _ => assert_eq!(found.unwrap(), []),
        }
    }
}

/// After a panic of the inner reader in a seek the place is as it was.
#[test]
fn panics_of_seeks() {
    let file = sealed(&key(), &PREFIX, &[b"first", b"second", b"third", b""]);
    let calls = Cell::new(0);
    for number in 0.. {
        calls.set(0);
        let panics = |_| {
            assert_ne!(calls.replace(calls.get() + 1), number, "a reader panics");
            Ok(usize::MAX)
        };
        let mut reader = SealedReader::new(Before(Cursor::new(&file), panics), &key());
        let sought = catch_unwind(AssertUnwindSafe(|| reader.seek(End(-7))));
        if let Ok(sought) = sought {
            assert_eq!(sought.unwrap(), 9);
            break;
        }
        assert_eq!(reader.stream_position().unwrap(), 0);
        assert_eq!(reader.seek(Start(9)).unwrap(), 9);
        assert_eq!(reader.fill_buf().unwrap(), b"nd");
    }
    assert!(calls.get() > 20, "{calls:?}");
}

/// After an error of the inner reader in a seek the place is as it was, and reading needs another seek.
#[test]
fn errors_of_seeks() {
    let contents = Random(8).bytes(3 * PIECE_BYTES);
    let regular = sealed_in_pieces(&key(), &PREFIX, &contents);
    let pieces: Vec<&[u8]> = contents.chunks(50_000).collect();
    let irregular = sealed(&key(), &PREFIX, &pieces);
    for file in [regular, irregular] {
        for to in [Start(160_000), End(-10), End(5)] {
            let calls = (0..).find(|calls| !seek_fails(&file, &contents, to, *calls));
            assert!(calls > Some(3), "{to:?} {calls:?}");
        }
    }
}

/// Returns whether the seek fails if its inner call of this number does.
fn seek_fails(file: &[u8], contents: &[u8], to: SeekFrom, calls: usize) -> bool {
    let left = Cell::new(usize::MAX);
    let mut reader = SealedReader::new(Before(Cursor::new(file), failing(&left)), &key());
    let mut first = [0; 10];
    reader.read_exact(&mut first).unwrap();
    assert_eq!(first, contents[..10]);
    left.set(calls);
    let sought = reader.seek(to);
    if let Err(error) = &sought {
        assert_eq!(error.kind(), ErrorKind::WouldBlock);
        assert_eq!(reader.stream_position().unwrap(), 10);
        reader.consume(5);
        if reader.fill_buf().is_ok() {
            // Nothing was moved yet.
            assert_eq!(reader.stream_position().unwrap(), 15);
            reader.seek(Current(-5)).unwrap();
        }
        reader.seek(Current(2)).unwrap();
        assert_eq!(reader.fill_buf().unwrap()[..4], contents[12..16]);
        reader.seek(to).unwrap();
    }
    let place = reader.stream_position().unwrap() as usize;
    let mut rest = Vec::new();
    if let Err(error) = reader.read_to_end(&mut rest) {
        assert_eq!(error.kind(), ErrorKind::WouldBlock);
        reader.read_to_end(&mut rest).unwrap();
    }
    assert!(rest == contents.get(place..).unwrap_or(&[]));
    sought.is_err()
}

/// A reader after whose reads a function is called, with their places and bytes.
struct After<T, F>(Cursor<T>, F);

impl<T: AsRef<[u8]>, F: FnMut(u64, &mut [u8])> Read for After<T, F> {
    fn read(&mut self, buf: &mut [u8]) -> Result<usize> {
        let place = self.0.position();
        let count = self.0.read(buf)?;
        (self.1)(place, &mut buf[..count]);
        Ok(count)
    }
}

impl<T: AsRef<[u8]>, F> Seek for After<T, F> {
    fn seek(&mut self, to: SeekFrom) -> Result<u64> {
        self.0.seek(to)
    }
}

/// The flag is read twice, first with no authentication. If it changes meanwhile, a truncated file is not taken for a whole one.
#[test]
fn flags_that_change() {
    let mut file = sealed_in_pieces(&key(), &PREFIX, &[7; 200_000]);
    file.truncate(28 + WHOLE_BYTES);
    let mut is_flipped = false;
    // The first read of the flag of record 0 says that the record is the last one.
    let flip = |place, bytes: &mut [u8]| {
        if place == 28 && !bytes.is_empty() && !is_flipped {
            bytes[0] = 1;
            is_flipped = true;
        }
    };
    let mut reader = SealedReader::new(After(Cursor::new(file), flip), &key());
    assert_eq!(reader.seek(End(0)).unwrap_err().kind(), ErrorKind::InvalidData);
    assert!(reader.read(&mut [0]).is_err());
}

/// In a file of whole pieces only the record is read that has the place, or the last one.
#[test]
fn only_what_is_needed_is_read() {
    let contents = Random(4).bytes(40 * PIECE_BYTES + 9);
    let bytes = [&[0x41; 9], &sealed_in_pieces(&key(), &PREFIX, &contents)[..]].concat();
    let (whole, end) = (40 * 65_536, 40 * 65_536 + 9);
    for (to, place, most) in [
        (Start(30 * 65_536 + 5), 30 * 65_536 + 5, 28 + WHOLE_BYTES),
        (Start(whole), 40 * 65_536, 28 + 46),
        (Start(end), contents.len(), 28 + 37),
        (End(0), contents.len(), 28 + 37),
        (End(-9), 40 * 65_536, 28 + 37 + 46),
    ] {
        let count = Cell::new(0);
        let mut inner = Cursor::new(&bytes);
        inner.set_position(9);
        let counted = After(inner, |_, bytes: &mut [u8]| count.set(count.get() + bytes.len()));
        let mut reader = SealedReader::new(counted, &key());
        assert_eq!(reader.seek(to).unwrap(), place as u64);
        assert!(count.get() <= most, "{to:?} {count:?}");
        let read = reader.fill_buf().unwrap().to_vec();
        assert!(read == contents[place..][..read.len()]);
        // What is here is not read again.
        let before = count.get();
        let back = read.len().min(3) as i64;
        reader.seek(Current(back)).unwrap();
        reader.seek(Start(place as u64)).unwrap();
        assert_eq!(count.get(), before);
    }
}

/// In a file of zeros each 37 bytes look like an empty record. A seek stops at the first of them, as reading does.
#[test]
fn zeros() {
    let mut file = sealed(&key(), &PREFIX, &[b"first", b""]);
    file.truncate(28 + 42);
    file.resize(1 << 20, 0);
    for to in [End(0), Start(5)] {
        let mut count = 0;
        let counted = After(Cursor::new(&file), |_, bytes: &mut [u8]| count += bytes.len());
        let mut reader = SealedReader::new(counted, &key());
        assert_eq!(fault_of(&reader.seek(to).unwrap_err()), Error::Damaged(1));
        drop(reader);
        assert!(count < 2 * WHOLE_BYTES, "{to:?} {count}");
    }
}

/// A record that is damaged does not keep others from being read.
#[test]
fn past_a_damaged_record() {
    let contents = Random(5).bytes(4 * PIECE_BYTES);
    let mut file = sealed_in_pieces(&key(), &PREFIX, &contents);
    file[28 + WHOLE_BYTES + 100] ^= 1;
    let mut reader = SealedReader::new(Cursor::new(file), &key());
    reader.seek(Start(2 * 65_536)).unwrap();
    let mut rest = Vec::new();
    reader.read_to_end(&mut rest).unwrap();
    assert!(rest == contents[2 * 65_536..]);
    assert!(reader.seek(Start(65_536)).is_err());
    assert!(reader.seek(Start(0)).is_err());
}
