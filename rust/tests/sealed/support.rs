//! What the tests share: the stored files, and readers and writers that are slow or fail.

use hunkravy::records::{Error, HEADER_BYTES, Prefix, Sealer};
use std::cell::Cell;
use std::fs;
use std::io::{self, ErrorKind, Read, Seek, SeekFrom, Write};
use std::path::PathBuf;

pub const CONTEXT: &[u8] = b"hunkravy v1";
pub const PIECE_BYTES: usize = 65_536;
/// The number of bytes of a record that has a whole piece.
pub const WHOLE_BYTES: usize = PIECE_BYTES + 37;
/// The contents of the stored file, and its messages.
pub const CONTENTS: &[u8] = b"0123456789abcdefghijkl";
pub const MESSAGES: [&[u8]; 5] = [b"0123456789", b"", b"abcdefg", b"hijkl", b""];

/// The key of the stored file.
pub fn key() -> [u8; 32] {
    std::array::from_fn(|place| place as u8)
}

/// The path of a file of `crates/hunkravy/data`.
pub fn data(name: &str) -> PathBuf {
    PathBuf::from(concat!(env!("CARGO_MANIFEST_DIR"), "/../crates/hunkravy/data")).join(name)
}

/// A variant of the stored file.
pub struct Damaged {
    pub name: String,
    pub bytes: Vec<u8>,
    pub key: [u8; 32],
    pub cause: Option<Error>,
    pub verified: usize,
}

/// Returns the variants.
pub fn damaged() -> Vec<Damaged> {
    let list = fs::read_to_string(data("damaged.csv")).unwrap();
    let (head, lines) = list.split_once('\n').unwrap();
    assert_eq!(head, "name,key,file,cause,verified");
    let variants: Vec<Damaged> = lines.lines().map(variant).collect();
    assert!(variants.len() > 100);
    variants
}

fn variant(line: &str) -> Damaged {
    let fields: Vec<&str> = line.split(',').collect();
    let [name, key, file, cause, verified] = fields[..] else {
        panic!("{line}");
    };
    let (bytes, key) = (unhex(file), unhex(key).try_into().unwrap());
    Damaged { name: name.to_owned(), bytes, key, cause: cause_of(cause), verified: verified.parse().unwrap() }
}

fn cause_of(text: &str) -> Option<Error> {
    Some(match text.split_once(' ').unwrap_or((text, "")) {
        ("none", "") => return None,
        ("header", "") => Error::Header,
        ("truncated", "") => Error::Truncated,
        ("flag", "") => Error::Flag,
        ("too_long", "") => Error::TooLong,
        ("trailing", "") => Error::Trailing,
        ("damaged", number) => Error::Damaged(number.parse().unwrap()),
        _ => panic!("{text} is no cause"),
    })
}

fn unhex(digits: &str) -> Vec<u8> {
    let byte = |place| u8::from_str_radix(&digits[place..place + 2], 16).unwrap();
    (0..digits.len()).step_by(2).map(byte).collect()
}

/// Returns the sealed file that has these messages in its records.
pub fn sealed(key: &[u8; 32], prefix: &Prefix, messages: &[&[u8]]) -> Vec<u8> {
    let mut sealer = Sealer::new(key, prefix, CONTEXT).unwrap();
    let mut file = [&prefix[..], &sealer.header()].concat();
    assert_eq!(file.len(), 24 + HEADER_BYTES);
    let (last, others) = messages.split_last().unwrap();
    for message in others {
        sealer.seal_next(message, &mut file).unwrap();
    }
    sealer.seal_last(last, &mut file).unwrap();
    file
}

/// Returns the sealed file of contents in whole pieces, and an empty record at the end.
pub fn sealed_in_pieces(key: &[u8; 32], prefix: &Prefix, contents: &[u8]) -> Vec<u8> {
    let mut messages: Vec<&[u8]> = contents.chunks(PIECE_BYTES).collect();
    messages.push(&[]);
    sealed(key, prefix, &messages)
}

/// The fault that an error holds.
pub fn fault_of(error: &io::Error) -> Error {
    assert_eq!(error.kind(), ErrorKind::InvalidData, "{error:?}");
    *error.get_ref().expect("it holds the fault").downcast_ref().expect("it is a fault of a stream")
}

/// A call of a reader or a writer.
#[derive(Clone, Copy, PartialEq)]
pub enum Call {
    Read,
    Seek,
    Write,
    Flush,
}

/// A reader or a writer before whose calls a function is called. It returns how many bytes are read or written at most, or an error.
pub struct Before<I, F>(pub I, pub F);

impl<I: Read, F: FnMut(Call) -> io::Result<usize>> Read for Before<I, F> {
    fn read(&mut self, buf: &mut [u8]) -> io::Result<usize> {
        let count = buf.len().min((self.1)(Call::Read)?);
        self.0.read(&mut buf[..count])
    }
}

impl<I: Seek, F: FnMut(Call) -> io::Result<usize>> Seek for Before<I, F> {
    fn seek(&mut self, to: SeekFrom) -> io::Result<u64> {
        (self.1)(Call::Seek)?;
        self.0.seek(to)
    }
}

impl<I: Write, F: FnMut(Call) -> io::Result<usize>> Write for Before<I, F> {
    fn write(&mut self, data: &[u8]) -> io::Result<usize> {
        let count = data.len().min((self.1)(Call::Write)?);
        self.0.write(&data[..count])
    }

    fn flush(&mut self) -> io::Result<()> {
        (self.1)(Call::Flush)?;
        self.0.flush()
    }
}

/// Lets at most so many bytes be read or written in a call, and interrupts every other call.
pub fn slow(most: usize) -> impl FnMut(Call) -> io::Result<usize> {
    let mut is_ready = true;
    move |call| {
        is_ready = !is_ready || call == Call::Flush;
        match is_ready {
            true => Ok(most),
            false => Err(ErrorKind::Interrupted.into()),
        }
    }
}

/// Refuses one call, after so many others.
pub fn failing(left: &Cell<usize>) -> impl FnMut(Call) -> io::Result<usize> {
    move |_| match left.replace(left.get().wrapping_sub(1)) {
        0 => Err(ErrorKind::WouldBlock.into()),
        _ => Ok(usize::MAX),
    }
}
