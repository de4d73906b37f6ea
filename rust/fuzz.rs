//! What libFuzzer calls: it changes a sealed file, a random-access file, its journal or a key file, and reads it.
//!
//! `make fuzz` builds and runs it. The first byte of an input selects what is read; the others are changes of it.

#[path = "tests/sealed/random.rs"]
mod random;
#[allow(dead_code)]
#[path = "tests/raf/support.rs"]
mod support;

use hunkravy::files::{SealedReader, SealedWriter, read_key};
use hunkravy::raf::probe;
use std::io::{Cursor, Read, Seek, SeekFrom, Write};
use std::sync::LazyLock;
use support::{Bytes, Disks, JOURNAL_CALLS, KEY, cut_short, read};

#[unsafe(no_mangle)]
extern "C" fn LLVMFuzzerTestOneInput(data: *const u8, size: usize) -> i32 {
    // SAFETY: these are the bytes of an input.
    let input = unsafe { std::slice::from_raw_parts(data, size) };
    if let Some((kind, rest)) = input.split_first() {
        match kind % 4 {
            0 => sealed_file(rest),
            1 => random_access_file(rest, &[]),
            2 => random_access_file(&[], rest),
            _ => key_file(rest),
        }
    }
    0
}

/// Changes bytes as an input says: five of its bytes are a place, what is done there, and a byte.
fn changed(original: &[u8], input: &[u8]) -> Vec<u8> {
    let mut bytes = original.to_vec();
    for change in input.chunks_exact(5) {
        let place = u32::from_le_bytes([change[0], change[1], change[2], 0]) as usize;
        let (length, byte) = (bytes.len(), change[4]);
        let place = place % (length + 1);
        match change[3] % 4 {
            0 => bytes.truncate(place),
            1 => bytes.insert(place, byte),
            2 if length < 1 << 20 => bytes.extend_from_within(place..),
            _ => bytes[place..].iter_mut().take(1).for_each(|old| *old = byte),
        }
    }
    bytes
}

/// Some contents, and their sealed file.
static SEALED: LazyLock<(Vec<u8>, Vec<u8>)> = LazyLock::new(|| {
    let contents: Vec<u8> = (0..150_000_u32).map(|place| (place / 7) as u8).collect();
    let mut writer = SealedWriter::new(Vec::new(), &KEY).unwrap();
    writer.write_all(&contents).unwrap();
    (contents, writer.finish().unwrap())
});

/// Only the contents are ever read, from the beginning and from any place, and all of them only of the file as it was.
fn sealed_file(input: &[u8]) {
    let (contents, sealed) = &*SEALED;
    let bytes = changed(sealed, input);
    let mut found = Vec::new();
    let result = SealedReader::new(&bytes[..], &KEY).read_to_end(&mut found);
    assert!(contents.starts_with(&found));
    assert_eq!(result.is_ok(), bytes == *sealed);
    let mut reader = SealedReader::new(Cursor::new(&bytes), &KEY);
    let place = input.iter().map(|byte| u64::from(*byte) * 300).sum::<u64>() % 160_000;
    let mut piece = [0; 50];
    if reader.seek(SeekFrom::Start(place)).is_ok() && reader.read_exact(&mut piece).is_ok() {
        assert_eq!(piece, contents[place as usize..][..50]);
    }
}

const OLD: &[u8] = &[b'o'; 900];
const NEW: &[u8] = &[b'n'; 700];

/// The bytes of a file before its second commit, and those of the journal of that commit.
static FILE: LazyLock<Bytes> = LazyLock::new(|| cut_short(&Disks::with(OLD).bytes(), NEW, 100, JOURNAL_CALLS).bytes());

/// A file opens to its contents before or after a commit, or parts of them are rejected.
fn random_access_file(of_file: &[u8], of_journal: &[u8]) {
    let disks = Disks::of((changed(&FILE.0, of_file), changed(&FILE.1, of_journal)));
    disks.log().is_off = true;
    let _ = probe(&mut disks.file.clone());
    let Ok(mut file) = disks.open() else {
        return;
    };
    let new = [&OLD[..100], NEW, &OLD[800..]].concat();
    assert!(file.size() == OLD.len() as u64);
    let mut part = [0; 90];
    let mut is_read = |number: &u64| {
        let is_read = file.read(&mut part, number * 90).is_ok();
        assert!(!is_read || part.iter().all(|byte| b"on".contains(byte)));
        is_read
    };
    let count = (0..10).filter(&mut is_read).count();
    let _ = file.commitment();
    if let (10, Ok(found)) = (count, read(&mut file)) {
        assert!(found == OLD || found == new);
    }
}

/// A key file has 64 digits and at most two bytes of white space.
fn key_file(input: &[u8]) {
    let path = std::env::temp_dir().join(format!("hunkravy-fuzz-{}", std::process::id()));
    let bytes = changed("0123456789abcdef".repeat(4).as_bytes(), input);
    std::fs::write(&path, &bytes).unwrap();
    let key = read_key(&path);
    std::fs::remove_file(&path).unwrap();
    let is_digit = |byte: &&u8| byte.is_ascii_hexdigit();
    let digits = bytes.iter().take_while(is_digit).count();
    assert!(key.is_err() || digits == 64 && bytes.len() <= 66);
    assert!(key.is_ok() || bytes.len() != 64 || digits != 64);
}
