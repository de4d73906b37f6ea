//! Sends encrypted messages over a pair of sockets: changed, missing, repeated or moved messages, and a truncated stream, are
//! detected.

use hunkravy::fill_random;
use hunkravy::records::{HEADER_BYTES, Key, Opener, Prefix, RECORD_HEAD_BYTES, Sealer};
use std::error::Error;
use std::io::{Read, Write};
use std::os::unix::net::UnixStream;
use std::thread;

type Result<T> = std::result::Result<T, Box<dyn Error + Send + Sync>>;

/// What the streams belong to. Both sides know it.
const CONTEXT: &[u8] = b"hunkravy example: messages";

/// Sends messages, after the prefix of their stream, which is random, and its header.
fn send(to: &mut impl Write, key: &Key, messages: &[&str], last: &str) -> Result<()> {
    let mut prefix: Prefix = [0; 24];
    fill_random(&mut prefix)?;
    let mut sealer = Sealer::new(key, &prefix, CONTEXT)?;
    to.write_all(&prefix)?;
    to.write_all(&sealer.header())?;
    let mut record = Vec::new();
    for message in messages {
        sealer.seal_next(message.as_bytes(), &mut record)?;
        to.write_all(&record)?;
        record.clear();
    }
    sealer.seal_last(last.as_bytes(), &mut record)?;
    Ok(to.write_all(&record)?)
}

/// Prints the messages as they come. Only after `Ok` are they all that were sent.
fn receive(from: &mut impl Read, key: &Key) -> Result<()> {
    let prefix = read(from)?;
    let header: [u8; HEADER_BYTES] = read(from)?;
    let mut opener = Opener::new(key, &prefix, CONTEXT, &header)?;
    while !opener.has_ended() {
        let head: [u8; RECORD_HEAD_BYTES] = read(from)?;
        let length = opener.record_len(&head)?;
        // Memory is taken as the bytes come: the length is not verified yet.
        let mut record = head.to_vec();
        let rest = (length - head.len()) as u64;
        from.by_ref().take(rest).read_to_end(&mut record)?;
        let opened = opener.open_next_in_place(&mut record)?;
        println!("{}", String::from_utf8_lossy(opened.message));
    }
    let mut rest = Vec::new();
    from.read_to_end(&mut rest)?;
    Ok(opener.finish(&rest)?)
}

fn read<const N: usize>(from: &mut impl Read) -> Result<[u8; N]> {
    let mut bytes = [0; N];
    from.read_exact(&mut bytes)?;
    Ok(bytes)
}

fn main() -> Result<()> {
    // Both sides have the key. Each direction may use it, since each stream has a prefix of its own.
    let mut key: Key = [0; 32];
    fill_random(&mut key)?;
    let (mut near, mut far) = UnixStream::pair()?;
    let sender = thread::spawn(move || send(&mut near, &key, &["the first message"], "the last message"));
    receive(&mut far, &key)?;
    sender.join().expect("the sender does not panic")
}
