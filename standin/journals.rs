//! The exports on the journal of a random-access file.

use crate::code::{FILE_TOO_LONG, INVALID_TAG, NO_WRITE, WRONG_JOURNAL, check, check_key, key_bytes};
use crate::message::{ENDED, Role, State};
use crate::pages::{HEADER_BLOCK_BYTES, ID_BYTES, PLAINTEXT_BYTES, check_header, header_bytes, header_in, plaintext};
use crate::slices::{In, Out, exports, input, output};

const MARK: [u8; 4] = *b"AGJ1";
/// The length of the beginning, which names the file, and fills a sector.
const BEGINNING_BYTES: usize = 512;
const NONCE_BYTES: usize = 16;
/// How many bytes a journal has in front of its writes.
const START_BYTES: usize = BEGINNING_BYTES + NONCE_BYTES;
/// How many bytes a write has in front of its own.
const HEAD_BYTES: usize = 16;
const MAC_BYTES: usize = 32;
/// The limits on a journal and on the end of a write.
const MAX_JOURNAL_BYTES: u64 = 1 << 60;
const MAX_STORAGE_BYTES: u64 = (1 << 63) - 1;
/// The length of the context, which is empty, as the MAC takes it in.
const CONTEXT_LENGTH: [u8; 8] = [0; 8];

/// The number of AEGIS-128L, whose MAC a journal has.
const AEGIS128L: u32 = 0;

/// The beginning of the journals of a file.
fn beginning(variant: u32, page_size: u32, id: &[u8]) -> [u8; BEGINNING_BYTES] {
    let mut beginning = [0; BEGINNING_BYTES];
    beginning[..PLAINTEXT_BYTES].copy_from_slice(&plaintext(MARK, variant, page_size, id));
    beginning
}

/// Begins the MAC of a journal.
fn begin(variant: u32, key: &[u8], nonce: &[u8]) -> State {
    let mut own_key = [0; 16];
    let mut state = State::begin(variant, Role::Mac, key, &[255; 32][..key_bytes(variant)]);
    state.absorb(&MARK);
    state.finish(&mut own_key);
    let mut state = State::begin(AEGIS128L, Role::Journal, &own_key, nonce);
    state.absorb(&CONTEXT_LENGTH);
    state
}

/// The first of some writes: its place, its bytes, and the other writes.
fn first_write(writes: &[u8]) -> Option<(u64, &[u8], &[u8])> {
    let (head, rest) = writes.split_first_chunk::<HEAD_BYTES>()?;
    let place = u64::from_le_bytes(*head.first_chunk()?);
    let count = u64::from_le_bytes(*head.last_chunk()?);
    if count > rest.len() as u64 || place > MAX_STORAGE_BYTES - count {
        return None;
    }
    let (bytes, rest) = rest.split_at(count as usize);
    Some((place, bytes, rest))
}

/// The first and the last of the writes, or `None` if the bytes are no writes. No bytes are no write.
type Ends<'w> = [Option<(u64, &'w [u8])>; 2];

fn ends_of(mut writes: &[u8]) -> Option<Ends<'_>> {
    let mut ends = [None; 2];
    while !writes.is_empty() {
        let (place, bytes, rest) = first_write(writes)?;
        ends = [ends[0].or(Some((place, bytes))), Some((place, bytes))];
        writes = rest;
    }
    Some(ends)
}

/// The writes in a journal, if it is whole.
fn writes_in<'j>(variant: u32, key: &[u8], journal: &'j [u8]) -> Option<&'j [u8]> {
    let (nonce, rest) = journal.get(BEGINNING_BYTES..)?.split_first_chunk::<NONCE_BYTES>()?;
    let (writes, mac) = rest.split_last_chunk::<MAC_BYTES>()?;
    let mut state = begin(variant, key, nonce);
    state.absorb(writes);
    let is_whole = state.is_finished_by(mac) && journal.len() as u64 <= MAX_JOURNAL_BYTES;
    is_whole.then_some(writes)
}

/// Decides what is to be made of a journal: returns the length of the writes that are to be made again.
fn judge(variant: u32, file: &[u8], key: &[u8], journal: &[u8]) -> Result<usize, i32> {
    let writes = writes_in(variant, key, journal).and_then(|writes| Some((writes, ends_of(writes)?)));
    let whole = writes.map(|(writes, _)| writes.len());
    let Some(header) = header_in(variant, file, key) else {
        return whole.ok_or(INVALID_TAG);
    };
    let is_accepted = match writes {
        Some((_, ends)) => {
            let head = &file[..header_bytes(variant)];
            ends.iter().flatten().any(|(place, bytes)| *place == 0 && bytes.starts_with(head))
        }
        None => {
            let own = beginning(variant, header.page_size, &header.id);
            journal.len() <= BEGINNING_BYTES || journal.starts_with(&own)
        }
    };
    check(is_accepted, WRONG_JOURNAL)?;
    Ok(whole.unwrap_or(0))
}

exports! {

fn hunkravy_proved_journal_init(
    v: u32, st: *mut State, page_size: u32, id: In, nonce: In, k: In, klen: usize, start: Out
) {
    check_key(v, klen)?;
    check_header(page_size, 0)?;
    let nonce = input(nonce, NONCE_BYTES);
    let (first, rest) = output(start, START_BYTES).split_at_mut(BEGINNING_BYTES);
    first.copy_from_slice(&beginning(v, page_size, input(id, ID_BYTES)));
    rest.copy_from_slice(nonce);
    *st = begin(v, input(k, klen), nonce);
    Ok(())
}

fn hunkravy_proved_journal_entry(st: *mut State, place: u64, bytes: In, len: usize, head: Out) {
    (*st).check(&[Role::Journal], 0)?;
    let end = u128::from(place) + len as u128;
    check(end <= u128::from(MAX_STORAGE_BYTES), FILE_TOO_LONG)?;
    let others = START_BYTES - CONTEXT_LENGTH.len() + HEAD_BYTES + MAC_BYTES;
    let journal = u128::from((*st).message_bytes) + (others + len) as u128;
    check(journal <= u128::from(MAX_JOURNAL_BYTES), FILE_TOO_LONG)?;
    let head = output(head, HEAD_BYTES);
    head[..8].copy_from_slice(&place.to_le_bytes());
    head[8..].copy_from_slice(&(len as u64).to_le_bytes());
    (*st).absorb(head);
    (*st).absorb(input(bytes, len));
    Ok(())
}

fn hunkravy_proved_journal_final(st: *mut State, mac: Out) {
    (*st).check(&[Role::Journal], 0)?;
    (*st).finish(output(mac, MAC_BYTES));
    *st = ENDED;
    Ok(())
}

fn hunkravy_proved_journal_check(
    v: u32, file: In, filelen: usize, k: In, klen: usize, journal: In, len: usize, writes: *mut usize
) {
    check_key(v, klen)?;
    let file = input(file, filelen.min(HEADER_BLOCK_BYTES));
    *writes = judge(v, file, input(k, klen), input(journal, len))?;
    Ok(())
}

fn hunkravy_proved_journal_next(writes: In, len: usize, place: *mut u64, count: *mut usize) {
    let first = first_write(input(writes, len));
    let (found, bytes, _) = first.ok_or(NO_WRITE)?;
    *place = found;
    *count = bytes.len();
    Ok(())
}

}
