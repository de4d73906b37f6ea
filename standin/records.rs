//! The exports on record streams, of version 2: AEGIS-256 with tags of 32 bytes.

use crate::code::{
    Answer, CONTEXT_TOO_LONG, INVALID_TAG, MAX_BYTES, MESSAGE_TOO_LONG, UNKNOWN_HEADER, WRONG_RECORD_LENGTH,
    WRONG_STATE, check,
};
use crate::message::{decrypt, encrypt};
use crate::slices::{In, Out, exports, input, output};

/// The number of AEGIS-256.
const AEGIS256: u32 = 3;

const HEADER: [u8; 4] = *b"AGR2";
/// How many bytes a record has in front of its message, and in all beside it.
const HEAD_BYTES: usize = 5;
const ADDED_BYTES: usize = 37;
const MAX_MESSAGE_BYTES: usize = 1 << 24;
const MAX_CONTEXT_BYTES: usize = 65535;

const SEALING: u64 = 1;
const OPENING: u64 = 2;

/// A record stream, as the caller of the library keeps it.
#[repr(C)]
#[derive(Clone, Copy)]
pub struct Stream {
    role: u64,
    /// The number of the next record, and the bytes of the messages before it.
    number: u64,
    before: u64,
    key: [u8; 32],
    prefix: [u8; 24],
}

const ENDED: Stream = Stream { role: 0, number: 0, before: 0, key: [0; 32], prefix: [0; 24] };

impl Stream {
    /// Where the next record begins in the stream.
    fn place(&self) -> u128 {
        HEADER.len() as u128 + ADDED_BYTES as u128 * u128::from(self.number) + u128::from(self.before)
    }

    fn check(&self, role: u64) -> Answer {
        let is_within = self.place() <= u128::from(MAX_BYTES);
        check(self.role == role && is_within, WRONG_STATE)
    }

    /// Checks that a record of so many bytes may come next.
    fn check_record(&self, record: usize) -> Answer {
        let is_within = self.place() + record as u128 <= u128::from(MAX_BYTES);
        let is_short = record - ADDED_BYTES <= MAX_MESSAGE_BYTES;
        check(is_short && is_within, MESSAGE_TOO_LONG)
    }

    /// The nonce and the associated data of the next record, without the context.
    fn nonce_and_data(&self, flag: u8) -> ([u8; 32], [u8; 21]) {
        let (mut nonce, mut data) = ([0; 32], [flag; 21]);
        nonce[..24].copy_from_slice(&self.prefix);
        nonce[24..].copy_from_slice(&self.number.to_le_bytes());
        data[..4].copy_from_slice(&HEADER);
        data[4..12].copy_from_slice(&self.number.to_le_bytes());
        data[12..20].copy_from_slice(&self.before.to_le_bytes());
        (nonce, data)
    }

    /// Goes on to the record after one of so many bytes.
    fn advance(&mut self, record: usize, flag: u8) {
        self.number += 1;
        self.before += (record - ADDED_BYTES) as u64;
        if flag == 1 {
            *self = ENDED;
        }
    }

    fn seal(&mut self, context: &[u8], record: &mut [u8], flag: u8) -> Answer {
        self.check(SEALING)?;
        check(context.len() <= MAX_CONTEXT_BYTES, CONTEXT_TOO_LONG)?;
        self.check_record(record.len())?;
        let (nonce, data) = self.nonce_and_data(flag);
        let message_bytes = record.len() - ADDED_BYTES;
        record[0] = flag;
        record[1..HEAD_BYTES].copy_from_slice(&(message_bytes as u32).to_le_bytes());
        let (message, tag) = record[HEAD_BYTES..].split_at_mut(message_bytes);
        encrypt(AEGIS256, &self.key, &nonce, &[&data, context], message, tag);
        self.advance(record.len(), flag);
        Ok(())
    }

    /// Opens the next record, and returns its flag.
    fn open(&mut self, context: &[u8], record: &mut [u8]) -> Result<u8, i32> {
        self.check(OPENING)?;
        check(context.len() <= MAX_CONTEXT_BYTES, CONTEXT_TOO_LONG)?;
        check(record.len() >= ADDED_BYTES, WRONG_RECORD_LENGTH)?;
        self.check_record(record.len())?;
        let flag = record[0];
        let message_bytes = record.len() - ADDED_BYTES;
        let is_headed = flag <= 1 && record[1..HEAD_BYTES] == (message_bytes as u32).to_le_bytes();
        let (nonce, data) = self.nonce_and_data(flag);
        let (message, tag) = record[HEAD_BYTES..].split_at_mut(message_bytes);
        if !(is_headed && decrypt(AEGIS256, &self.key, &nonce, &[&data, context], message, tag)) {
            record.fill(0xaa);
            return Err(INVALID_TAG);
        }
        self.advance(record.len(), flag);
        Ok(flag)
    }
}

/// Replaces the stream by one at its beginning, or by zeros.
unsafe fn begin(st: *mut Stream, role: u64, k: In, prefix: In, answer: Answer) -> Answer {
    // SAFETY: the pointers are those of a stream, 32 bytes and 24 bytes.
    let (st, key, prefix) = unsafe { (&mut *st, input(k, 32), input(prefix, 24)) };
    *st = ENDED;
    answer?;
    st.role = role;
    st.key.copy_from_slice(key);
    st.prefix.copy_from_slice(prefix);
    Ok(())
}

exports! {

fn hunkravy_proved_record_begin(st: *mut Stream, k: In, prefix: In, _context: In, clen: usize, header: Out) {
    begin(st, SEALING, k, prefix, check(clen <= MAX_CONTEXT_BYTES, CONTEXT_TOO_LONG))?;
    output(header, HEADER.len()).copy_from_slice(&HEADER);
    Ok(())
}

fn hunkravy_proved_record_begin_open(st: *mut Stream, k: In, prefix: In, _context: In, clen: usize, header: In) {
    let is_known = input(header, HEADER.len()) == HEADER;
    let answer = check(clen <= MAX_CONTEXT_BYTES, CONTEXT_TOO_LONG);
    begin(st, OPENING, k, prefix, answer.and(check(is_known, UNKNOWN_HEADER)))
}

fn hunkravy_proved_record_begin_open_at(
    st: *mut Stream, k: In, prefix: In, _context: In, clen: usize, number: u64, before: u64
) {
    let place = Stream { number, before, ..ENDED }.place();
    let answer = check(clen <= MAX_CONTEXT_BYTES, CONTEXT_TOO_LONG);
    let is_within = place <= u128::from(MAX_BYTES);
    begin(st, OPENING, k, prefix, answer.and(check(is_within, MESSAGE_TOO_LONG)))?;
    (*st).number = number;
    (*st).before = before;
    Ok(())
}

fn hunkravy_proved_record_seal(st: *mut Stream, context: In, clen: usize, record: Out, len: usize) {
    (*st).seal(input(context, clen), output(record, len), 0)
}

fn hunkravy_proved_record_seal_last(st: *mut Stream, context: In, clen: usize, record: Out, len: usize) {
    (*st).seal(input(context, clen), output(record, len), 1)
}

fn hunkravy_proved_record_len(st: *const Stream, head: In, len: *mut usize) {
    (*st).check(OPENING)?;
    let head = input(head, HEAD_BYTES);
    check(head[0] <= 1, INVALID_TAG)?;
    let message_bytes = u32::from_le_bytes(*head[1..].first_chunk().unwrap()) as usize;
    check(message_bytes <= MAX_MESSAGE_BYTES, MESSAGE_TOO_LONG)?;
    *len = message_bytes + ADDED_BYTES;
    Ok(())
}

fn hunkravy_proved_record_open(st: *mut Stream, context: In, clen: usize, record: Out, len: usize, last: Out) {
    *last = (*st).open(input(context, clen), output(record, len))?;
    Ok(())
}

}
