//! The exports on the pages and headers of random-access files.

use crate::code::{Answer, FILE_TOO_LONG, INVALID_TAG, WRONG_PAGE_SIZE, check, check_key, check_keys, key_bytes};
use crate::message::{decrypt, encrypt};
use crate::slices::{In, Out, exports, input, output};

const MAGIC: [u8; 4] = *b"AGP1";
pub const ID_BYTES: usize = 24;
/// The length of the plaintext part of a header.
pub const PLAINTEXT_BYTES: usize = 33;
pub const HEADER_BLOCK_BYTES: usize = 512;
const TAG_BYTES: usize = 32;
/// The length of what is encrypted of a header: the counter and the length of the contents.
const NUMBERS_BYTES: usize = 16;
const MAX_CONTENTS_BYTES: u64 = 1 << 60;
/// The number of the header, in the place of that of a page.
const HEADER_NUMBER: u64 = u64::MAX;

/// What a header has.
pub struct Header {
    pub page_size: u32,
    pub id: [u8; ID_BYTES],
    counter: u64,
    contents_bytes: u64,
}

/// The length of a header of this variant. After it comes padding.
pub fn header_bytes(variant: u32) -> usize {
    PLAINTEXT_BYTES + key_bytes(variant) + NUMBERS_BYTES + TAG_BYTES
}

fn is_page_size(bytes: usize) -> bool {
    (256..=65536).contains(&bytes)
}

/// Checks a page size, and the length of the contents.
pub fn check_header(page_size: u32, contents_bytes: u64) -> Answer {
    check(is_page_size(page_size as usize), WRONG_PAGE_SIZE)?;
    check(contents_bytes <= MAX_CONTENTS_BYTES, FILE_TOO_LONG)
}

/// Checks a page of so many bytes with this number. Returns its page size.
fn check_page(variant: u32, bytes: usize, number: u64) -> Result<u32, i32> {
    let size = bytes.saturating_sub(key_bytes(variant) + TAG_BYTES);
    check(is_page_size(size), WRONG_PAGE_SIZE)?;
    check(number <= MAX_CONTENTS_BYTES / size as u64, FILE_TOO_LONG)?;
    Ok(size as u32)
}

/// The plaintext part of the header of a file, with this mark.
pub fn plaintext(mark: [u8; 4], variant: u32, page_size: u32, id: &[u8]) -> [u8; PLAINTEXT_BYTES] {
    let lanes = [1, 2, 4][variant as usize % 3];
    let mut plaintext = [0; PLAINTEXT_BYTES];
    plaintext[..4].copy_from_slice(&mark);
    plaintext[4] = key_bytes(variant) as u8 + lanes;
    plaintext[5..9].copy_from_slice(&page_size.to_le_bytes());
    plaintext[9..].copy_from_slice(id);
    plaintext
}

/// Returns the header in the first bytes of a file, if it is one of this variant and key.
pub fn header_in(variant: u32, file: &[u8], key: &[u8]) -> Option<Header> {
    let block = file.first_chunk::<HEADER_BLOCK_BYTES>()?;
    let page_size = u32::from_le_bytes(*block[5..].first_chunk()?);
    let id = *block[9..].first_chunk()?;
    let plaintext = plaintext(MAGIC, variant, page_size, &id);
    if block[..PLAINTEXT_BYTES] != plaintext {
        return None;
    }
    let (nonce, rest) = block[PLAINTEXT_BYTES..].split_at(key_bytes(variant));
    let mut numbers: [u8; NUMBERS_BYTES] = *rest.first_chunk()?;
    let tag = &rest[NUMBERS_BYTES..][..TAG_BYTES];
    let data = [&plaintext[..], &HEADER_NUMBER.to_le_bytes()];
    let is_right = decrypt(variant, key, nonce, &data, &mut numbers, tag);
    let header = Header {
        page_size,
        id,
        counter: u64::from_le_bytes(*numbers.first_chunk()?),
        contents_bytes: u64::from_le_bytes(*numbers.last_chunk()?),
    };
    (is_right && check_header(page_size, header.contents_bytes).is_ok()).then_some(header)
}

exports! {

fn hunkravy_proved_page_place(v: u32, page_size: u32, number: u64, place: *mut u64) {
    let bytes = page_size as usize + key_bytes(v) + TAG_BYTES;
    check_key(v, key_bytes(v))?;
    check_page(v, bytes, number).map(|_| *place = 4096 + number * bytes as u64)
}

fn hunkravy_proved_page_seal(
    v: u32, page: Out, len: usize, id: In, number: u64, n: In, nlen: usize, k: In, klen: usize
) {
    check_keys(v, nlen, klen)?;
    let size = check_page(v, len, number)?;
    let plaintext = plaintext(MAGIC, v, size, input(id, ID_BYTES));
    let (nonce, rest) = output(page, len).split_at_mut(nlen);
    nonce.copy_from_slice(input(n, nlen));
    let (contents, tag) = rest.split_at_mut(size as usize);
    encrypt(v, input(k, klen), nonce, &[&plaintext, &number.to_le_bytes()], contents, tag);
    Ok(())
}

fn hunkravy_proved_page_open(v: u32, page: Out, len: usize, id: In, number: u64, k: In, klen: usize) {
    check_key(v, klen)?;
    let size = check_page(v, len, number)?;
    let plaintext = plaintext(MAGIC, v, size, input(id, ID_BYTES));
    let (nonce, rest) = output(page, len).split_at_mut(klen);
    let (contents, tag) = rest.split_at_mut(size as usize);
    let data = [&plaintext[..], &number.to_le_bytes()];
    let is_right = decrypt(v, input(k, klen), nonce, &data, contents, tag);
    if !is_right {
        output(page, len).fill(0xaa);
    }
    check(is_right, INVALID_TAG)
}

fn hunkravy_proved_page_header_seal(
    v: u32, block: Out, page_size: u32, id: In, counter: u64, contents_bytes: u64,
    n: In, nlen: usize, k: In, klen: usize
) {
    check_keys(v, nlen, klen)?;
    check_header(page_size, contents_bytes)?;
    let block = output(block, HEADER_BLOCK_BYTES);
    block.fill(0);
    let (start, rest) = block.split_at_mut(PLAINTEXT_BYTES);
    start.copy_from_slice(&plaintext(MAGIC, v, page_size, input(id, ID_BYTES)));
    let (nonce, rest) = rest.split_at_mut(nlen);
    nonce.copy_from_slice(input(n, nlen));
    let (numbers, rest) = rest.split_at_mut(NUMBERS_BYTES);
    numbers[..8].copy_from_slice(&counter.to_le_bytes());
    numbers[8..].copy_from_slice(&contents_bytes.to_le_bytes());
    let data = [&*start, &HEADER_NUMBER.to_le_bytes()];
    encrypt(v, input(k, klen), nonce, &data, numbers, &mut rest[..TAG_BYTES]);
    Ok(())
}

fn hunkravy_proved_page_header_open(
    v: u32, block: In, k: In, klen: usize, page_size: *mut u32, id: Out, counter: *mut u64, contents_bytes: *mut u64
) {
    check_key(v, klen)?;
    let header = header_in(v, input(block, HEADER_BLOCK_BYTES), input(k, klen)).ok_or(INVALID_TAG)?;
    *page_size = header.page_size;
    output(id, ID_BYTES).copy_from_slice(&header.id);
    *counter = header.counter;
    *contents_bytes = header.contents_bytes;
    Ok(())
}

}
