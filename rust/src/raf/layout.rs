//! How a file is laid out: its header and its pages, which the library seals and opens.

use super::journal::{JournalSeal, NONCE_BYTES, START_BYTES};
use super::{Algorithm, Error, RafIo, Result};
use crate::exports::{self, State};
use crate::memory::zeros;
use crate::wipe::Wiped;
use alloc::vec::Vec;
use std::io;

/// How many bytes are read in one call, at most, unless a page has more.
const READ_BYTES: usize = 64 * 1024;
/// The length of a tag, at the end of a page.
pub const TAG_BYTES: usize = 32;
/// The length of the header block.
pub const HEADER_BLOCK_BYTES: usize = 512;
/// The length of a file's id.
pub const ID_BYTES: usize = 24;
/// The length of the plaintext part of a header: the magic number, the algorithm, the chunk size and the id.
pub const PLAINTEXT_HEADER_BYTES: usize = 33;

/// What a file begins with.
pub const MAGIC: [u8; 4] = *b"AGP1";

/// The contents of a header.
#[derive(Default)]
pub struct PageHeader {
    pub page_size: u32,
    pub id: [u8; ID_BYTES],
    /// How many headers were written before it.
    pub counter: u64,
    pub contents_len: u64,
}

/// The key, the page size and the id of a file.
pub struct Layout<A: Algorithm> {
    pub key: Wiped<A::Key>,
    pub chunk_size: u32,
    pub id: [u8; ID_BYTES],
}

impl<A: Algorithm> Layout<A> {
    /// The layout that a header names.
    pub fn of(key: &A::Key, header: &PageHeader) -> Self {
        Layout { key: Wiped(*key), chunk_size: header.page_size, id: header.id }
    }

    /// The length of a page.
    pub fn page_bytes(&self) -> usize {
        A::KEY_BYTES + self.chunk_size as usize + TAG_BYTES
    }

    /// Takes the memory for the pages of one read.
    pub fn room_for_reads(&self) -> io::Result<Vec<u8>> {
        zeros((READ_BYTES / self.page_bytes()).max(1) * self.page_bytes())
    }

    /// Where a page begins.
    pub fn page_place(&self, number: u64) -> u64 {
        exports::hunkravy_page_place(A::NUMBER, self.chunk_size, number)
    }

    /// How many pages contents of `size` bytes have.
    pub fn page_count(&self, size: u64) -> u64 {
        size.div_ceil(u64::from(self.chunk_size))
    }

    /// The contents of a page.
    pub fn contents<'a>(&self, page: &'a mut [u8]) -> &'a mut [u8] {
        &mut page[A::KEY_BYTES..][..self.chunk_size as usize]
    }

    /// Seals the page of this number, whose contents are in its place.
    pub fn seal(&self, number: u64, nonce: &A::Nonce, page: &mut [u8]) {
        let (nonce, key) = (nonce.as_ref(), self.key.0.as_ref());
        let answer = exports::page_seal(A::NUMBER, page, &self.id, number, nonce, key);
        assert_eq!(answer, Ok(()), "the lengths and the number are right");
    }

    /// Opens the page of this number. If it was not sealed under it, each byte is erased.
    pub fn open(&self, number: u64, page: &mut [u8]) -> bool {
        exports::page_open(A::NUMBER, page, &self.id, number, self.key.0.as_ref()).is_ok()
    }

    /// Returns the block of the header of this counter, for contents of `size` bytes.
    pub fn header(&self, counter: u64, size: u64, nonce: &A::Nonce) -> [u8; HEADER_BLOCK_BYTES] {
        let mut block = [0; HEADER_BLOCK_BYTES];
        let (nonce, key) = (nonce.as_ref(), self.key.0.as_ref());
        let (page_size, id) = (self.chunk_size, &self.id);
        let answer = exports::page_header_seal(A::NUMBER, &mut block, page_size, id, counter, size, nonce, key);
        assert_eq!(answer, Ok(()), "the chunk size and the lengths are right");
        block
    }

    /// Begins the journal of a commit. A nonce is for one journal only.
    pub fn journal(&self, nonce: &[u8; NONCE_BYTES]) -> JournalSeal {
        let mut seal = JournalSeal { state: State::ENDED, start: [0; START_BYTES] };
        let (st, start) = (&mut seal.state, &mut seal.start);
        let (size, id, key) = (self.chunk_size, &self.id, self.key.0.as_ref());
        let answer = exports::journal_init(A::NUMBER, st, size, id, nonce, key, start);
        assert_eq!(answer, Ok(()), "the chunk size and the lengths are right");
        seal
    }

    /// The first bytes of a header.
    pub fn plaintext_header(&self) -> [u8; PLAINTEXT_HEADER_BYTES] {
        let mut plaintext = [0; PLAINTEXT_HEADER_BYTES];
        plaintext[..4].copy_from_slice(&MAGIC);
        plaintext[4] = A::KEY_BYTES as u8 + A::LANES;
        plaintext[5..9].copy_from_slice(&self.chunk_size.to_le_bytes());
        plaintext[9..].copy_from_slice(&self.id);
        plaintext
    }
}

/// Returns whether a page may have this number of bytes of contents.
pub fn is_chunk_size(bytes: u32) -> bool {
    (256..=65_536).contains(&bytes)
}

/// Returns the header in a sector, if it is one of this algorithm and the key.
pub fn open_header<A: Algorithm>(key: &A::Key, header_block: &[u8; HEADER_BLOCK_BYTES]) -> Option<PageHeader> {
    let mut header = PageHeader::default();
    let opened = exports::page_header_open(
        A::NUMBER,
        header_block,
        key.as_ref(),
        &mut header.page_size,
        &mut header.id,
        &mut header.counter,
        &mut header.contents_len,
    );
    opened.ok().map(|()| header)
}

/// The algorithm that a header names.
#[derive(Clone, Copy, Debug, PartialEq, Eq, Hash)]
pub enum AlgorithmId {
    /// [`Aegis128L`](super::Aegis128L)
    Aegis128L,
    /// [`Aegis128X2`](super::Aegis128X2)
    Aegis128X2,
    /// [`Aegis128X4`](super::Aegis128X4)
    Aegis128X4,
    /// [`Aegis256`](super::Aegis256)
    Aegis256,
    /// [`Aegis256X2`](super::Aegis256X2)
    Aegis256X2,
    /// [`Aegis256X4`](super::Aegis256X4)
    Aegis256X4,
}

impl AlgorithmId {
    /// Returns the algorithm of the byte in a header: the length of its keys, and its number of lanes.
    fn of_byte(byte: u8) -> Option<Self> {
        Some(match byte {
            17 => AlgorithmId::Aegis128L,
            18 => AlgorithmId::Aegis128X2,
            20 => AlgorithmId::Aegis128X4,
            33 => AlgorithmId::Aegis256,
            34 => AlgorithmId::Aegis256X2,
            36 => AlgorithmId::Aegis256X4,
            _ => return None,
        })
    }
}

/// The plaintext part of a header. It is not verified.
#[derive(Clone, Copy, Debug, PartialEq, Eq)]
#[non_exhaustive]
pub struct RafInfo {
    /// The algorithm.
    pub algorithm: AlgorithmId,
    /// The number of bytes of contents in a page.
    pub chunk_size: u32,
    /// The number of bytes of the file. The length of its contents is encrypted.
    pub file_size: u64,
}

/// Returns the plaintext part of the header of a file. No key is needed, and nothing is verified or changed.
///
/// # Errors
///
/// [`Error::Header`] if it is not a file of this format, or [`Error::Io`].
pub fn probe(io: &mut impl RafIo) -> Result<RafInfo> {
    let file_size = io.get_size()?;
    if file_size < HEADER_BLOCK_BYTES as u64 {
        return Err(Error::Header);
    }
    let mut plaintext = [0; PLAINTEXT_HEADER_BYTES];
    io.read_at(&mut plaintext, 0)?;
    let [_, _, _, _, byte, size @ ..] = plaintext;
    let chunk_size = u32::from_le_bytes([size[0], size[1], size[2], size[3]]);
    match AlgorithmId::of_byte(byte) {
        Some(algorithm) if plaintext[..4] == MAGIC && is_chunk_size(chunk_size) => {
            Ok(RafInfo { algorithm, chunk_size, file_size })
        }
        _ => Err(Error::Header),
    }
}

#[cfg(test)]
mod tests {
    use super::{Layout, PageHeader};
    use crate::raf::Aegis256;
    use crate::wipe::tests::left_of;

    /// Nothing of the key is left.
    #[test]
    fn a_layout_that_was_dropped() {
        let layout = Layout::<Aegis256>::of(&[7; 32], &PageHeader::default());
        assert_eq!(left_of(layout, |layout| &layout.key.0), [0; 32]);
    }
}
