//! The AEGIS ciphers, after draft-irtf-cfrg-aegis-aead: AEGIS-128 and AEGIS-256, with one, two or four lanes side by side.

use crate::round::Block;
use core::array::from_fn;

/// A row: a block for each lane.
type Row = [Block; 4];

const C0: [u8; 16] = [0x00, 0x01, 0x01, 0x02, 0x03, 0x05, 0x08, 0x0d, 0x15, 0x22, 0x37, 0x59, 0x90, 0xe9, 0x79, 0x62];
const C1: [u8; 16] = [0xdb, 0x3d, 0x18, 0x55, 0x6d, 0xc2, 0x2f, 0xf1, 0x20, 0x11, 0x31, 0x42, 0x73, 0xb5, 0x28, 0xdd];

fn block(bytes: &[u8]) -> Block {
    Block::load(bytes.first_chunk().unwrap())
}

fn zero() -> Block {
    Block::load(&[0; 16])
}

/// The block of two numbers.
fn numbers(first: u64, second: u64) -> Block {
    let mut bytes = [0; 16];
    bytes[..8].copy_from_slice(&first.to_le_bytes());
    bytes[8..].copy_from_slice(&second.to_le_bytes());
    Block::load(&bytes)
}

fn store(block: Block, bytes: &mut [u8]) {
    block.store(bytes.first_chunk_mut().unwrap());
}

fn xor_rows(one: Row, other: Row) -> Row {
    from_fn(|lane| one[lane].xor(other[lane]))
}

/// The state of a variant: eight rows of AEGIS-128, or the first six of AEGIS-256.
#[derive(Clone, Copy)]
pub struct Aegis {
    rows: [Row; 8],
    lanes: usize,
    is_256: bool,
}

impl Aegis {
    /// The state of this variant whose rows are zeros.
    fn blank(variant: u32) -> Self {
        core::hint::black_box(&crate::hunkravy_proved_nothing);
        Aegis { rows: [[zero(); 4]; 8], lanes: [1, 2, 4][variant as usize % 3], is_256: variant >= 3 }
    }

    /// The state of a variant in the form that [`save`](Self::save) gives.
    pub fn restored(variant: u32, saved: &[u8; 512]) -> Self {
        let mut state = Aegis::blank(variant);
        let blocks = state.rows.as_flattened_mut().iter_mut();
        for (own, bytes) in blocks.zip(saved.chunks_exact(16)) {
            *own = block(bytes);
        }
        state
    }

    /// Returns the bytes of all rows.
    pub fn save(&self) -> [u8; 512] {
        let mut saved = [0; 512];
        let blocks = self.rows.as_flattened().iter();
        for (own, bytes) in blocks.zip(saved.chunks_exact_mut(16)) {
            store(*own, bytes);
        }
        saved
    }

    /// The state of a key and a nonce.
    pub fn new(variant: u32, key: &[u8], nonce: &[u8]) -> Self {
        let mut state = Aegis::blank(variant);
        if state.is_256 {
            state.begin_256(key, nonce);
        } else {
            state.begin_128(key, nonce);
        }
        state
    }

    fn begin_128(&mut self, key: &[u8], nonce: &[u8]) {
        let (key, nonce, c0, c1) = (block(key), block(nonce), block(&C0), block(&C1));
        let both = key.xor(nonce);
        let (k0, k1) = (key.xor(c0), key.xor(c1));
        self.rows = [both, c1, c0, c1, both, k0, k1, k0].map(|row| [row; 4]);
        for _ in 0..10 {
            self.separate_lanes([3, 7]);
            self.update([nonce; 4], [key; 4]);
        }
    }

    fn begin_256(&mut self, key: &[u8], nonce: &[u8]) {
        let (k0, k1, c0, c1) = (block(key), block(&key[16..]), block(&C0), block(&C1));
        let (x0, x1) = (k0.xor(block(nonce)), k1.xor(block(&nonce[16..])));
        let rows = [x0, x1, c1, c0, k0.xor(c0), k1.xor(c1), zero(), zero()];
        self.rows = rows.map(|row| [row; 4]);
        for message in [k0, k1, x0, x1].into_iter().cycle().take(16) {
            self.separate_lanes([3, 5]);
            self.update([message; 4], [message; 4]);
        }
    }

    /// Adds the number of each lane, and of lanes, to two rows, if there are several.
    fn separate_lanes(&mut self, rows: [usize; 2]) {
        if self.lanes == 1 {
            return;
        }
        let last = self.lanes as u64 - 1;
        let contexts = from_fn(|lane| numbers(lane as u64 | last << 8, 0));
        for row in rows {
            self.rows[row] = xor_rows(self.rows[row], contexts);
        }
    }

    /// The number of rows that are used.
    fn height(&self) -> usize {
        if self.is_256 { 6 } else { 8 }
    }

    /// How many bytes are absorbed together.
    pub fn rate(&self) -> usize {
        if self.is_256 { 16 * self.lanes } else { 32 * self.lanes }
    }

    /// One round of each lane that is used. AEGIS-256 ignores the second row.
    #[inline(always)]
    fn update(&mut self, first: Row, second: Row) {
        let height = self.height();
        for lane in 0..self.lanes {
            let mut above = self.rows[height - 1][lane];
            for row in 0..height {
                let own = self.rows[row][lane];
                let key = match row {
                    0 => own.xor(first[lane]),
                    4 if !self.is_256 => own.xor(second[lane]),
                    _ => own,
                };
                self.rows[row][lane] = above.round(key);
                above = own;
            }
        }
    }

    /// Absorbs as many bytes as the rate.
    pub fn absorb(&mut self, bytes: &[u8]) {
        let (mut rows, mut blocks) = ([[zero(); 4]; 2], bytes.chunks_exact(16).map(block));
        for row in &mut rows {
            for (lane, next) in row.iter_mut().zip(blocks.by_ref().take(self.lanes)) {
                *lane = next;
            }
        }
        self.update(rows[0], rows[1]);
    }

    /// Writes the keystream of the next bytes, as many as the rate.
    pub fn keystream(&self, bytes: &mut [u8]) {
        let (first, second) = bytes.split_at_mut(16 * self.lanes);
        for lane in 0..self.lanes {
            let row: [Block; 8] = from_fn(|row| self.rows[row][lane]);
            let at = 16 * lane;
            if self.is_256 {
                store(row[1].xor(row[4]).xor(row[5]).xor(row[2].and(row[3])), &mut first[at..]);
            } else {
                let (one, other) = (row[6].xor(row[1]), row[2].xor(row[5]));
                store(one.xor(row[2].and(row[3])), &mut first[at..]);
                store(other.xor(row[6].and(row[7])), &mut second[at..]);
            }
        }
    }

    /// The seven last rounds, over two numbers.
    fn finish(&mut self, lanes: usize, first: u64, second: u64) {
        let mut row = self.rows[if self.is_256 { 3 } else { 2 }];
        for (lane, own) in row.iter_mut().enumerate() {
            *own = if lane < lanes { own.xor(numbers(first, second)) } else { zero() };
        }
        for _ in 0..7 {
            self.update(row, row);
        }
    }

    /// The tag of one lane. A short one is the first block.
    fn lane_tag(&self, lane: usize, is_long: bool) -> [Block; 2] {
        let sum = |rows: core::ops::Range<usize>| rows.fold(zero(), |sum, row| sum.xor(self.rows[row][lane]));
        match (self.is_256, is_long) {
            (true, false) => [sum(0..6), zero()],
            (true, true) => [sum(0..3), sum(3..6)],
            (false, false) => [sum(0..7), zero()],
            (false, true) => [sum(0..4), sum(4..8)],
        }
    }

    /// Writes the sum of the tags of the first lanes.
    fn write_tag(&self, lanes: usize, tag: &mut [u8]) {
        let is_long = tag.len() == 32;
        let tags = (0..lanes).map(|lane| self.lane_tag(lane, is_long));
        let sum = tags.fold([zero(); 2], |a, b| [a[0].xor(b[0]), a[1].xor(b[1])]);
        for (part, sum) in tag.chunks_exact_mut(16).zip(sum) {
            store(sum, part);
        }
    }

    /// Writes the tag of a message, all of which was absorbed.
    pub fn tag(mut self, data_bytes: u64, message_bytes: u64, tag: &mut [u8]) {
        self.finish(4, 8 * data_bytes, 8 * message_bytes);
        self.write_tag(self.lanes, tag);
    }

    /// Writes the MAC of so many bytes, all of which were absorbed.
    pub fn mac(mut self, bytes: u64, mac: &mut [u8]) {
        let bits = 8 * mac.len() as u64;
        self.finish(4, 8 * bytes, bits);
        if self.lanes > 1 {
            self.absorb_lane_tags(mac.len() == 32);
            self.finish(1, self.lanes as u64, bits);
        }
        self.write_tag(1, mac);
    }

    /// Absorbs the tags of the lanes into the first lane. A block is absorbed alone, or with the next one by AEGIS-128.
    fn absorb_lane_tags(&mut self, is_long: bool) {
        let (lanes, is_256) = (*self, self.is_256);
        let first = usize::from(is_long || is_256);
        let size = if is_long { 2 } else { 1 };
        let mut blocks = [zero(); 8];
        for lane in first..self.lanes {
            let tag = lanes.lane_tag(lane, is_long);
            blocks[size * (lane - first)..][..size].copy_from_slice(&tag[..size]);
        }
        let count = size * (self.lanes - first);
        for pair in blocks[..count].chunks(if is_256 { 1 } else { 2 }) {
            let row = |at: usize| [pair.get(at).copied().unwrap_or(zero()), zero(), zero(), zero()];
            self.update(row(0), row(1));
        }
    }
}
