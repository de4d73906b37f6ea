//! Sixteen-byte blocks with the AES round, by look-up tables.

/// A block as its four columns, the first row in the lowest byte.
#[derive(Clone, Copy)]
pub struct Block([u32; 4]);

const fn times_two(byte: u8) -> u8 {
    (byte << 1) ^ ((byte >> 7) * 0x1b)
}

const fn times(byte: u8, other: u8) -> u8 {
    let mut product = 0;
    let mut power = byte;
    let mut bit = 0;
    while bit < 8 {
        if other >> bit & 1 == 1 {
            product ^= power;
        }
        power = times_two(power);
        bit += 1;
    }
    product
}

/// The power 254, which is the inverse of every byte but 0, and 0 of 0.
const fn inverse(byte: u8) -> u8 {
    let mut result = 1;
    let mut square = byte;
    let mut step = 0;
    while step < 7 {
        square = times(square, square);
        result = times(result, square);
        step += 1;
    }
    result
}

const fn substitute(byte: u8) -> u8 {
    let b = inverse(byte);
    b ^ b.rotate_left(1) ^ b.rotate_left(2) ^ b.rotate_left(3) ^ b.rotate_left(4) ^ 0x63
}

/// What each byte of a column's row `row` adds to the column that it comes to.
const fn table(row: u32) -> [u32; 256] {
    let mut entries = [0; 256];
    let mut byte = 0;
    while byte < 256 {
        let s = substitute(byte as u8);
        entries[byte] = u32::from_le_bytes([times_two(s), s, s, times_two(s) ^ s]).rotate_left(8 * row);
        byte += 1;
    }
    entries
}

static TABLES: [[u32; 256]; 4] = [table(0), table(1), table(2), table(3)];

/// The column that gets these bytes of the columns beside it.
fn column(columns: [u32; 4]) -> u32 {
    let entry = |row: usize| TABLES[row][(columns[row] >> (8 * row)) as u8 as usize];
    entry(0) ^ entry(1) ^ entry(2) ^ entry(3)
}

impl Block {
    /// The block of sixteen bytes.
    pub fn load(bytes: &[u8; 16]) -> Self {
        Block(core::array::from_fn(|at| u32::from_le_bytes(*bytes[4 * at..].first_chunk().unwrap())))
    }

    /// Writes its sixteen bytes.
    pub fn store(self, bytes: &mut [u8; 16]) {
        for (place, word) in bytes.chunks_exact_mut(4).zip(self.0) {
            place.copy_from_slice(&word.to_le_bytes());
        }
    }

    pub fn xor(self, other: Self) -> Self {
        Block(core::array::from_fn(|at| self.0[at] ^ other.0[at]))
    }

    pub fn and(self, other: Self) -> Self {
        Block(core::array::from_fn(|at| self.0[at] & other.0[at]))
    }

    /// One AES round with the key added last.
    pub fn round(self, key: Self) -> Self {
        let [a, b, c, d] = self.0;
        Block([[a, b, c, d], [b, c, d, a], [c, d, a, b], [d, a, b, c]].map(column)).xor(key)
    }
}
