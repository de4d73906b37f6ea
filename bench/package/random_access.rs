//! Measures `raf` in a file beside a plain file and AEGIS-256 in memory, and prints the time of each turn for
//! `table.py`.
//!
//! Its argument is the path of a file, which it makes and removes. With `check` after it the contents are short.

use hunkravy::aegis256::Aegis256 as Cipher;
use hunkravy::raf::{Aegis256, Error, FileIo, NoJournal, Raf, RafBuilder, RafIo, RafRng, Result};
use std::fs::{self, File};
use std::os::unix::fs::FileExt;
use std::time::Instant;

const KEY: [u8; 32] = [7; 32];
const PAGE_BYTES: usize = 4032;
const TURNS: usize = 41;

/// The order in which pieces are written and read, and their bytes.
const ORDERS: [(&str, usize, bool); 2] =
    [("in order, 64 KiB a call", 65536, false), ("at random places, a page a call", PAGE_BYTES, true)];

/// What is measured. A piece may hold other bytes after it was written.
trait Target {
    fn write(&mut self, at: u64, piece: &mut [u8]) -> Result<()>;
    fn read(&mut self, at: u64, piece: &mut [u8]) -> Result<()>;
    /// Makes what was written certain.
    fn finish(&mut self) -> Result<()>;
}

impl<I: RafIo, R: RafRng, J: RafIo> Target for Raf<Aegis256, I, R, J> {
    fn write(&mut self, at: u64, piece: &mut [u8]) -> Result<()> {
        Raf::write(self, piece, at).map(drop)
    }

    fn read(&mut self, at: u64, piece: &mut [u8]) -> Result<()> {
        Raf::read(self, piece, at).map(drop)
    }

    fn finish(&mut self) -> Result<()> {
        self.commit()
    }
}

impl Target for File {
    fn write(&mut self, at: u64, piece: &mut [u8]) -> Result<()> {
        Ok(self.write_all_at(piece, at)?)
    }

    fn read(&mut self, at: u64, piece: &mut [u8]) -> Result<()> {
        Ok(self.read_exact_at(piece, at)?)
    }

    fn finish(&mut self) -> Result<()> {
        Ok(self.sync_all()?)
    }
}

/// Pages that are sealed and refused in place, with associated data as long as that of a file.
struct InMemory;

impl Target for InMemory {
    fn write(&mut self, _: u64, piece: &mut [u8]) -> Result<()> {
        for page in piece.chunks_mut(PAGE_BYTES) {
            let _ = Cipher::<32>::new(&KEY, &KEY).encrypt_in_place(page, &[9; 41]);
        }
        Ok(())
    }

    fn read(&mut self, _: u64, piece: &mut [u8]) -> Result<()> {
        for page in piece.chunks_mut(PAGE_BYTES) {
            let _ = Cipher::<32>::new(&KEY, &KEY).decrypt_in_place(page, &[0; 32], &[9; 41]);
        }
        Ok(())
    }

    fn finish(&mut self) -> Result<()> {
        Ok(())
    }
}

/// How much is measured.
struct Sizes {
    /// Pages of the contents that are written and read: a power of two.
    pages: u64,
    /// Bytes of the contents whose commitment is read.
    committed: u64,
}

/// The places of the pieces. An odd factor gives each of a power of two of places once.
fn places(text_bytes: u64, piece_bytes: u64, is_random: bool) -> impl Iterator<Item = u64> {
    let (count, factor) = (text_bytes / piece_bytes, if is_random { 0x9E37_79B1 } else { 1 });
    (0..count).map(move |number| number * factor % count * piece_bytes)
}

/// Prints the time of a turn for `table.py`.
fn turn(row: &str, column: &str, bytes: u64, call: impl FnOnce() -> Result<()>) -> Result<()> {
    let start = Instant::now();
    call()?;
    let seconds = start.elapsed().as_secs_f64();
    println!("{row}\t{column}\t{seconds:.9}\t{bytes}");
    Ok(())
}

/// Writes and reads the contents with each target in turns.
fn measure(
    targets: &mut [(&str, Box<dyn Target>)],
    sizes: &Sizes,
    &(words, piece_bytes, is_random): &(&str, usize, bool),
) -> Result<()> {
    let bytes = sizes.pages * PAGE_BYTES as u64;
    let places = || places(bytes, piece_bytes as u64, is_random);
    let mut piece = vec![0x5a; piece_bytes];
    for _ in 0..TURNS {
        for (name, target) in &mut *targets {
            let row = format!("{name} | {words}");
            turn(&row, "Writing", bytes, || {
                places().try_for_each(|at| target.write(at, &mut piece))?;
                target.finish()
            })?;
            turn(&row, "Reading", bytes, || places().try_for_each(|at| target.read(at, &mut piece)))?;
        }
    }
    Ok(())
}

/// A file with no contents, in place of one that is there.
fn new() -> RafBuilder<Aegis256> {
    RafBuilder::new().truncate(true)
}

/// Reads the commitment of longer contents.
fn measure_commitment(path: &str, sizes: &Sizes) -> Result<()> {
    let mut pages = new().create_file(path, &KEY)?;
    for end in (1..=64).map(|part| sizes.committed / 64 * part) {
        pages.truncate(end)?;
        pages.commit()?;
    }
    let row = format!("the commitment | of {} MiB", sizes.committed >> 20);
    let mut commitment = [0; 32];
    turn(&row, "Reading", sizes.committed, || {
        commitment = pages.commitment()?;
        Ok(())
    })?;
    pages.verify(&commitment)
}

fn main() -> Result<()> {
    let mut arguments = std::env::args().skip(1);
    let path = &arguments.next().ok_or(Error::Io(std::io::ErrorKind::InvalidInput.into()))?;
    let sizes = if arguments.next().is_some() {
        Sizes { pages: 1 << 6, committed: 1 << 20 }
    } else {
        Sizes { pages: 1 << 13, committed: 1 << 30 }
    };
    let paths = ["no-journal", "plain"].map(|name| format!("{path}-{name}"));
    for order in &ORDERS {
        let pages = new().create_file(path, &KEY)?;
        let without = new().journal(NoJournal);
        let without = without.create(FileIo::create(&paths[0])?, &KEY)?;
        let mut plain = File::options();
        plain.read(true).write(true).create(true).truncate(true);
        let mut targets: [(&str, Box<dyn Target>); 4] = [
            ("`raf`", Box::new(pages)),
            ("`raf` with no journal", Box::new(without)),
            ("a plain file", Box::new(plain.open(&paths[1])?)),
            ("AEGIS-256 in memory", Box::new(InMemory)),
        ];
        measure(&mut targets, &sizes, order)?;
        drop(targets);
        paths.iter().try_for_each(fs::remove_file)?;
    }
    measure_commitment(path, &sizes)?;
    Ok(fs::remove_file(path)?)
}
