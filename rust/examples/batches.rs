//! Writes a number to several rows of an encrypted file in one commit, so that a crash leaves all of them or none.
//!
//! `batches FILE` opens the file, and prints the number that its rows hold, or fails if they differ. `batches FILE write`
//! then writes the numbers after it, until it is stopped. The files are those of the proved program `example_batches` of
//! the sources, whose journal is then `FILE.journal`.

use hunkravy::raf::{Aegis256, Raf};
use std::error::Error;
use std::path::Path;

/// A real program reads its key from where it is kept.
const KEY: [u8; 32] = [7; 32];
/// Rows of 8 bytes lie so far apart that each is in a page of its own.
const ROWS: u64 = 5;
const ROW_DISTANCE: u64 = 10_000;

/// Opens the file, or makes a new one, whose rows hold 0.
fn open(path: &Path) -> hunkravy::raf::Result<Raf<Aegis256>> {
    if path.exists() {
        return Raf::open_file(path, &KEY);
    }
    let mut file = Raf::create_file(path, &KEY)?;
    file.truncate(ROWS * ROW_DISTANCE)?;
    file.commit()?;
    Ok(file)
}

/// Returns the number that all rows hold.
fn read_rows(file: &mut Raf<Aegis256>) -> Result<u64, Box<dyn Error>> {
    let mut rows = Vec::new();
    for row in 0..ROWS {
        let mut bytes = [0; 8];
        file.read(&mut bytes, row * ROW_DISTANCE)?;
        rows.push(u64::from_le_bytes(bytes));
    }
    match rows.iter().find(|number| **number != rows[0]) {
        Some(number) => Err(format!("a row holds {number}, and row 0 holds {}", rows[0]).into()),
        None => Ok(rows[0]),
    }
}

fn main() -> Result<(), Box<dyn Error>> {
    let mut arguments = std::env::args_os().skip(1);
    let path = arguments.next().ok_or("usage: batches FILE [write]")?;
    let mut file = open(Path::new(&path))?;
    let mut number = read_rows(&mut file)?;
    println!("all rows hold {number}");
    while arguments.len() > 0 {
        number += 1;
        for row in 0..ROWS {
            file.write(&number.to_le_bytes(), row * ROW_DISTANCE)?;
        }
        file.commit()?;
    }
    Ok(())
}
