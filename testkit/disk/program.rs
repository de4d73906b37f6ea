//! `program PATH KEY`: makes the commands of standard input with a random-access file of AEGIS-256, and answers each
//! with a line. README.md has the commands.

use hunkravy::raf::{Aegis256, Batch, Error, Raf, RafBuilder, Result};
use std::env::args;
use std::io::{ErrorKind, Lines, StdinLock, stdin};

type File = Raf<Aegis256>;
type Input<'i> = Lines<StdinLock<'i>>;

const PAGE_BYTES: u32 = 256;

fn bytes_of(digits: &str) -> Vec<u8> {
    let pairs = digits.as_bytes().chunks(2);
    let byte = |pair| u8::from_str_radix(std::str::from_utf8(pair).unwrap(), 16).unwrap();
    pairs.map(byte).collect()
}

fn answer(result: Result<String>) {
    match result {
        Ok(text) => println!("{text} ok"),
        Err(error) => println!(" {error}"),
    }
}

/// The next command, and `drop` at the end.
fn next(lines: &mut Input) -> String {
    lines.next().map_or("drop".to_owned(), |line| line.unwrap())
}

/// A file or a batch.
trait Changes {
    fn write_at(&mut self, data: &[u8], place: u64) -> Result<usize>;
    fn set_size(&mut self, size: u64) -> Result<()>;
    fn make_batch(&mut self, lines: &mut Input) -> Result<()>;
}

macro_rules! changes {
    ($type:ty) => {
        impl Changes for $type {
            fn write_at(&mut self, data: &[u8], place: u64) -> Result<usize> {
                self.write(data, place)
            }

            fn set_size(&mut self, size: u64) -> Result<()> {
                self.truncate(size)
            }

            fn make_batch(&mut self, lines: &mut Input) -> Result<()> {
                self.batch(|batch| match make_changes(batch, lines).as_str() {
                    "end" => Ok(()),
                    _ => Err(Error::Io(ErrorKind::Interrupted.into())),
                })
            }
        }
    };
}

changes!(File);
changes!(Batch<'_, Aegis256>);

/// Makes changes and batches, and returns the command after them.
fn make_changes(file: &mut impl Changes, lines: &mut Input) -> String {
    loop {
        let line = next(lines);
        let mut words = line.split(' ').skip(1);
        let number = words.next().map_or(0, |number| number.parse().unwrap());
        let data = bytes_of(words.next().unwrap_or_default());
        let made = match line.split(' ').next() {
            Some("write") => file.write_at(&data, number).map(drop),
            Some("truncate") => file.set_size(number),
            Some("batch") => {
                println!(" ok");
                match file.make_batch(lines) {
                    Err(Error::Io(error)) if error.kind() == ErrorKind::Interrupted => Ok(()),
                    ended => ended,
                }
            }
            _ => return line,
        };
        answer(made.map(|()| String::new()));
    }
}

fn contents(file: &mut File) -> Result<String> {
    let mut text = vec![0; file.size() as usize];
    file.read(&mut text, 0)?;
    Ok(text.iter().map(|byte| format!("{byte:02x}")).collect())
}

/// Makes the commands in a file up to its end.
fn make_all(mut file: File, lines: &mut Input) -> Result<String> {
    println!(" ok");
    loop {
        match make_changes(&mut file, lines).as_str() {
            "commit" => answer(file.commit().map(|()| String::new())),
            "contents" => answer(contents(&mut file)),
            "close" => return file.commit().map(|()| String::new()),
            _ => break,
        }
    }
    file.discard();
    Ok(String::new())
}

fn main() {
    let arguments: Vec<String> = args().collect();
    let key = bytes_of(&arguments[2]).try_into().unwrap();
    let mut lines = stdin().lines();
    while let Some(Ok(line)) = lines.next() {
        let builder = RafBuilder::<Aegis256>::new().chunk_size(PAGE_BYTES);
        let made = match line.as_str() {
            "create" => builder.create_file(&arguments[1], &key),
            "open" => builder.open_file(&arguments[1], &key),
            "drop" => {
                println!(" ok");
                continue;
            }
            _ => Err(Error::Io(ErrorKind::NotFound.into())),
        };
        answer(made.and_then(|file| make_all(file, &mut lines)));
    }
}
