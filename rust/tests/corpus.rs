//! The corpus of `testkit/corpus`: files in each format, and what opening them returns.

use hunkravy::files::SealedReader;
use hunkravy::raf::{self, Algorithm, Raf};
use hunkravy::records::{Error, HEADER_BYTES, Opener};
use std::collections::HashMap;
use std::io::{ErrorKind, Read};
use std::path::Path;
use std::{env, fs, process};

/// The fields of a case by their names.
struct Case(HashMap<String, String>);

/// The messages or the contents, or the name of an error.
type Opened = Result<Vec<Vec<u8>>, String>;

/// The bytes of a field. A run of zeros is its length in parentheses.
fn bytes_of(field: &str) -> Vec<u8> {
    let mut bytes = Vec::new();
    for (index, part) in field.trim_matches('-').split(['(', ')']).enumerate() {
        if index % 2 == 1 {
            bytes.resize(bytes.len() + part.parse::<usize>().unwrap(), 0);
            continue;
        }
        let byte = |at| u8::from_str_radix(&part[at..at + 2], 16).unwrap();
        bytes.extend((0..part.len()).step_by(2).map(byte));
    }
    bytes
}

impl Case {
    fn bytes(&self, name: &str) -> Vec<u8> {
        bytes_of(&self.0[name])
    }

    fn array<const COUNT: usize>(&self, name: &str) -> [u8; COUNT] {
        self.bytes(name).try_into().unwrap()
    }

    fn result(&self) -> Opened {
        let result = &self.0["result"];
        let mut words = result.split(' ');
        match words.next() {
            Some("ok") => Ok(words.map(bytes_of).collect()),
            // The crate does not tell which page is missing.
            Some("missing") => Err("missing".to_owned()),
            _ => Err(result.clone()),
        }
    }
}

/// Calls a function with each case of a file, and returns how many there are.
fn for_each(name: &str, check: impl Fn(&Case)) -> usize {
    let folder = Path::new(env!("CARGO_MANIFEST_DIR")).join("../testkit/corpus");
    let text = fs::read_to_string(folder.join(name)).unwrap();
    let cases = text.split("\n\n").map(|case| {
        let fields = case.lines().map(|line| line.split_once(": ").unwrap());
        Case(fields.map(|(name, text)| (name.into(), text.into())).collect())
    });
    cases.map(|case| check(&case)).count()
}

fn check(case: &Case, found: Opened, expected: Opened) {
    assert_eq!(found, expected, "{}", case.0["case"]);
}

/// The name of an error in the corpus.
fn name_of(error: Error) -> String {
    match error {
        Error::Header => "header".to_owned(),
        Error::Truncated => "truncated".to_owned(),
        Error::Flag => "flag".to_owned(),
        Error::TooLong => "too-long".to_owned(),
        Error::Damaged(number) => format!("damaged {number}"),
        Error::Trailing => "trailing".to_owned(),
        other => format!("{other:?}"),
    }
}

fn opened_records(case: &Case) -> Result<Vec<Vec<u8>>, Error> {
    let (stream, context) = (case.bytes("stream"), case.bytes("context"));
    let (header, mut rest) = stream.split_at(HEADER_BYTES.min(stream.len()));
    let mut opener = Opener::new(&case.array("key"), &case.array("prefix"), &context, header)?;
    let mut messages = Vec::new();
    while !opener.has_ended() {
        let opened = opener.open_next(rest)?;
        messages.push(opened.message.to_vec());
        rest = opened.rest;
    }
    opener.finish(rest)?;
    Ok(messages)
}

#[test]
fn record_streams() {
    let count = for_each("records.txt", |case| {
        // A stream of version 1 is none that the package knows.
        let is_old = case.bytes("stream").starts_with(b"AGR1");
        let expected = if is_old { Err("header".to_owned()) } else { case.result() };
        check(case, opened_records(case).map_err(name_of), expected);
    });
    assert!(count >= 70);
    println!("{count} record streams");
}

#[test]
fn sealed_files() {
    let count = for_each("sealed.txt", |case| {
        let mut contents = Vec::new();
        let file = case.bytes("file");
        let read = SealedReader::new(&file[..], &case.array("key")).read_to_end(&mut contents);
        let found = read.map_err(|error| name_of(error.downcast().unwrap()));
        check(case, found.map(|_| vec![contents]), case.result());
    });
    assert!(count >= 30);
    println!("{count} sealed files");
}

/// Opens and reads a file, and compares its commitment.
fn opened_pages<A: Algorithm>(case: &Case, path: &Path) -> raf::Result<Vec<u8>>
where
    A::Key: for<'k> TryFrom<&'k [u8]>,
{
    let key = A::Key::try_from(&case.bytes("key")).ok().unwrap();
    let mut file = Raf::<A>::open_file(path, &key)?;
    let mut contents = vec![0; file.size() as usize];
    file.read(&mut contents, 0)?;
    assert_eq!(file.commitment()?.to_vec(), case.bytes("commitment"));
    Ok(contents)
}

fn check_pages(case: &Case, path: &Path) {
    let journal = path.with_extension("journal");
    let files = [(path, case.bytes("file")), (&journal, case.bytes("journal"))];
    files.iter().for_each(|(path, bytes)| fs::write(path, bytes).unwrap());
    let opened = match case.0["variant"].as_str() {
        "aegis128l" => opened_pages::<raf::Aegis128L>(case, path),
        "aegis128x2" => opened_pages::<raf::Aegis128X2>(case, path),
        "aegis128x4" => opened_pages::<raf::Aegis128X4>(case, path),
        "aegis256" => opened_pages::<raf::Aegis256>(case, path),
        "aegis256x2" => opened_pages::<raf::Aegis256X2>(case, path),
        "aegis256x4" => opened_pages::<raf::Aegis256X4>(case, path),
        other => panic!("{other}"),
    };
    let found = opened.map(|contents| vec![contents]).map_err(|error| match error {
        raf::Error::Damaged(number) => format!("damaged {number}"),
        raf::Error::Io(error) if error.kind() == ErrorKind::UnexpectedEof => "missing".to_owned(),
        raf::Error::Header | raf::Error::Journal => {
            // Nothing has changed.
            let kept = |(path, bytes): &(&Path, Vec<u8>)| fs::read(path).unwrap_or_default() == *bytes;
            assert!(files.iter().all(kept), "{}", case.0["case"]);
            format!("{error:?}").to_lowercase()
        }
        other => format!("{other:?}"),
    });
    check(case, found, case.result());
}

#[test]
fn random_access_files() {
    let folder = env::temp_dir().join(format!("hunkravy-corpus-{}", process::id()));
    fs::create_dir(&folder).unwrap();
    let count = for_each("random-access.txt", |case| check_pages(case, &folder.join("file")));
    assert!(count >= 110);
    println!("{count} random-access files");
    fs::remove_dir_all(&folder).unwrap();
}
