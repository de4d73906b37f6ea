//! A small store of names and values in an encrypted file. A crash leaves all of a change, or nothing of it; but a crash
//! during creation may leave a file that does not open: remove it. Each change writes all values again, in a commit of five
//! syncs: this is for some thousand values, and not for many changes a second.
//!
//! `store KEYFILE FILE NAME=VALUE` sets a value, and `store KEYFILE FILE` prints all of them. A key is made by
//! `head -c 32 /dev/urandom > KEYFILE`. Without arguments it tests itself on a file that it removes.

use hunkravy::raf::{Aegis256, Raf};
use std::collections::BTreeMap;
use std::fs::{self, File};
use std::io::Read;
use std::path::Path;
use std::process::ExitCode;

type Result<T> = std::result::Result<T, Box<dyn std::error::Error>>;

struct Store {
    file: Raf<Aegis256>,
    values: BTreeMap<String, String>,
}

impl Store {
    /// Opens the store, or makes an empty one.
    fn open(path: &Path, key: &[u8; 32]) -> Result<Self> {
        let mut file = match path.exists() {
            true => Raf::open_file(path, key)?,
            false => Raf::create_file(path, key)?,
        };
        let mut text = String::new();
        file.cursor().read_to_string(&mut text)?;
        let lines = text.lines().filter_map(|line| line.split_once('='));
        let owned = |(name, value): (&str, &str)| (name.into(), value.into());
        let values = lines.map(owned).collect();
        Ok(Store { file, values })
    }

    /// Sets a value. With `Ok` it is certain to be there after a crash. After an error open the store again.
    fn set(&mut self, name: &str, value: &str) -> Result<()> {
        if name.contains(['=', '\n']) || value.contains(['\r', '\n']) {
            return Err("a name must have no = or newline, and a value must be one line".into());
        }
        self.values.insert(name.to_owned(), value.to_owned());
        let text = self.text();
        self.file.batch(|file| {
            file.truncate(0)?;
            file.write(text.as_bytes(), 0)?;
            Ok(())
        })
    }

    fn text(&self) -> String {
        let line = |(name, value): (&String, &String)| format!("{name}={value}\n");
        self.values.iter().map(line).collect()
    }
}

fn read_key(path: &str) -> Result<[u8; 32]> {
    let mut key = [0; 32];
    let mut file = File::open(path)?;
    file.read_exact(&mut key)?;
    match file.read(&mut [0])? {
        0 => Ok(key),
        _ => Err("a key file of 32 bytes is needed, and not one of the tool".into()),
    }
}

fn try_all(path: &Path) -> Result<()> {
    let mut key = [0; 32];
    hunkravy::fill_random(&mut key)?;
    Store::open(path, &key)?.set("colour", "red")?;
    let mut store = Store::open(path, &key)?;
    store.set("shape", "round")?;
    store.set("colour", "a=b")?;
    drop(store);
    assert_eq!(Store::open(path, &key)?.text(), "colour=a=b\nshape=round\n");
    Ok(fs::remove_file(path)?)
}

fn run() -> Result<()> {
    let arguments: Vec<String> = std::env::args().skip(1).collect();
    let [key, path, rest @ ..] = &arguments[..] else {
        return try_all(&std::env::temp_dir().join(format!("store-{}", std::process::id())));
    };
    let path = Path::new(path);
    if rest.is_empty() && !path.exists() {
        return Err(format!("there is no store {}", path.display()).into());
    }
    let mut store = Store::open(path, &read_key(key)?)?;
    for line in rest {
        let (name, value) = line.split_once('=').ok_or("expected NAME=VALUE")?;
        store.set(name, value)?;
    }
    print!("{}", store.text());
    Ok(())
}

fn main() -> ExitCode {
    match run() {
        Ok(()) => ExitCode::SUCCESS,
        Err(error) => {
            eprintln!("store: {error}");
            ExitCode::FAILURE
        }
    }
}
