//! Shared by the tests: files on disks in memory that fail, files in folders, and what calls return.

#[path = "../sealed/random.rs"]
mod random;

use hunkravy::raf::*;
pub use random::Random;
use std::cell::{RefCell, RefMut};
use std::fs::{self, Permissions};
use std::os::unix::fs::{MetadataExt, PermissionsExt};
use std::os::unix::process::CommandExt;
use std::path::{Path, PathBuf};
use std::process::Command;
use std::rc::Rc;
use std::sync::atomic::{AtomicUsize, Ordering::Relaxed};
use std::{env, io, thread};

pub const KEY: [u8; 32] = [7; 32];

/// How many calls a commit makes until its journal is certain, before it writes anything to the file.
pub const JOURNAL_CALLS: usize = 4;

/// Returns "Ok", or the error without its text.
pub fn outcome<T>(result: Result<T>) -> String {
    match result {
        Ok(_) => "Ok".to_owned(),
        Err(Error::Io(error)) => format!("{:?}", error.kind()),
        Err(error) => format!("{error:?}"),
    }
}

/// Returns the contents, or an error, after which the buffer has none of them.
pub fn read<I: RafIo, R: RafRng, J: RafIo>(file: &mut Raf<Aegis256, I, R, J>) -> Result<Vec<u8>> {
    let mut text = vec![9; file.size() as usize];
    let count = file.read(&mut text, 0);
    assert!(count.is_ok() || text.iter().all(|byte| *byte == 0));
    count.map(|count| text[..count].to_vec())
}

pub fn text_of<I: RafIo, R: RafRng, J: RafIo>(file: &mut Raf<Aegis256, I, R, J>) -> Vec<u8> {
    read(file).unwrap()
}

/// Returns what the journals of another file begin with, whose pages have 256 bytes.
pub fn front_of_another() -> [u8; 512] {
    let mut front = [0; 512];
    front[..33].copy_from_slice(b"AGJ1\x21\0\x01\0\0 the id of another file ");
    front
}

// ---- Sources of random bytes

impl RafRng for Random {
    fn fill(&mut self, buf: &mut [u8]) -> Result<()> {
        buf.fill_with(|| (self.next() >> 32) as u8);
        Ok(())
    }
}

/// Random bytes, which a function may change or refuse. It is told how many calls were made before.
pub struct Source<F>(Random, usize, F);

impl<F: FnMut(usize, &mut [u8]) -> Result<()>> Source<F> {
    pub fn new(seed: u64, then: F) -> Self {
        Source(Random(seed), 0, then)
    }
}

impl<F: FnMut(usize, &mut [u8]) -> Result<()>> RafRng for Source<F> {
    fn fill(&mut self, buf: &mut [u8]) -> Result<()> {
        self.0.fill(buf)?;
        self.1 += 1;
        (self.2)(self.1 - 1, buf)
    }
}

/// A source whose first calls succeed, so many of them. The one after them fills half of its bytes.
pub fn failing(calls: usize) -> impl RafRng {
    Source::new(5, move |call, buf| {
        let half = buf.len() / 2;
        if call == calls {
            buf[half..].fill(0);
            return Err(io::Error::from(io::ErrorKind::UnexpectedEof).into());
        }
        Ok(())
    })
}

// ---- Disks

/// A call of a disk that changes something.
#[derive(Clone, Debug, PartialEq, Eq)]
pub enum Call {
    Write(u64, Vec<u8>),
    Resize(u64),
    Sync,
    Replace(Vec<u8>),
}

/// The file, or its journal.
#[derive(Clone, Copy, Debug, PartialEq, Eq)]
pub enum Part {
    File,
    Journal,
}

/// What the disks of a file and of its journal have in common: their calls, in order, how many of them still succeed, and how many
/// reads, how often one was locked, and how many sources of random bytes were made.
#[derive(Default)]
pub struct Log {
    pub calls: Vec<(Part, Call)>,
    pub left: usize,
    pub reads_left: usize,
    pub locks: usize,
    pub seed: u64,
    /// Whether no calls are kept, and whether the disks have no more room.
    pub is_off: bool,
    pub is_full: bool,
}

/// A disk in memory, whose bytes outlive the file over it.
#[derive(Clone)]
pub struct Disk {
    pub bytes: Rc<RefCell<Vec<u8>>>,
    pub log: Rc<RefCell<Log>>,
    /// Where the journal is, if there is none on a disk.
    pub journal: Option<PathBuf>,
    part: Part,
}

impl Disk {
    /// Logs a call. Returns an error if it fails.
    fn log(&self, call: impl FnOnce() -> Call) -> io::Result<()> {
        let mut log = self.log.borrow_mut();
        if !log.is_off {
            log.calls.push((self.part, call()));
        }
        log.left = log.left.checked_sub(1).ok_or(io::ErrorKind::Other)?;
        Ok(())
    }

    /// Returns an error if it cannot grow to so many bytes.
    fn check_room(&self, end: u64) -> io::Result<()> {
        let is_full = self.log.borrow().is_full && end > self.bytes.borrow().len() as u64;
        if is_full {
            return Err(io::ErrorKind::StorageFull.into());
        }
        Ok(())
    }
}

impl RafIo for Disk {
    /// If it fails, half of the bytes are read.
    fn read_at(&mut self, buf: &mut [u8], offset: u64) -> io::Result<()> {
        let bytes = self.bytes.borrow();
        let rest = bytes.get(offset as usize..).unwrap_or(&[]);
        let part = rest.get(..buf.len()).ok_or(io::ErrorKind::UnexpectedEof)?;
        let half = part.len() / 2;
        buf[..half].copy_from_slice(&part[..half]);
        let mut log = self.log.borrow_mut();
        log.reads_left = log.reads_left.checked_sub(1).ok_or(io::ErrorKind::Other)?;
        buf[half..].copy_from_slice(&part[half..]);
        Ok(())
    }

    /// If it fails, half of the bytes are written.
    fn write_at(&mut self, data: &[u8], offset: u64) -> io::Result<()> {
        self.check_room(offset + data.len() as u64)?;
        let done = self.log(|| Call::Write(offset, data.to_vec()));
        let count = data.len() / if done.is_ok() { 1 } else { 2 };
        put(&mut self.bytes.borrow_mut(), offset, &data[..count]);
        done
    }

    fn get_size(&mut self) -> io::Result<u64> {
        Ok(self.bytes.borrow().len() as u64)
    }

    fn set_size(&mut self, size: u64) -> io::Result<()> {
        self.check_room(size)?;
        self.log(|| Call::Resize(size))?;
        self.bytes.borrow_mut().resize(size as usize, 0);
        Ok(())
    }

    fn sync(&mut self) -> io::Result<()> {
        self.log(|| Call::Sync)
    }

    fn replace(&mut self, bytes: &[u8]) -> io::Result<()> {
        self.check_room(u64::MAX)?;
        self.log(|| Call::Replace(bytes.to_vec()))?;
        let mut own = self.bytes.borrow_mut();
        own.clear();
        own.extend(bytes);
        Ok(())
    }

    fn lock(&mut self) -> Result<()> {
        self.log.borrow_mut().locks += 1;
        Ok(())
    }

    fn journal_path(&self) -> Option<PathBuf> {
        self.journal.clone()
    }
}

pub type File = Raf<Aegis256, Disk, Random, Disk>;

/// The bytes of a file and of its journal.
pub type Bytes = (Vec<u8>, Vec<u8>);

/// The disks of a file and of its journal.
#[derive(Clone)]
pub struct Disks {
    pub file: Disk,
    pub journal: Disk,
}

impl Disks {
    pub fn new() -> Self {
        Self::of(Bytes::default())
    }

    pub fn of((file, journal): Bytes) -> Self {
        let log = Rc::new(RefCell::new(Log { left: usize::MAX, reads_left: usize::MAX, ..Log::default() }));
        let disk = |bytes, part| Disk { bytes: Rc::new(RefCell::new(bytes)), log: log.clone(), journal: None, part };
        Disks { file: disk(file, Part::File), journal: disk(journal, Part::Journal) }
    }

    /// The disks of a new file with these contents.
    pub fn with(text: &[u8]) -> Self {
        let disks = Self::new();
        disks.create().write(text, 0).unwrap();
        disks
    }

    pub fn log(&self) -> RefMut<'_, Log> {
        self.file.log.borrow_mut()
    }

    /// The number of calls so far.
    pub fn calls(&self) -> usize {
        self.log().calls.len()
    }

    /// Lets so many calls succeed.
    pub fn leave(&self, calls: usize) {
        self.log().left = calls;
    }

    pub fn bytes(&self) -> Bytes {
        let bytes = |disk: &Disk| disk.bytes.borrow().clone();
        (bytes(&self.file), bytes(&self.journal))
    }

    /// A builder of files in pages of 256 bytes, with another source of random bytes each time.
    pub fn builder(&self) -> RafBuilder<Aegis256, Random, Disk> {
        self.log().seed += 1;
        RafBuilder::with_rng(Random(self.log().seed)).chunk_size(256).journal(self.journal.clone())
    }

    /// Creates a file that no write commits.
    pub fn create(&self) -> File {
        self.builder().buffer_limit(usize::MAX).create(self.file.clone(), &KEY).unwrap()
    }

    pub fn open(&self) -> Result<File> {
        self.builder().open(self.file.clone(), &KEY)
    }

    /// Returns the contents that an opening would find. It changes nothing.
    pub fn text(&self) -> Vec<u8> {
        text_of(&mut Self::of(self.bytes()).open().unwrap())
    }
}

/// Returns the disks after a commit of these contents that is cut short: so many of its calls succeed.
pub fn cut_short(bytes: &Bytes, text: &[u8], offset: u64, calls: usize) -> Disks {
    let disks = Disks::of(bytes.clone());
    let mut file = disks.open().unwrap();
    file.write(text, offset).unwrap();
    disks.leave(calls);
    assert!(file.commit().is_err());
    disks.leave(usize::MAX);
    disks
}

/// What a storage is asked for, with the end of what is written or reserved, or the new size.
#[derive(Clone, Copy, Debug, PartialEq)]
pub enum At {
    Read,
    Write(u64),
    Reserve(u64),
    Resize(u64),
    Replace(u64),
    Sync,
    Forget,
    Lock,
}

/// Does something before each call of one kind.
pub fn on(kind: At, mut done: impl FnMut() -> Result<()>) -> impl FnMut(At) -> Result<()> {
    move |at| if at == kind { done() } else { Ok(()) }
}

/// A storage before whose calls a function is called. If that returns an error, the call is not made.
#[derive(Clone)]
pub struct Before<I, F>(pub I, pub F);

impl<I: RafIo, F: FnMut(At) -> Result<()>> RafIo for Before<I, F> {
    fn read_at(&mut self, buf: &mut [u8], offset: u64) -> io::Result<()> {
        (self.1)(At::Read)?;
        self.0.read_at(buf, offset)
    }

    fn write_at(&mut self, data: &[u8], offset: u64) -> io::Result<()> {
        (self.1)(At::Write(offset + data.len() as u64))?;
        self.0.write_at(data, offset)
    }

    fn get_size(&mut self) -> io::Result<u64> {
        self.0.get_size()
    }

    fn set_size(&mut self, size: u64) -> io::Result<()> {
        (self.1)(At::Resize(size))?;
        self.0.set_size(size)
    }

    fn reserve(&mut self, from: u64, end: u64) -> io::Result<()> {
        (self.1)(At::Reserve(end))?;
        self.0.reserve(from, end)
    }

    fn sync(&mut self) -> io::Result<()> {
        (self.1)(At::Sync)?;
        self.0.sync()
    }

    fn replace(&mut self, bytes: &[u8]) -> io::Result<()> {
        (self.1)(At::Replace(bytes.len() as u64))?;
        self.0.replace(bytes)
    }

    fn forget(&mut self) -> io::Result<()> {
        (self.1)(At::Forget)?;
        self.0.forget()
    }

    fn lock(&mut self) -> Result<()> {
        (self.1)(At::Lock)?;
        self.0.lock()
    }

    fn journal_path(&self) -> Option<PathBuf> {
        self.0.journal_path()
    }
}

/// Writes bytes at a place, after zeros in a gap.
pub fn put(bytes: &mut Vec<u8>, offset: u64, data: &[u8]) {
    let (start, end) = (offset as usize, offset as usize + data.len());
    bytes.resize(bytes.len().max(end), 0);
    bytes[start..end].copy_from_slice(data);
}

// ---- Files in folders

/// A folder that is removed when it is dropped. Its files are those that tests make, and the file of this format in it is `file`.
pub struct Folder(PathBuf);

impl Folder {
    pub fn new() -> Self {
        static COUNT: AtomicUsize = AtomicUsize::new(0);
        let name = format!("{}-{}", std::process::id(), COUNT.fetch_add(1, Relaxed));
        let folder = std::env::temp_dir().join(format!("hunkravy-{name}"));
        let _ = fs::remove_dir_all(&folder);
        fs::create_dir(&folder).unwrap();
        Folder(folder)
    }

    /// A folder with a file that has these contents.
    pub fn with(text: &[u8]) -> Self {
        let folder = Self::new();
        folder.create().unwrap().write(text, 0).unwrap();
        folder
    }

    pub fn path(&self, name: &str) -> PathBuf {
        self.0.join(name)
    }

    pub fn file(&self) -> PathBuf {
        self.path("file")
    }

    pub fn journal(&self) -> PathBuf {
        self.path("file.journal")
    }

    /// The names of the files in it.
    pub fn names(&self) -> Vec<String> {
        let files = fs::read_dir(&self.0).unwrap();
        let name = |file: io::Result<fs::DirEntry>| file.unwrap().file_name();
        let mut names: Vec<_> = files.map(|file| name(file).into_string().unwrap()).collect();
        names.sort();
        names
    }

    pub fn create(&self) -> Result<Raf<Aegis256>> {
        Raf::create_file(self.file(), &KEY)
    }

    /// Creates the file, in place of one that may be there.
    pub fn create_over(&self) -> Result<Raf<Aegis256>> {
        over().create_file(self.file(), &KEY)
    }

    pub fn open(&self) -> Result<Raf<Aegis256>> {
        Raf::open_file(self.file(), &KEY)
    }

    pub fn text(&self) -> Vec<u8> {
        text_of(&mut self.open().unwrap())
    }
}

impl Drop for Folder {
    fn drop(&mut self) {
        let _ = fs::remove_dir_all(&self.0);
    }
}

/// A builder that creates files in place of others.
pub fn over() -> RafBuilder<Aegis256> {
    RafBuilder::new().truncate(true)
}

// ---- Users, names and locks

/// Which journals are trusted, and which names and locks accepted, in each language.
pub const TABLE: &str = include_str!("../../../testkit/owners.txt");

/// Returns the words of each row of this kind.
pub fn rows(kind: &str) -> impl Iterator<Item = Vec<&'static str>> {
    let words = TABLE.lines().map(|line| line.split_whitespace().collect());
    words.filter(move |words: &Vec<_>| words.first() == Some(&kind))
}

/// Returns what a row says of a result.
pub fn word_of<T>(result: Result<T>) -> &'static str {
    match outcome(result).as_str() {
        "Ok" => "ok",
        "InvalidData" => "rejected",
        "Moved" => "moved",
        "Locked" => "locked",
        "Journal" => "wrong-journal",
        _ => "failed",
    }
}

pub fn is_root() -> bool {
    fs::metadata("/proc/self").unwrap().uid() == 0
}

pub fn allow(path: &Path, mode: u32) {
    fs::set_permissions(path, Permissions::from_mode(mode)).unwrap();
}

/// Runs a test once more with this variable, in a folder of this mode, from a copy of this program that any user may run.
pub fn run_as_another_user(folder: &Folder, mode: u32, test: &str, variable: &str, path: &Path) {
    let program = folder.path("program");
    if !program.exists() {
        fs::copy(env::current_exe().unwrap(), &program).unwrap();
    }
    allow(&program, 0o755);
    let mut command = Command::new(program);
    command.args([test, "--exact"]).env(variable, path);
    if is_root() {
        command.uid(65_534).gid(65_534);
    }
    allow(&folder.path(""), mode);
    // A child that another test has just forked may still have the copy open, and then it cannot be started.
    let output = loop {
        match command.output() {
            Err(error) if error.kind() == io::ErrorKind::ExecutableFileBusy => thread::yield_now(),
            output => break output.unwrap(),
        }
    };
    allow(&folder.path(""), 0o755);
    let printed = String::from_utf8_lossy(&output.stdout);
    assert!(output.status.success() && printed.contains("1 passed"), "{mode:o} {printed}");
}
