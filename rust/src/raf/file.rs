//! A file of the system, and its journal beside it.

use super::io::{JournalChoice, NoJournal, RafIo};
use super::system::{O_NOFOLLOW, O_NONBLOCK, Process, forget, lock, take_room, unlock};
use super::{Error, Result};
use crate::exports::hunkravy_hold_descriptors;
use crate::memory::check_memory;
use std::ffi::{OsStr, OsString};
use std::fs::{self, File, Metadata, OpenOptions, Permissions};
use std::io;
use std::os::unix::ffi::OsStrExt;
use std::os::unix::fs::{FileExt, MetadataExt, OpenOptionsExt, PermissionsExt, fchown};
use std::path::{Path, PathBuf};

/// A file of the system. It is locked with `flock` while a [`Raf`](super::Raf) uses it. Its journal is beside it: [`JournalFile`].
///
/// A file that was opened through a path and has several names (hard links) is rejected, since each name would have a journal.
/// Any user who may read the file can lock it, and so keep all others out. It belongs to the process that opened it: after a fork
/// no other process can lock it. The first commit syncs the folder, which the user must be able to read.
#[derive(Debug)]
pub struct FileIo {
    file: File,
    /// With no links in it.
    path: Option<PathBuf>,
    is_name_synced: bool,
    /// The process that opened it: a copy of the descriptor in another shares its lock.
    owner: Option<Process>,
    is_locked: bool,
    stage: Stage,
}

/// How far a file was made for its [`FileIo`]: it is complete or was there before, or it is new, or its header was begun.
/// Dropping removes one of the last two.
#[derive(Clone, Copy, Debug, PartialEq)]
enum Stage {
    Complete,
    New,
    Begun,
}

impl FileIo {
    /// Returns the storage of a file that is open for reading and writing, and not for appending: Linux appends all writes to such
    /// a file.
    ///
    /// The path is not known. So there is no journal unless [`RafBuilder::journal`](super::RafBuilder::journal) sets one, and a
    /// commit that was interrupted is not completed. The name of a new file is not synced. A copy of the descriptor, such as
    /// from [`File::try_clone`], shares the lock: do not open a second [`Raf`](super::Raf) on it.
    #[must_use]
    pub fn new(file: File) -> Self {
        Self::of(file, None, Process::this().ok())
    }

    fn of(file: File, path: Option<PathBuf>, owner: Option<Process>) -> Self {
        FileIo { file, is_name_synced: path.is_none(), path, owner, is_locked: false, stage: Stage::Complete }
    }

    /// Opens the file at a path, and creates it if there is none. Its contents are kept.
    ///
    /// # Errors
    ///
    /// [`Error::Io`]: the system's, or memory ran out.
    pub fn create(path: impl AsRef<Path>) -> Result<Self> {
        Self::with(File::options().create(true), path.as_ref())
    }

    /// Opens the file at a path.
    ///
    /// # Errors
    ///
    /// Those of [`create`](Self::create).
    pub fn open(path: impl AsRef<Path>) -> Result<Self> {
        Self::with(&mut File::options(), path.as_ref())
    }

    /// Makes a file at a path where there is none, and removes it again unless it becomes one of this format.
    pub(super) fn create_new(path: &Path) -> Result<Self> {
        let mut made = Self::with(File::options().create_new(true), path)?;
        made.stage = Stage::New;
        Ok(made)
    }

    fn with(options: &mut OpenOptions, path: &Path) -> Result<Self> {
        check_memory()?;
        // Another thread may change the working folder.
        let path = &std::path::absolute(path)?;
        // What may fail comes before: an error leaves no new file.
        let (owner, resolved) = (Process::this()?, resolved(path)?);
        Ok(Self::of(open(options, path)?, Some(resolved), Some(owner)))
    }

    /// Returns whether this process has opened it.
    fn is_here(&self) -> bool {
        self.owner.is_some_and(Process::is_this)
    }

    /// Returns [`Error::Moved`] unless the file is the one at its path, and has no other name.
    fn check_name(&self) -> Result<()> {
        let Some(path) = &self.path else {
            return Ok(());
        };
        let (own, found) = (self.file.metadata()?, found_at(path)?);
        match found {
            Some(found) if own.nlink() == 1 && is_same(&found, &own) => Ok(()),
            _ => Err(Error::Moved),
        }
    }
}

impl RafIo for FileIo {
    fn read_at(&mut self, buf: &mut [u8], offset: u64) -> io::Result<()> {
        self.file.read_exact_at(buf, offset)
    }

    fn write_at(&mut self, data: &[u8], offset: u64) -> io::Result<()> {
        if self.stage == Stage::New {
            self.stage = Stage::Begun;
        }
        self.file.write_all_at(data, offset)
    }

    fn get_size(&mut self) -> io::Result<u64> {
        Ok(self.file.metadata()?.len())
    }

    fn set_size(&mut self, size: u64) -> io::Result<()> {
        self.file.set_len(size)
    }

    /// If the file system cannot make room without writing, zeros are written and synced. After an error the file has its old
    /// size.
    fn reserve(&mut self, from: u64, end: u64) -> io::Result<()> {
        let size = self.get_size()?;
        let reserved = match take_room(&self.file, from, end) {
            Ok(false) => write_zeros(&self.file, from, end),
            other => other.map(drop),
        };
        if reserved.is_err() {
            let _ = self.file.set_len(size);
        }
        reserved
    }

    fn sync(&mut self) -> io::Result<()> {
        self.file.sync_all()
    }

    fn forget(&mut self) -> io::Result<()> {
        forget(&self.file)
    }

    fn lock(&mut self) -> Result<()> {
        if !self.is_here() {
            return Err(Error::Locked);
        }
        if let Err(error) = lock(&self.file) {
            if let Error::Locked = error {
                // Another program has the file, which is then no new one.
                self.stage = Stage::Complete;
            }
            return Err(error);
        }
        self.is_locked = true;
        self.check_name()
    }

    fn journal_path(&self) -> Option<PathBuf> {
        self.path.as_deref().map(with_journal)
    }

    fn check_path(&mut self) -> Result<()> {
        self.check_name()?;
        if let (Some(path), false) = (&self.path, self.is_name_synced) {
            sync_folder(path)?;
            self.is_name_synced = true;
        }
        self.stage = Stage::Complete;
        Ok(())
    }
}

/// Removes a file that was not finished. Unlocks the file in the process that has locked it, even if another descriptor of it is
/// open, such as in a process that is being started.
impl Drop for FileIo {
    fn drop(&mut self) {
        if !self.is_here() {
            return;
        }
        let is_own = match self.stage {
            Stage::Complete => false,
            // Another program may have written to it, even if it is locked.
            Stage::New => self.file.metadata().is_ok_and(|found| is_empty(&found)),
            Stage::Begun => true,
        };
        if let (Some(path), true) = (&self.path, is_own && self.check_name().is_ok()) {
            let _ = fs::remove_file(path);
        }
        if self.is_locked {
            let _ = unlock(&self.file);
        }
    }
}

/// Writes zeros, and syncs them: until then a file system may put off finding room.
fn write_zeros(file: &File, from: u64, end: u64) -> io::Result<()> {
    const ZEROS: &[u8] = &[0; 65_536];
    let mut place = from;
    while place < end {
        let count = ZEROS.len().min((end - place) as usize);
        file.write_all_at(&ZEROS[..count], place)?;
        place += count as u64;
    }
    file.sync_data()
}

/// The journal of a file at a path: a file beside it, with `.journal` after its name. It exists only while a commit is written,
/// and after a commit that was interrupted. Symbolic links are followed, so a file has the same journal through all of them. A
/// commit needs a folder that the user may read and write.
///
/// The journal gets the owner and the group of the file, where the system allows it, and its permissions to read and write. So
/// the users who may read and write the file and its folder can complete a commit that was interrupted. Exceptions:
///
/// - The owner of the journal may always read and write it.
/// - All others get no permission that the group lacks. They may be unable to complete a commit, or to commit.
/// - If the owner or the group cannot be set, the users of the file may have to wait until the maker of the journal or root opens
///   the file. So may those of a file in a folder with the sticky bit.
/// - ACLs, and users and groups that a user namespace hides, are not checked. Users who may write the journal through them can make
///   a crash leave some of the changes of a commit.
///
/// A journal that is a link or not a file, or has several names (hard links), is rejected with
/// [`io::ErrorKind::InvalidData`], and nothing is changed, unless it appears after an interrupted commit was completed. So is one
/// that a user may write who may not write the file, by owner, group and mode. The owner of a file counts as a member of its
/// group.
///
/// Before a commit is completed, a synced copy, `PATH.jrncopy`, is renamed over the journal. This needs room: on a full disk the file
/// does not open until there is some, and nothing is lost.
///
/// A journal of up to 512 bytes may be the rest of one after a crash. Opening removes it, and a commit removes an empty one. If an
/// empty one cannot be removed, a commit fails with the changes still in memory. If it cannot be opened either, opening fails.
///
/// Without a path, such as for a storage in memory, it is the same as [`NoJournal`].
#[derive(Debug)]
pub struct JournalFile {
    path: Option<PathBuf>,
    file: Option<File>,
    is_name_synced: bool,
}

impl JournalFile {
    /// The journal of a file at a path, of which there need not be one yet.
    pub(super) fn beside(path: &Path) -> io::Result<Self> {
        check_memory()?;
        Ok(Self::at(Some(with_journal(&resolved(path)?))))
    }

    fn at(path: Option<PathBuf>) -> Self {
        JournalFile { path, file: None, is_name_synced: false }
    }

    /// Returns an error unless the journal is open and has this path. Writing and syncing it took a while, and another program may
    /// have put its own there.
    fn check_name(&self, path: &Path) -> io::Result<()> {
        self.file.as_ref().map_or_else(|| Err(no_journal()), |file| check_has_path(file, path))
    }

    /// Opens the file, or returns `None` if there is none and none is to be made.
    fn open(&mut self, create: bool) -> io::Result<Option<&mut File>> {
        if let (Some(path), None) = (&self.path, &self.file) {
            if create && empty_at(path)?.is_some() {
                // Its owner could write it.
                fs::remove_file(path)?;
            }
            self.file = match journal_at(path)? {
                Some(found) => Some(open_same(path, &found)?),
                None if create => Some(new_journal(path)?),
                None => None,
            };
        }
        Ok(self.file.as_mut())
    }
}

/// Opens a file with these options. It never has one of the three standard descriptors: messages are written there.
fn open(options: &mut OpenOptions, path: &Path) -> io::Result<File> {
    match hunkravy_hold_descriptors() {
        0 => options.read(true).write(true).open(path),
        code => Err(io::Error::from_raw_os_error(code)),
    }
}

/// Opens the file that was found at a path.
fn open_same(path: &Path, found: &Metadata) -> io::Result<File> {
    let file = open(File::options().custom_flags(O_NOFOLLOW | O_NONBLOCK), path)?;
    if is_same(&file.metadata()?, found) { Ok(file) } else { Err(no_journal()) }
}

/// Returns an error unless a file has this path.
fn check_has_path(file: &File, path: &Path) -> io::Result<()> {
    let own = file.metadata()?;
    match found_at(path)? {
        Some(found) if is_same(&own, &found) => Ok(()),
        _ => Err(no_journal()),
    }
}

/// Returns what is at the path of a journal, if it has any bytes. An error if it is not a file, or has other names too,
/// or that someone may write who may not write the file of the journal. A crash may have left an empty one before it got its
/// owner and its mode, so it counts as none.
fn journal_at(path: &Path) -> io::Result<Option<Metadata>> {
    match found_at(path)? {
        Some(found) if !is_empty(&found) => {
            let of = found_at(file_of(path))?;
            let is_safe = of.is_none_or(|of| is_as_safe(&found, &of));
            let is_journal = found.is_file() && found.nlink() == 1 && is_safe;
            is_journal.then_some(Some(found)).ok_or_else(no_journal)
        }
        _ => Ok(None),
    }
}

/// Returns what is at the path of a journal, if it is an empty file.
fn empty_at(path: &Path) -> io::Result<Option<Metadata>> {
    Ok(found_at(path)?.filter(is_empty))
}

/// Opens the empty journal that was found and empties it once more: after a sync that failed the disk may have all of its bytes.
/// Removes one that cannot be opened.
fn emptied(path: &Path, found: &Metadata) -> io::Result<Option<File>> {
    let Ok(file) = open_same(path, found) else {
        // Another file may have its name by now.
        if empty_at(path)?.is_some() {
            fs::remove_file(path)?;
        }
        return sync_folder(path).map(|()| None);
    };
    file.set_len(0)?;
    Ok(Some(file))
}

fn is_empty(found: &Metadata) -> bool {
    found.is_file() && found.nlink() == 1 && found.len() == 0
}

/// The path of the file that a journal is of: without its last extension. No memory is taken.
fn file_of(journal: &Path) -> &Path {
    let extension = journal.extension().map_or(0, |name| 1 + name.len());
    let bytes = journal.as_os_str().as_bytes();
    Path::new(OsStr::from_bytes(&bytes[..bytes.len() - extension]))
}

const OWNER: u32 = 0o600;
const GROUP: u32 = 0o060;
const OTHERS: u32 = 0o006;
const GROUP_WRITES: u32 = 0o020;
const OTHERS_WRITE: u32 = 0o002;

/// The rights that all others have on a file of this mode, as far as its group has them too: whoever is in the group is not one
/// of the others.
fn others(of: u32) -> u32 {
    of & (of >> 3) & OTHERS
}

/// Returns whether each user who may write a journal may write its file too, by their owners, groups and modes. The owner of a
/// file counts as a member of its group.
fn is_as_safe(journal: &Metadata, of: &Metadata) -> bool {
    let is_groups = journal.gid() == of.gid();
    let group_may = is_groups && of.mode() & GROUP_WRITES != 0;
    let others_may = others(of.mode()) & OTHERS_WRITE != 0;
    (journal.uid() == of.uid() || journal.uid() == 0 || group_may || others_may)
        && (journal.mode() & GROUP_WRITES == 0 || group_may || others_may)
        && (journal.mode() & OTHERS_WRITE == 0 || others_may)
}

/// Creates a journal, and follows no link. It gets the owner, the group and the permissions of the file, as far as the system
/// allows, so that each user who may write the file may complete its commit.
fn new_journal(path: &Path) -> io::Result<File> {
    // What may fail comes before: an error leaves no new file.
    let of = found_at(file_of(path))?;
    let file = open(File::options().create_new(true).mode(OWNER), path)?;
    let Some(of) = of else {
        return Ok(file);
    };
    if fchown(&file, Some(of.uid()), Some(of.gid())).is_err() {
        let _ = fchown(&file, None, Some(of.gid()));
    }
    let mode = mode_beside(of.mode(), file.metadata()?.gid() == of.gid());
    let _ = file.set_permissions(Permissions::from_mode(mode));
    if !is_as_safe(&file.metadata()?, &of) {
        let _ = fs::remove_file(path);
        return Err(no_journal());
    }
    Ok(file)
}

/// The mode of the journal of a file of this mode. A journal in another group gives its group the rights of all others.
fn mode_beside(of: u32, is_of_its_group: bool) -> u32 {
    let group = if is_of_its_group { of & GROUP } else { others(of) << 3 };
    OWNER | group | others(of)
}

fn no_journal() -> io::Error {
    io::Error::new(
        io::ErrorKind::InvalidData,
        "the journal is rejected: it is not a regular file, has several names, is writable by other users, or was exchanged",
    )
}

/// Returns what is at a path, which is not followed if it is a link, or `None` if there is nothing.
fn found_at(path: &Path) -> io::Result<Option<Metadata>> {
    match fs::symlink_metadata(path) {
        Ok(found) => Ok(Some(found)),
        Err(error) if error.kind() == io::ErrorKind::NotFound => Ok(None),
        Err(error) => Err(error),
    }
}

/// Returns whether two names are of one file.
fn is_same(one: &Metadata, other: &Metadata) -> bool {
    (one.dev(), one.ino()) == (other.dev(), other.ino())
}

/// Returns the path of the journal of the file at a path that has no links in it.
fn with_journal(path: &Path) -> PathBuf {
    let mut name = OsString::from(path);
    name.push(".journal");
    name.into()
}

/// The path of a file with no links in it. There need not be such a file yet.
fn resolved(path: &Path) -> io::Result<PathBuf> {
    match (path.canonicalize(), path.file_name()) {
        (Err(error), Some(name)) if error.kind() == io::ErrorKind::NotFound => {
            let folder = folder_of(path).canonicalize()?;
            match fs::read_link(path) {
                Ok(target) => resolved(&folder.join(target)),
                Err(_) => Ok(folder.join(name)),
            }
        }
        (found, _) => found,
    }
}

/// The folder that a file is in.
fn folder_of(path: &Path) -> &Path {
    match path.parent() {
        Some(folder) if folder != Path::new("") => folder,
        _ => Path::new("."),
    }
}

/// Returns once the name of a file outlasts a loss of power.
fn sync_folder(path: &Path) -> io::Result<()> {
    File::open(folder_of(path))?.sync_all()
}

impl RafIo for JournalFile {
    fn read_at(&mut self, buf: &mut [u8], offset: u64) -> io::Result<()> {
        match self.open(false)? {
            Some(file) => file.read_exact_at(buf, offset),
            None => NoJournal.read_at(buf, offset),
        }
    }

    fn write_at(&mut self, data: &[u8], offset: u64) -> io::Result<()> {
        let file = self.open(true)?;
        file.map_or(Ok(()), |file| file.write_all_at(data, offset))
    }

    fn get_size(&mut self) -> io::Result<u64> {
        match (&self.path, &self.file) {
            (Some(path), None) => Ok(journal_at(path)?.map_or(0, |found| found.len())),
            (_, Some(file)) => Ok(file.metadata()?.len()),
            (None, None) => Ok(0),
        }
    }

    /// Truncates no file that was not opened before.
    fn set_size(&mut self, size: u64) -> io::Result<()> {
        if self.file.is_none() && size == 0 {
            return Ok(());
        }
        let file = self.open(true)?;
        file.map_or(Ok(()), |file| file.set_len(size))
    }

    fn forget(&mut self) -> io::Result<()> {
        let file = self.open(false)?;
        file.map_or(Ok(()), |file| forget(file))
    }

    fn keeps_bytes(&self) -> bool {
        self.path.is_some()
    }

    /// Renames a copy over the journal, which has the same owner, group and mode.
    fn replace(&mut self, bytes: &[u8]) -> io::Result<()> {
        let Some(path) = &self.path else {
            return Ok(());
        };
        check_memory()?;
        let copy = path.with_extension("jrncopy");
        let _ = fs::remove_file(&copy);
        let made = new_journal(&copy)?;
        let synced = made.write_all_at(bytes, 0).and_then(|()| made.sync_all());
        let checked = synced.and_then(|()| check_has_path(&made, &copy)).and_then(|()| self.check_name(path));
        if let Err(error) = checked.and_then(|()| fs::rename(&copy, path)) {
            // In a sticky folder it would keep out other users who may replace the journal.
            let _ = fs::remove_file(&copy);
            return Err(error);
        }
        self.file = Some(made);
        sync_folder(path)?;
        self.is_name_synced = true;
        Ok(())
    }

    /// Makes the journal, which is empty unless another file has its name. An error if there can be none, or its name cannot be
    /// synced.
    fn check_path(&mut self) -> Result<()> {
        if let Some(path) = &self.path {
            File::open(folder_of(path))?;
        }
        // What an earlier try has opened may have been another file, which is gone.
        self.file = None;
        self.open(true)?;
        Ok(())
    }

    /// Syncs the file and its name. If it is empty it is then removed, and so is an empty one that was left, if it can be.
    fn sync(&mut self) -> io::Result<()> {
        let Some(path) = &self.path else {
            return Ok(());
        };
        if let (None, Some(found)) = (&self.file, empty_at(path)?) {
            self.file = emptied(path, &found)?;
        }
        let Some(file) = &self.file else {
            return Ok(());
        };
        file.sync_all()?;
        let own = file.metadata()?;
        if own.len() == 0 {
            if matches!(found_at(path), Ok(Some(found)) if is_same(&found, &own)) {
                let _ = fs::remove_file(path);
            }
            self.file = None;
            self.is_name_synced = false;
            return Ok(());
        }
        if !self.is_name_synced {
            sync_folder(path)?;
            self.is_name_synced = true;
        }
        self.check_name(path)
    }
}

/// The journal beside the file, if there is a file of the system.
#[derive(Clone, Copy, Debug)]
pub struct Beside;

impl JournalChoice for Beside {
    type Journal = JournalFile;

    fn of(self, io: &impl RafIo) -> JournalFile {
        JournalFile::at(io.journal_path())
    }
}

#[cfg(test)]
pub mod tests {
    use super::*;
    use alloc::{format, vec};
    use std::os::unix::fs::symlink;

    /// The paths of a file and of its journal, where nothing is left.
    pub struct Paths(pub PathBuf, pub PathBuf);

    impl Paths {
        pub fn new(name: &str) -> Self {
            let path = std::env::temp_dir().join(format!("hunkravy-{name}-{}", std::process::id()));
            let journal = with_journal(&path);
            Paths(path, journal)
        }
    }

    impl Drop for Paths {
        fn drop(&mut self) {
            let _ = fs::remove_file(&self.0);
            let _ = fs::remove_file(&self.1);
        }
    }

    /// A new file in which another program has written, before it was locked or after that, is not removed.
    #[test]
    fn a_new_file_of_another_program() {
        for is_locked in [true, false] {
            let Paths(path, _) = &Paths::new("taken");
            let mut io = FileIo::create_new(path).unwrap();
            if is_locked {
                io.lock().unwrap();
            }
            fs::write(path, b"precious").unwrap();
            drop(io);
            assert_eq!(fs::read(path).unwrap(), b"precious");
        }
        let Paths(path, _) = &Paths::new("taken");
        drop(FileIo::create_new(path).unwrap());
        assert!(!path.exists());
    }

    /// A file that is made through a link is known by its own path.
    #[test]
    fn a_new_file_through_a_link() {
        let (Paths(path, _), Paths(link, _)) = (&Paths::new("led-to"), &Paths::new("link"));
        symlink(path, link).unwrap();
        let mut io = FileIo::create(link).unwrap();
        io.lock().unwrap();
        assert_eq!(io.journal_path(), Some(with_journal(&path.canonicalize().unwrap())));
    }

    /// A new journal is for its owner alone until it has the mode of its file. It takes no other file and follows no link. Opening
    /// rejects any other file than was found.
    #[test]
    fn new_journals() {
        let Paths(path, at) = &Paths::new("new");
        let made = new_journal(at).unwrap().metadata().unwrap();
        // There is no file whose mode it gets.
        assert_eq!(made.mode() & 0o777, 0o600);
        assert!(new_journal(at).is_err());
        fs::write(path, "another").unwrap();
        let found = fs::symlink_metadata(at).unwrap();
        assert!(open_same(at, &found).is_ok() && open_same(path, &found).is_err());
        fs::remove_file(at).unwrap();
        fs::remove_file(path).unwrap();
        symlink(path, at).unwrap();
        assert!(new_journal(at).is_err() && !path.exists());
    }

    /// Zeros are written in the place of room that a file system cannot take, and nowhere else.
    #[test]
    fn zeros_for_room() {
        let Paths(path, _) = &Paths::new("zeros");
        for (from, end) in [(100, 200_000), (300, 301), (5, 5), (65_536, 131_072)] {
            fs::write(path, [7; 300]).unwrap();
            write_zeros(&open(&mut File::options(), path).unwrap(), from, end).unwrap();
            let mut expected = vec![7; 300];
            if from < end {
                expected.truncate(from as usize);
                expected.resize(end as usize, 0);
            }
            assert!(fs::read(path).unwrap() == expected, "{from} {end}");
        }
    }

    /// An empty journal that cannot be opened is removed, and another file that has its name by then is not.
    #[test]
    fn journals_that_are_emptied_once_more() {
        let (Paths(path, at), Paths(other, _)) = (&Paths::new("again"), &Paths::new("other"));
        fs::write(at, []).unwrap();
        let found = fs::symlink_metadata(at).unwrap();
        // While it is open no other file gets its number.
        let opened = emptied(at, &found).unwrap();
        assert!(opened.is_some());
        fs::write(other, "another").unwrap();
        fs::rename(other, at).unwrap();
        assert!(emptied(at, &found).unwrap().is_none());
        assert_eq!(fs::read(at).unwrap(), b"another");
        fs::write(path, []).unwrap();
        fs::rename(path, at).unwrap();
        assert!(emptied(at, &found).unwrap().is_none() && !at.exists());
    }

    /// A journal that has lost its name is not synced, and a copy takes the name of no other journal than was opened.
    #[test]
    fn exchanged_journals() {
        let Paths(_, at) = &Paths::new("exchanged");
        let mut journal = JournalFile::at(Some(at.clone()));
        fs::write(at, [1; 600]).unwrap();
        journal.forget().unwrap();
        journal.replace(&[2; 600]).unwrap();
        assert_eq!(fs::read(at).unwrap(), [2; 600]);
        fs::remove_file(at).unwrap();
        fs::write(at, "another").unwrap();
        assert!(journal.sync().is_err() && journal.replace(&[3; 600]).is_err());
        assert_eq!(fs::read(at).unwrap(), b"another");
        assert!(!at.with_extension("jrncopy").exists());
    }

    /// A journal that was emptied is removed, and another file that has its name by then is not.
    #[test]
    fn emptied_journals() {
        let Paths(_, at) = &Paths::new("empty");
        let mut journal = JournalFile::at(Some(at.clone()));
        for is_replaced in [false, true] {
            journal.check_path().unwrap();
            if is_replaced {
                fs::remove_file(at).unwrap();
                fs::write(at, "another").unwrap();
            }
            journal.sync().unwrap();
            assert_eq!(at.exists(), is_replaced);
        }
        assert_eq!(fs::read(at).unwrap(), b"another");
    }
}
