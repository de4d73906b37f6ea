//! Calls of the system that the standard library lacks. `File::try_lock` needs Rust 1.89.

use super::{Error, Result};
use core::ffi::c_int;
use core::sync::atomic::{AtomicBool, AtomicU32, Ordering::SeqCst};
use std::fs::File;
use std::io::{self, ErrorKind};
use std::os::fd::AsRawFd;
use std::process;

const LOCK_EX: c_int = 2;
const LOCK_NB: c_int = 4;
const LOCK_UN: c_int = 8;

const POSIX_FADV_DONTNEED: c_int = 4;

/// No link is followed.
pub const O_NOFOLLOW: c_int = if cfg!(target_arch = "aarch64") { 0o100_000 } else { 0o400_000 };
/// Opening does not wait.
pub const O_NONBLOCK: c_int = 0o4_000;

/// The file system cannot do this, in Linux.
const EOPNOTSUPP: i32 = 95;

// SAFETY: they are declared as in `sys/file.h`, `fcntl.h` and `pthread.h` of glibc for 64 bits.
unsafe extern "C" {
    safe fn flock(descriptor: c_int, operation: c_int) -> c_int;
    safe fn fallocate(descriptor: c_int, mode: c_int, offset: i64, length: i64) -> c_int;
    safe fn posix_fadvise(descriptor: c_int, offset: i64, length: i64, advice: c_int) -> c_int;
    safe fn pthread_atfork(
        before: Option<extern "C" fn()>,
        in_parent: Option<extern "C" fn()>,
        in_child: Option<extern "C" fn()>,
    ) -> c_int;
}

/// Turns what a call has returned into a result.
fn result_of(returned: c_int) -> io::Result<()> {
    match returned {
        0 => Ok(()),
        _ => Err(io::Error::last_os_error()),
    }
}

/// Locks a file. [`Error::Locked`] if it is locked by another descriptor.
pub fn lock(file: &File) -> Result<()> {
    let locked = result_of(flock(file.as_raw_fd(), LOCK_EX | LOCK_NB));
    locked.map_err(|error| match error.kind() {
        ErrorKind::WouldBlock => Error::Locked,
        _ => Error::Io(error),
    })
}

/// Unlocks a file.
pub fn unlock(file: &File) -> io::Result<()> {
    result_of(flock(file.as_raw_fd(), LOCK_UN))
}

/// Takes room on the disk for the bytes from `from` to `end`. Returns whether the file system can. The file becomes as long.
///
/// It also returns false after a signal: an older tmpfs undoes what that interrupts, so another try might never be done.
pub fn take_room(file: &File, from: u64, end: u64) -> io::Result<bool> {
    let too_far = |_| io::Error::from(ErrorKind::InvalidInput);
    let offset = i64::try_from(from).map_err(too_far)?;
    let length = i64::try_from(end - from).map_err(too_far)?;
    match result_of(fallocate(file.as_raw_fd(), 0, offset, length)) {
        Ok(()) => Ok(true),
        Err(error) if error.raw_os_error() == Some(EOPNOTSUPP) || error.kind() == ErrorKind::Interrupted => Ok(false),
        Err(error) => Err(error),
    }
}

/// Syncs a file, and has the system forget what it keeps of it in memory. So reads return what the disk has, even if an earlier
/// sync has failed: Linux keeps bytes then that the disk does not have, and ext4 may not keep what is written over them.
pub fn forget(file: &File) -> io::Result<()> {
    file.sync_all()?;
    // It is advice: a file system that takes none has another memory, or none.
    let _ = posix_fadvise(file.as_raw_fd(), 0, 0, POSIX_FADV_DONTNEED);
    Ok(())
}

/// How many forks are between this process and the one that first opened a file, and whether they are counted.
static FORKS: AtomicU32 = AtomicU32::new(0);
static IS_COUNTED: AtomicBool = AtomicBool::new(false);

extern "C" fn count_fork() {
    FORKS.fetch_add(1, SeqCst);
}

/// A process.
#[derive(Clone, Copy, Debug, PartialEq, Eq)]
pub struct Process {
    id: u32,
    forks: u32,
}

impl Process {
    /// Returns this one.
    pub fn this() -> io::Result<Self> {
        // Two threads may both do so: then a fork counts twice.
        if !IS_COUNTED.load(SeqCst) {
            if pthread_atfork(None, None, Some(count_fork)) != 0 {
                return Err(ErrorKind::OutOfMemory.into());
            }
            IS_COUNTED.store(true, SeqCst);
        }
        Ok(Process { id: process::id(), forks: FORKS.load(SeqCst) })
    }

    /// Returns whether it is this one. The system is not asked, so a process that was made without `fork` of the C library counts
    /// as the one that made it.
    pub fn seems_this(self) -> bool {
        self.forks == FORKS.load(SeqCst)
    }

    /// Returns whether it is this one.
    pub fn is_this(self) -> bool {
        self.seems_this() && self.id == process::id()
    }
}
