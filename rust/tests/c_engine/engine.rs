//! The engine of the C library in the place of that of `raf`, over storages in Rust. With `--cfg c_engine` the tests of `raf` run
//! over it.

use super::layout::is_chunk_size;
use super::{Algorithm, Error, RafBuilder, RafIo, RafRng, Result};
use alloc::boxed::Box;
use core::any::Any;
use core::ffi::{c_int, c_void};
use core::marker::PhantomData;
use core::panic::AssertUnwindSafe;
use core::{ptr, slice};
use std::io::{self, ErrorKind};
use std::panic::{catch_unwind, resume_unwind};

const EIO: c_int = 5;
const ENOSPC: c_int = 28;
const DAMAGED_PAGE: c_int = -17;

/// An open file of the library.
#[repr(C)]
struct RawFile([u8; 0]);

type Context = *mut c_void;

type Opened<'f> = &'f mut *mut RawFile;

// SAFETY: they are declared as in `hunkravy_file.h`.
#[rustfmt::skip]
unsafe extern "C" {
    fn hunkravy_file_create_in(file: Opened, storage: &Storage, variant: u32, k: *const u8, klen: usize, page_size: u32) -> c_int;
    fn hunkravy_file_open_in(file: Opened, storage: &Storage, variant: u32, k: *const u8, klen: usize) -> c_int;
    fn hunkravy_file_close(file: *mut RawFile) -> c_int;
    fn hunkravy_file_read(file: &mut RawFile, offset: u64, out: *mut u8, outlen: usize, readlen: &mut usize) -> c_int;
    fn hunkravy_file_write(file: &mut RawFile, offset: u64, data: *const u8, datalen: usize) -> c_int;
    safe fn hunkravy_file_size(file: &RawFile) -> u64;
    safe fn hunkravy_file_truncate(file: &mut RawFile, size: u64) -> c_int;
    safe fn hunkravy_file_commit(file: &mut RawFile) -> c_int;
    safe fn hunkravy_file_discard(file: &mut RawFile);
    safe fn hunkravy_file_begin(file: &mut RawFile, batch: &mut u64) -> c_int;
    safe fn hunkravy_file_end(file: &mut RawFile, batch: u64) -> c_int;
    safe fn hunkravy_file_undo(file: &mut RawFile, batch: u64);
    safe fn hunkravy_file_set_limit(file: &mut RawFile, limit: u64);
    safe fn hunkravy_file_commitment(file: &mut RawFile, mac: &mut [u8; 32]) -> c_int;
    safe fn hunkravy_file_check(file: &RawFile) -> c_int;
    safe fn hunkravy_file_damaged_page(file: &RawFile) -> u64;
}

/// What the functions of a storage work on, and the error or the panic of the last one that failed.
struct Parts<I, R, J> {
    io: I,
    journal: J,
    rng: R,
    is_truncated: bool,
    error: Option<Error>,
    panic: Option<Box<dyn Any + Send>>,
}

fn bytes_at<'b>(bytes: *mut u8, length: usize) -> &'b mut [u8] {
    // SAFETY: the library passes memory of this length, which nothing else uses, and which is written first.
    unsafe {
        bytes.write_bytes(0, length);
        slice::from_raw_parts_mut(bytes, length)
    }
}

fn data_at<'b>(data: *const u8, length: usize) -> &'b [u8] {
    // SAFETY: the library passes memory of this length.
    unsafe { slice::from_raw_parts(data, length) }
}

impl<I: RafIo, R: RafRng, J: RafIo> Parts<I, R, J> {
    fn call(context: Context, body: impl FnOnce(&mut Self) -> Result<()>) -> c_int {
        // SAFETY: the library passes its context, which nothing else uses.
        let this = unsafe { &mut *context.cast::<Self>() };
        let result = catch_unwind(AssertUnwindSafe(|| body(this)));
        let code = match &result {
            Ok(Ok(())) => 0,
            Ok(Err(Error::Io(error))) => match error.kind() {
                ErrorKind::UnexpectedEof => DAMAGED_PAGE,
                ErrorKind::StorageFull => ENOSPC,
                _ => EIO,
            },
            _ => EIO,
        };
        match result {
            Ok(result) => this.error = result.err(),
            Err(panic) => this.panic = Some(panic),
        }
        code
    }

    fn part(&mut self, part: c_int) -> &mut dyn RafIo {
        match part {
            0 => &mut self.io,
            _ => &mut self.journal,
        }
    }

    /// The library creates files in empty storages alone.
    fn lock_both(&mut self) -> Result<()> {
        self.io.lock()?;
        self.journal.lock()?;
        if self.is_truncated && self.journal.get_size()? == 0 {
            self.io.set_size(0)?;
        }
        Ok(())
    }

    fn make_room(&mut self, from: u64, end: u64) -> Result<()> {
        if end > from {
            self.io.reserve(from, end)?;
        }
        self.journal.check_path()
    }
}

/// Defines `struct hunkravy_storage`, and each of its functions over the parts.
macro_rules! storage {
    ($($name:ident($($argument:ident: $type:ty),*) |$parts:ident| $body:expr;)*) => {
        #[repr(C)]
        struct Storage {
            context: Context,
            $($name: extern "C" fn(Context $(, $type)*) -> c_int,)*
            close: Option<extern "C" fn(Context)>,
        }

        impl<I: RafIo, R: RafRng, J: RafIo> Parts<I, R, J> {
            $(extern "C" fn $name(context: Context $(, $argument: $type)*) -> c_int {
                Self::call(context, |$parts| {
                    $body;
                    Ok(())
                })
            })*

            fn storage(&mut self) -> Storage {
                let context = ptr::from_mut(self).cast();
                Storage { context, $($name: Self::$name,)* close: None }
            }
        }
    };
}

storage! {
    read(part: c_int, place: u64, bytes: *mut u8, len: usize) |p| p.part(part).read_at(bytes_at(bytes, len), place)?;
    write(part: c_int, place: u64, data: *const u8, len: usize) |p| p.part(part).write_at(data_at(data, len), place)?;
    size(part: c_int, size: &mut u64) |p| *size = p.part(part).get_size()?;
    resize(part: c_int, size: u64) |p| p.part(part).set_size(size)?;
    sync(part: c_int) |p| p.part(part).sync()?;
    replace(data: *const u8, len: usize) |p| p.journal.replace(data_at(data, len))?;
    forget(part: c_int) |p| p.part(part).forget()?;
    lock() |p| p.lock_both()?;
    check() |p| p.io.check_path()?;
    reserve(from: u64, end: u64) |p| p.make_room(from, end)?;
    random(bytes: *mut u8, len: usize) |p| p.rng.fill(bytes_at(bytes, len))?;
}

pub struct Engine<A: Algorithm, I: RafIo, R: RafRng, J: RafIo> {
    file: *mut RawFile,
    parts: Box<Parts<I, R, J>>,
    /// How many batches are open.
    depth: u64,
    algorithm: PhantomData<A>,
}

// SAFETY: the library uses a file from any thread, one at a time.
unsafe impl<A: Algorithm, I: RafIo, R: RafRng, J: RafIo> Send for Engine<A, I, R, J> {}

/// The number of a batch, and how many others it is in.
pub struct Savepoint(u64, u64);

/// The library generates what a new file needs.
pub type Draws<A> = PhantomData<A>;

pub fn draw<A: Algorithm>(_rng: &mut impl RafRng, chunk_size: u32) -> Result<Draws<A>> {
    match is_chunk_size(chunk_size) {
        true => Ok(PhantomData),
        false => Err(Error::ChunkSize),
    }
}

/// The MAC of a commitment.
pub struct Commitment([u8; 32]);

impl Commitment {
    pub fn finalize(self) -> [u8; 32] {
        self.0
    }

    pub fn verify(self, expected: &[u8; 32]) -> core::result::Result<(), ()> {
        (self.0 == *expected).then_some(()).ok_or(())
    }
}

impl<A: Algorithm, I: RafIo, R: RafRng, J: RafIo> Engine<A, I, R, J> {
    pub fn create(io: I, key: &A::Key, of: RafBuilder<A, R, J>, _: Draws<A>) -> Result<Self> {
        Self::begin(io, key, of, true)
    }

    pub fn open(io: I, key: &A::Key, of: RafBuilder<A, R, J>) -> Result<Self> {
        Self::begin(io, key, of, false)
    }

    fn begin(io: I, key: &A::Key, of: RafBuilder<A, R, J>, is_new: bool) -> Result<Self> {
        let mut parts = Box::new(Parts {
            io,
            journal: of.journal,
            rng: of.rng,
            is_truncated: is_new && of.truncate,
            error: None,
            panic: None,
        });
        let (mut file, storage, key) = (ptr::null_mut(), parts.storage(), key.as_ref());
        let (number, k, klen) = (A::NUMBER, key.as_ptr(), key.len());
        // SAFETY: the key has this many bytes, and the parts live as long as the file.
        let code = unsafe {
            match is_new {
                true => hunkravy_file_create_in(&mut file, &storage, number, k, klen, of.chunk_size),
                false => hunkravy_file_open_in(&mut file, &storage, number, k, klen),
            }
        };
        let mut engine = Engine { file, parts, depth: 0, algorithm: PhantomData };
        engine.result(code)?;
        hunkravy_file_set_limit(engine.raw(), of.buffer_limit as u64);
        Ok(engine)
    }

    fn raw(&mut self) -> &mut RawFile {
        // SAFETY: it is an open file, which is borrowed exclusively.
        unsafe { &mut *self.file }
    }

    fn shared(&self) -> &RawFile {
        // SAFETY: it is an open file.
        unsafe { &*self.file }
    }

    /// The result of a function of the library. Goes on with a panic in the storage.
    fn result(&mut self, code: c_int) -> Result<()> {
        if let Some(panic) = self.parts.panic.take() {
            resume_unwind(panic);
        }
        match (code, self.parts.error.take()) {
            (0, _) => Ok(()),
            (_, Some(error)) => Err(error),
            _ => Err(self.error_of(code)),
        }
    }

    fn error_of(&self, code: c_int) -> Error {
        match code {
            -13 => Error::TooLong,
            -15 => Error::Journal,
            -16 => Error::Header,
            DAMAGED_PAGE => Error::Damaged(hunkravy_file_damaged_page(self.shared())),
            -18 => Error::Locked,
            -19 => Error::Moved,
            -20 => Error::Broken,
            // The source of random bytes has returned the reserved nonce.
            EIO => Error::Io(ErrorKind::InvalidData.into()),
            code => Error::Io(io::Error::from_raw_os_error(code)),
        }
    }

    pub fn check(&self) -> Result<()> {
        match hunkravy_file_check(self.shared()) {
            0 => Ok(()),
            code => Err(self.error_of(code)),
        }
    }

    pub fn size(&self) -> u64 {
        hunkravy_file_size(self.shared())
    }

    fn call(&mut self, call: impl FnOnce(&mut RawFile) -> c_int) -> Result<()> {
        let code = call(self.raw());
        self.result(code)
    }

    pub fn read(&mut self, buf: &mut [u8], offset: u64) -> Result<usize> {
        let (mut count, out, len) = (0, buf.as_mut_ptr(), buf.len());
        // SAFETY: the buffer has this many bytes.
        self.call(|file| unsafe { hunkravy_file_read(file, offset, out, len, &mut count) })?;
        Ok(count)
    }

    pub fn write(&mut self, data: &[u8], offset: u64) -> Result<()> {
        // SAFETY: there are this many bytes.
        self.call(|file| unsafe { hunkravy_file_write(file, offset, data.as_ptr(), data.len()) })
    }

    pub fn truncate(&mut self, size: u64) -> Result<()> {
        self.call(|file| hunkravy_file_truncate(file, size))
    }

    pub fn commit(&mut self) -> Result<()> {
        self.call(|file| hunkravy_file_commit(file))
    }

    pub fn close(&mut self) -> Result<()> {
        // SAFETY: nothing uses it afterwards.
        let code = unsafe { hunkravy_file_close(self.file) };
        self.file = ptr::null_mut();
        self.result(code)
    }

    pub fn discard(&mut self) {
        hunkravy_file_discard(self.raw());
    }

    pub fn begin_batch(&mut self) -> Result<Savepoint> {
        let mut number = 0;
        self.call(|file| hunkravy_file_begin(file, &mut number))?;
        self.depth += 1;
        Ok(Savepoint(number, self.depth - 1))
    }

    pub fn end_batch(&mut self, batch: &Savepoint) -> Result<()> {
        self.call(|file| hunkravy_file_end(file, batch.0))
    }

    /// It is called after the end of a batch too.
    pub fn undo_batch(&mut self, batch: &mut Savepoint) {
        hunkravy_file_undo(self.raw(), batch.0);
        self.depth = batch.1;
    }

    pub fn is_in_batch(&self) -> bool {
        self.depth > 0
    }

    pub fn commitment(&mut self) -> Result<Commitment> {
        let mut mac = [0; 32];
        self.call(|file| hunkravy_file_commitment(file, &mut mac))?;
        Ok(Commitment(mac))
    }
}

impl<A: Algorithm, I: RafIo, R: RafRng, J: RafIo> Drop for Engine<A, I, R, J> {
    fn drop(&mut self) {
        if std::thread::panicking() && !self.file.is_null() {
            self.discard();
        }
        // SAFETY: nothing uses it afterwards. A null pointer is no file.
        unsafe { hunkravy_file_close(self.file) };
    }
}
