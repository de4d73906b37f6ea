//! The functions of `libhunkravy.a` as safe functions over slices. The headers in `c/include` have what each does, and its errors.
//!
//! The library checks each length, and borrowing ensures everything else.
#![cfg_attr(not(feature = "raf-core"), allow(dead_code))]

use core::marker::PhantomData;

/// The value of each byte of an in-place buffer after authentication fails: 0xaa.
pub const ERASED: u8 = 0xaa;

/// An error of the library: its code. These are the codes that callers tell apart.
#[derive(Clone, Copy, Debug, PartialEq, Eq)]
pub struct Refusal(pub i32);

impl Refusal {
    pub const INVALID_TAG: Self = Self(-1);
    pub const MESSAGE_TOO_LONG: Self = Self(-4);
    pub const DATA_TOO_LONG: Self = Self(-5);
    pub const WRONG_STATE: Self = Self(-7);
    pub const CONTEXT_TOO_LONG: Self = Self(-9);
    pub const UNKNOWN_HEADER: Self = Self(-10);
    pub const WRONG_JOURNAL: Self = Self(-15);
}

/// The result of a function.
pub type Answer = Result<(), Refusal>;

fn read(code: i32) -> Answer {
    match code {
        0 => Ok(()),
        code => Err(Refusal(code)),
    }
}

type In<'a> = &'a [u8];
type Out<'a> = &'a mut [u8];

/// A slice as the library takes it.
trait Slice {
    type Pointer;
    fn parts(self) -> (Self::Pointer, usize);
}

impl Slice for In<'_> {
    type Pointer = *const u8;
    fn parts(self) -> (*const u8, usize) {
        (self.as_ptr(), self.len())
    }
}

impl Slice for Out<'_> {
    type Pointer = *mut u8;
    fn parts(self) -> (*mut u8, usize) {
        (self.as_mut_ptr(), self.len())
    }
}

/// Declares functions of the library, and a safe function over each. An argument is a value, or in brackets a slice, which the
/// library takes as a pointer and a length. With `&mut to` the library takes the pointer of an output of this length first.
macro_rules! exports {
    ($($name:ident$(<$life:lifetime>)?($($([$(&mut $to:ident,)? $bytes:ident: $slice:ty])? $($value:ident: $type:ty)?),*);)*) => {
        mod c {
            use super::*;

            unsafe extern "C" {$(
                #[link_name = concat!("hunkravy_", stringify!($name))]
                pub fn $name$(<$life>)?(
                    $($($($to: *mut u8,)? _: <$slice as Slice>::Pointer, _: usize)? $(_: $type)?),*
                ) -> i32;
            )*}
        }
        $(
            #[allow(clippy::too_many_arguments)]
            pub fn $name$(<$life>)?($($($($to: Out,)? $bytes: $slice)? $($value: $type)?),*) -> Answer {
                $($($(
                    assert_eq!($to.len(), $bytes.len());
                    let $to = $to.as_mut_ptr();
                )? let $bytes = $bytes.parts();)?)*
                // SAFETY: each pointer is that of a borrowed slice of the length after it, or of a borrowed value of the length that
                // the library reads or writes. What is written to is borrowed exclusively. A state is a struct of numbers and bytes,
                // of which the library takes any; a stream borrows its context for as long as it points to it.
                read(unsafe { c::$name($($($($to,)? $bytes.0, $bytes.1)? $($value)?),*) })
            }
        )*
    };
}

exports! {
    encrypt(variant: u32, [&mut c, m: In], [ad: In], [npub: In], [k: In], [mac: Out]);
    decrypt(variant: u32, [&mut m, c: In], [ad: In], [npub: In], [k: In], [mac: In]);
    encrypt_in_place(variant: u32, [mc: Out], [ad: In], [npub: In], [k: In], [mac: Out]);
    decrypt_in_place(variant: u32, [mc: Out], [ad: In], [npub: In], [k: In], [mac: In]);
    stream(variant: u32, [out: Out], [npub: In], [k: In]);
    stream_xor_in_place(variant: u32, [mc: Out], [npub: In], [k: In]);
    mac(variant: u32, [input: In], [npub: In], [k: In], [mac: Out]);
    state_init(variant: u32, st: &mut State, [ad: In], [npub: In], [k: In]);
    state_encrypt_in_place(st: &mut State, [mc: Out]);
    state_encrypt(st: &mut State, [&mut c, m: In]);
    state_encrypt_final(st: &mut State, [mac: Out]);
    state_decrypt_unverified(st: &mut State, [&mut m, c: In]);
    state_decrypt_final(st: &mut State, [m: Out], [mac: In]);
    mac_init(variant: u32, st: &mut State, [npub: In], [k: In]);
    mac_update(st: &mut State, [input: In]);
    mac_final(st: &State, [mac: Out]);
    mac_final_verify(st: &State, [mac: In]);
    page_seal(variant: u32, [page: Out], id: &[u8; 24], number: u64, [npub: In], [k: In]);
    page_open(variant: u32, [page: Out], id: &[u8; 24], number: u64, [k: In]);
    page_header_seal(variant: u32, header_block: &mut [u8; 512], page_size: u32, id: &[u8; 24], counter: u64,
        contents_len: u64, [npub: In], [k: In]);
    page_header_open(variant: u32, header_block: &[u8; 512], [k: In], page_size: &mut u32, id: &mut [u8; 24],
        counter: &mut u64, contents_len: &mut u64);
    journal_init(variant: u32, st: &mut State, page_size: u32, id: &[u8; 24], npub: &[u8; 16], [k: In],
        start: &mut [u8; 528]);
    journal_entry(st: &mut State, place: u64, [bytes: In], head: &mut [u8; 16]);
    journal_final(st: &mut State, mac: &mut [u8; 32]);
    journal_check(variant: u32, [file: In], [k: In], [journal: In], writes_len: &mut usize);
    journal_next([writes: In], place: &mut u64, length: &mut usize);
    record_begin<'c>(st: &mut Records<'c>, k: &[u8; 32], prefix: &[u8; 24], [context: In<'c>], header: &mut [u8; 4]);
    record_begin_open<'c>(st: &mut Records<'c>, k: &[u8; 32], prefix: &[u8; 24], [context: In<'c>], header: &[u8; 4]);
    record_begin_open_at<'c>(st: &mut Records<'c>, k: &[u8; 32], prefix: &[u8; 24], [context: In<'c>], number: u64,
        before: u64);
    record_len(st: &Records<'_>, head: &[u8; RECORD_HEAD_BYTES], length: &mut usize);
    record_open(st: &mut Records<'_>, [record: Out], message_len: &mut usize, is_last: &mut i32);
    fill_random([bytes: Out]);
}

unsafe extern "C" {
    fn hunkravy_record_seal(st: &mut Records<'_>, record: *mut u8, message_len: usize) -> i32;
    fn hunkravy_record_seal_last(st: &mut Records<'_>, record: *mut u8, message_len: usize) -> i32;
    fn hunkravy_wipe(bytes: *mut u8, length: usize);
    /// Holds the standard descriptors that the program has closed, so that no file gets one. Returns an error number, or 0.
    pub safe fn hunkravy_hold_descriptors() -> i32;
    pub safe fn hunkravy_page_place(variant: u32, page_size: u32, number: u64) -> u64;
    pub safe fn hunkravy_commit_step(number: u64, writes: u64, write: &mut u64) -> u32;
    pub safe fn hunkravy_recovery_step(number: u64, writes: u64, write: &mut u64) -> u32;
}

/// The order of the steps of a commit or of a recovery with so many writes: one of the two functions above.
pub type Order = extern "C" fn(u64, u64, &mut u64) -> u32;

/// A step of a commit or of a recovery.
#[derive(Clone, Copy)]
pub enum Step {
    WriteBeginning,
    WriteRest,
    SyncJournal,
    ReplaceJournal,
    /// Makes the write of this number.
    MakeWrite(usize),
    SyncFile,
    EmptyJournal,
}

impl Step {
    /// Returns the step of this number, or `None` after the last one.
    pub fn of(order: Order, number: usize, writes: usize) -> Option<Self> {
        let mut write = 0;
        Some(match order(number as u64, writes as u64, &mut write) {
            0 => return None,
            1 => Step::WriteBeginning,
            2 => Step::WriteRest,
            3 => Step::SyncJournal,
            4 => Step::ReplaceJournal,
            5 => Step::MakeWrite(write as usize),
            6 => Step::SyncFile,
            7 => Step::EmptyJournal,
            other => unreachable!("the library has no step {other}"),
        })
    }
}

/// Overwrites the bytes with zeros. The compiler cannot leave that out.
pub fn wipe(bytes: &mut [u8]) {
    // SAFETY: the pointer is that of a slice of this length, which is borrowed exclusively.
    unsafe { hunkravy_wipe(bytes.as_mut_ptr(), bytes.len()) }
}

/// A message or a MAC between two calls, as the library reads and writes it. It is overwritten when it is dropped.
#[repr(C)]
#[derive(Clone)]
#[cfg_attr(test, derive(Debug, PartialEq))]
pub struct State {
    mark: u64,
    rows: [[u8; 128]; 4],
    block: [u8; 128],
    data_bytes: u64,
    /// How many bytes of the message, or of the input of a MAC, were taken in.
    pub message_bytes: u64,
    variant: u32,
    role: u32,
}

const _: () = assert!(size_of::<State>() == 672);

impl State {
    /// A state that has ended. Only the functions that begin one accept it.
    pub const ENDED: Self =
        Self { mark: 0, rows: [[0; 128]; 4], block: [0; 128], data_bytes: 0, message_bytes: 0, variant: 0, role: 0 };
}

impl Drop for State {
    fn drop(&mut self) {
        // SAFETY: the pointer is that of an exclusive borrow of a struct of numbers.
        unsafe { hunkravy_wipe((&raw mut *self).cast(), size_of::<Self>()) }
    }
}

/// The number of bytes of a record in front of its message.
pub const RECORD_HEAD_BYTES: usize = 5;
/// The number of bytes that a record has more than its message: its head, and a tag after it.
pub const RECORD_BYTES: usize = 37;

/// A record stream between two calls, as the library reads and writes it. It points to its context, which it borrows. It is
/// overwritten when it is dropped.
#[repr(C)]
pub struct Records<'c> {
    pub opaque: [u64; OPAQUE_WORDS],
    context: *const u8,
    context_len: usize,
    borrowed: PhantomData<&'c [u8]>,
}

const OPAQUE_WORDS: usize = 10;

// SAFETY: it has numbers, and the pointer of a shared slice, which may be used from any thread as the slice may be.
unsafe impl Send for Records<'_> {}
// SAFETY: as above; and a shared stream is only read.
unsafe impl Sync for Records<'_> {}

impl Records<'_> {
    /// A stream that has ended. Only the functions that begin one accept it.
    pub const ENDED: Self =
        Self { opaque: [0; OPAQUE_WORDS], context: core::ptr::null(), context_len: 0, borrowed: PhantomData };

    /// Seals the next message in place: it has [`RECORD_HEAD_BYTES`] in front of it, and 32 bytes after it for the tag. The
    /// last one ends the stream. Panics if there are fewer bytes.
    pub fn seal(&mut self, record: &mut [u8], is_last: bool) -> Answer {
        let seal = if is_last { hunkravy_record_seal_last } else { hunkravy_record_seal };
        let message_len = record.len().checked_sub(RECORD_BYTES);
        let message_len = message_len.expect("a record has room for its head and its tag");
        // SAFETY: the pointer is that of as many bytes as the record of a message of this length has, borrowed exclusively.
        read(unsafe { seal(self, record.as_mut_ptr(), message_len) })
    }
}

impl Drop for Records<'_> {
    fn drop(&mut self) {
        // SAFETY: the pointer is that of an exclusive borrow of an array of numbers.
        unsafe { hunkravy_wipe((&raw mut self.opaque).cast(), size_of_val(&self.opaque)) }
    }
}

#[cfg(test)]
mod tests {
    use super::{Records, State, record_begin, state_init};
    use crate::wipe::tests::left_of;

    /// Nothing of a state is left.
    #[test]
    fn states_that_were_dropped() {
        let mut st = State::ENDED;
        assert!(state_init(3, &mut st, b"", &[2; 32], &[1; 32]).is_ok() && st != State::ENDED);
        assert_eq!(left_of(st, |st| st), State::ENDED);
    }

    /// Nothing of a stream's key is left.
    #[test]
    fn records_that_were_dropped() {
        let mut records = Records::ENDED;
        let begun = record_begin(&mut records, &[1; 32], &[2; 24], b"context", &mut [0; 4]);
        assert!(begun.is_ok() && records.opaque != [0; 10]);
        assert_eq!(left_of(records, |records| &records.opaque), [0; 10]);
    }
}
