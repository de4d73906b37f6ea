//! Memory that may run out.

use alloc::vec::Vec;
use std::io::{self, ErrorKind};

/// Returns an empty vector with room for this number of values, or an error if memory runs out.
pub(crate) fn with_room<T>(count: usize) -> io::Result<Vec<T>> {
    let mut vector = Vec::new();
    vector.try_reserve_exact(count).map_err(|_| ErrorKind::OutOfMemory)?;
    Ok(vector)
}

/// Returns zeros, or an error if memory runs out.
pub(crate) fn zeros(count: usize) -> io::Result<Vec<u8>> {
    let mut bytes = with_room(count)?;
    bytes.resize(count, 0);
    Ok(bytes)
}

/// Returns an error if memory has run out, before calls of the standard library that would end the program.
#[cfg(feature = "raf-core")]
pub(crate) fn check_memory() -> io::Result<()> {
    core::hint::black_box(with_room::<u8>(65_536)?);
    Ok(())
}
