//! Sources of random bytes.

use super::{Algorithm, Error, Result};
use std::io::{self, ErrorKind};

/// A source of random bytes, for nonces and ids.
pub trait RafRng {
    /// Fills `buf` with random bytes. **Never return the same bytes twice** under one key. As a nonce of a page or a header,
    /// bytes that are all 255 are reserved, and rejected with an [`Error::Io`].
    ///
    /// # Errors
    ///
    /// Any. The bytes of `buf` are then not used.
    fn fill(&mut self, buf: &mut [u8]) -> Result<()>;
}

/// Returns the nonce unless it is the reserved one. With that one the file's commitments and the keys of its journals are made.
pub(super) fn checked_nonce<A: Algorithm>(nonce: A::Nonce) -> Result<A::Nonce> {
    if nonce.as_ref().iter().all(|byte| *byte == 255) {
        let text = "the source of random bytes returned the reserved nonce";
        return Err(Error::Io(io::Error::new(ErrorKind::InvalidData, text)));
    }
    Ok(nonce)
}

/// The system's source of random bytes: [`fill_random`](crate::fill_random).
#[cfg(feature = "raf")]
#[derive(Debug, Default)]
pub struct OsRng;

#[cfg(feature = "raf")]
impl RafRng for OsRng {
    fn fill(&mut self, buf: &mut [u8]) -> Result<()> {
        Ok(crate::fill_random(buf)?)
    }
}

/// The default source of random bytes of [`Raf`](super::Raf) and [`RafBuilder`](super::RafBuilder).
#[cfg(feature = "raf")]
pub type DefaultRng = OsRng;

/// No source of random bytes, since the feature `raf` is not set. Give one to
/// [`RafBuilder::with_rng`](super::RafBuilder::with_rng).
#[cfg(not(feature = "raf"))]
#[derive(Debug)]
pub enum NoRng {}

#[cfg(not(feature = "raf"))]
impl RafRng for NoRng {
    fn fill(&mut self, _buf: &mut [u8]) -> Result<()> {
        match *self {}
    }
}

/// The default source of random bytes of [`Raf`](super::Raf) and [`RafBuilder`](super::RafBuilder).
#[cfg(not(feature = "raf"))]
pub type DefaultRng = NoRng;
