//! Keys of files, derived from a master key.

use super::{Error, Result};
use crate::exports;
use crate::variant::sealed::Sealed;
use crate::variants::{Aegis128L, Aegis256};

/// What the input of each derivation begins with.
const DOMAIN: &[u8; 24] = b"hunkravy raf file key v1";

/// The most bytes of a context, for keys of 16 bytes.
const MAX_CONTEXT_BYTES: usize = 120;

/// Derives the key of a file, or of a family of files, from a master key. Both keys have `N` bytes: 16 or 32. Another length does
/// not compile.
///
/// The key is the MAC of `N` bytes, with AEGIS-128L or AEGIS-256 under the master key and a zeroed nonce, of the 24 bytes
/// `hunkravy raf file key v1` and the context. Different contexts give different keys, unless two MACs are equal by chance. Use
/// the master key for nothing else. The crate `aegis` derives different keys.
///
/// # Errors
///
/// [`Error::ContextTooLong`] if the context has more than 120 bytes for keys of 16, or 72 for keys of 32. It may be empty.
///
/// ```
/// use hunkravy::raf::derive_key;
///
/// let key = derive_key(&[1; 32], b"my-app/files")?;
/// assert_ne!(key, derive_key(&[1; 32], b"")?);
/// # Ok::<(), hunkravy::raf::Error>(())
/// ```
pub fn derive_key<const N: usize>(master_key: &[u8; N], context: &[u8]) -> Result<[u8; N]> {
    const { assert!(N == 16 || N == 32, "N must be 16 or 32") }
    let mut key = [0; N];
    derive(master_key, context, &mut key)?;
    Ok(key)
}

/// Writes the key of a context to `key`, which has the length of the master key.
pub(super) fn derive(master_key: &[u8], context: &[u8], key: &mut [u8]) -> Result<()> {
    let (variant, most) = match key.len() {
        16 => (Aegis128L::NUMBER, MAX_CONTEXT_BYTES),
        _ => (Aegis256::NUMBER, 72),
    };
    if context.len() > most {
        return Err(Error::ContextTooLong);
    }
    let mut input = [0; DOMAIN.len() + MAX_CONTEXT_BYTES];
    input[..DOMAIN.len()].copy_from_slice(DOMAIN);
    input[DOMAIN.len()..][..context.len()].copy_from_slice(context);
    let input = &input[..DOMAIN.len() + context.len()];
    let answer = exports::mac(variant, input, &[0; 32][..key.len()], master_key, key);
    assert_eq!(answer, Ok(()), "the lengths are right");
    Ok(())
}
