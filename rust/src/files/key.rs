//! Key files.

use super::Key;
use crate::memory::with_room;
use crate::wipe::Wiped;
use std::fs::File;
use std::io::{self, ErrorKind, Read};
use std::path::Path;

/// The most bytes of a key file: the digits, and two bytes of white space.
const MOST_BYTES: usize = 66;

/// Reads a key file of `hunkravy keygen`: 64 hexadecimal digits, and then at most two bytes of white space.
///
/// The mode of the file is not checked. Make sure that only its owner can read it.
///
/// # Errors
///
/// [`ErrorKind::InvalidData`] if the file has anything else, or an error of reading it.
///
/// ```no_run
/// use hunkravy::files::{SealedReader, read_key};
/// use std::fs::File;
///
/// let key = read_key("backup.key")?;
/// let reader = SealedReader::new(File::open("backup.sealed")?, &key);
/// # Ok::<(), std::io::Error>(())
/// ```
pub fn read_key(path: impl AsRef<Path>) -> io::Result<Key> {
    // With so much room the standard library reads into the vector itself, which does not grow.
    let mut bytes = Wiped(with_room(4096)?);
    let mut file = File::open(path)?.take(MOST_BYTES as u64 + 1);
    file.read_to_end(&mut bytes.0)?;
    let no_key = || io::Error::new(ErrorKind::InvalidData, "not a key file: expected 64 hexadecimal digits");
    key_of(&bytes.0).ok_or_else(no_key)
}

/// Returns the key of the bytes of a key file.
fn key_of(bytes: &[u8]) -> Option<Key> {
    if bytes.len() > MOST_BYTES {
        return None;
    }
    let digits = core::str::from_utf8(bytes).ok()?.trim_end();
    let mut key = [0; 32];
    if digits.len() != 2 * key.len() {
        return None;
    }
    let digit = |byte: u8| (byte as char).to_digit(16).map(|value| value as u8);
    for (byte, pair) in key.iter_mut().zip(digits.as_bytes().chunks_exact(2)) {
        *byte = (digit(pair[0])? << 4) | digit(pair[1])?;
    }
    Some(key)
}

#[cfg(test)]
mod tests {
    use super::{key_of, read_key};
    use alloc::format;
    use alloc::string::String;
    use core::mem::MaybeUninit;
    use std::path::Path;

    #[test]
    fn key_is_64_digits_and_white_space() {
        let digits = "00fF1aA2".repeat(8);
        let key = key_of(digits.as_bytes()).unwrap();
        assert_eq!(key, [0, 0xff, 0x1a, 0xa2].repeat(8)[..]);
        for end in "|\n|\r\n|  |\t\n|\u{b}\u{c}|\u{85}|\u{a0}".split('|') {
            assert_eq!(key_of(format!("{digits}{end}").as_bytes()), Some(key), "{end:?}");
        }
        for end in ["\n\n\n", "0", "\0", ".", "\n.", "\u{2028}"] {
            assert_eq!(key_of(format!("{digits}{end}").as_bytes()), None, "{end:?}");
        }
        let wrong = "gG/:@` +-".chars();
        let wrong = wrong.map(|wrong| digits.replacen('0', &String::from(wrong), 1));
        let others = ["", "\n", &digits[1..], &digits[2..], &format!(" {digits}")];
        for bytes in wrong.chain(others.map(String::from)) {
            assert_eq!(key_of(bytes.as_bytes()), None, "{bytes:?}");
        }
        let mut bytes = digits.into_bytes();
        bytes[5] = 0xff;
        assert_eq!(key_of(&bytes), None);
    }

    /// Returns whether memory below the stack, where a function has been, holds these bytes.
    #[inline(never)]
    fn is_left(bytes: &[u8]) -> bool {
        let below = MaybeUninit::<[u8; 65_536]>::uninit();
        let first = core::hint::black_box(below.as_ptr()).cast::<u8>();
        let is_at = |at: usize| {
            // SAFETY: the array has these bytes, whatever was left in them.
            (0..bytes.len()).all(|by| unsafe { first.add(at + by).read_volatile() } == bytes[by])
        };
        (0..65_536 - bytes.len()).any(is_at)
    }

    /// Reads a key file, below 4,096 bytes of stack that the search may overwrite.
    #[inline(never)]
    fn read_below(path: &Path) -> [u8; 32] {
        let room = core::hint::black_box([0u8; 4096]);
        let key = read_key(path).unwrap();
        core::hint::black_box(room);
        key
    }

    /// Nothing of the digits is left on the stack.
    #[test]
    fn the_digits_of_a_key() {
        let path = std::env::temp_dir().join(format!("hunkravy-key-{}", std::process::id()));
        std::fs::write(&path, "c7".repeat(32)).unwrap();
        assert_eq!(read_below(&path), [0xc7; 32]);
        assert!(!is_left(&b"c7".repeat(8)));
        std::fs::remove_file(&path).unwrap();
    }
}
