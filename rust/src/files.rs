//! Sealed files: encrypted files of any length, which are written from beginning to end and read from any place.
//!
//! They are the files of the tool `hunkravy`. `docs/FORMATS.md` defines the format.
//!
//! ```
//! use hunkravy::files::{SealedReader, SealedWriter};
//! use std::io::{Read, Write};
//!
//! let key = [1; 32];
//! let mut writer = SealedWriter::new(Vec::new(), &key)?;
//! writer.write_all(b"the contents")?;
//! let file = writer.finish()?;
//!
//! let mut contents = String::new();
//! SealedReader::new(&file[..], &key).read_to_string(&mut contents)?;
//! assert_eq!(contents, "the contents");
//! # Ok::<(), std::io::Error>(())
//! ```

mod key;
mod reader;
mod seek;
mod writer;

pub use crate::records::Key;
pub use key::read_key;
pub use reader::SealedReader;
pub use writer::SealedWriter;

use crate::records::{HEADER_BYTES, Prefix};

/// The context of the record stream in a sealed file.
const CONTEXT: &[u8] = b"hunkravy v1";

/// The number of bytes of the contents in a record that [`SealedWriter`] writes. The last one is empty.
const PIECE_BYTES: usize = 65_536;

/// The number of bytes of a file in front of its first record.
const HEAD_BYTES: usize = size_of::<Prefix>() + HEADER_BYTES;
