#![doc = include_str!("../README.md")]
#![no_std]
#![deny(missing_docs)]
#![deny(clippy::missing_errors_doc)]
#![deny(clippy::must_use_candidate)]
#![deny(unsafe_op_in_unsafe_fn)]
#![deny(clippy::undocumented_unsafe_blocks)]

extern crate alloc;
#[cfg(feature = "std")]
extern crate std;

/// Shows a type by its name, and nothing of what it holds.
macro_rules! debug_as {
    ([$($generics:tt)*] $type:ty, $($name:expr),*) => {
        /// The type's name, and nothing of what it holds.
        impl<$($generics)*> core::fmt::Debug for $type {
            fn fmt(&self, f: &mut core::fmt::Formatter<'_>) -> core::fmt::Result {
                $(f.write_str($name)?;)*
                f.write_str(" { .. }")
            }
        }
    };
}

mod cipher;
mod decryptor;
mod encryptor;
mod error;
mod exports;
#[cfg(feature = "std")]
pub mod files;
mod mac;
#[cfg(feature = "std")]
mod memory;
#[cfg(feature = "raf-core")]
pub mod raf;
pub mod records;
mod variant;
mod wipe;

pub use cipher::Cipher;
pub use decryptor::Decryptor;
pub use encryptor::Encryptor;
pub use error::{Error, MAX_AEAD_BYTES};
pub use exports::ERASED;
pub use mac::Mac;
pub use variant::{Tag, Variant, variants};
pub use variant::{aegis128l, aegis128x2, aegis128x4, aegis256, aegis256x2, aegis256x4};

/// Fills a key, a nonce or a prefix with random bytes from `getrandom`.
///
/// Early after a boot it waits until the system has seeded its source.
///
/// # Errors
///
/// If the system has no such source. Do not use `buf` then.
#[cfg(feature = "std")]
pub fn fill_random(buf: &mut [u8]) -> std::io::Result<()> {
    exports::fill_random(buf).map_err(|refusal| std::io::Error::from_raw_os_error(refusal.0))
}
