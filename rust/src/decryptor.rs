//! Decrypting a message in chunks.

use crate::error::{accepted, done};
use crate::exports::{self, State};
use crate::wipe::wipe;
use crate::{Error, MAX_AEAD_BYTES, Tag, Variant};
use core::{marker::PhantomData, mem};

/// Decrypts a message in chunks of any lengths, into a destination that it borrows for the whole message.
///
/// [`Cipher::decryptor`](crate::Cipher::decryptor) returns one. Nothing can read the destination while it is borrowed, and
/// [`finalize`](Self::finalize) returns the message only if the tag is right. After a wrong tag, or if the decryptor is
/// dropped first, zeros overwrite the message, and the rest of the destination is unchanged.
///
/// **A decryptor that is leaked overwrites nothing**, for example with [`mem::forget`](core::mem::forget): the destination then
/// has a message that was not authenticated. With [`Cipher::decrypt_chunks`](crate::Cipher::decrypt_chunks) there is no
/// decryptor to leak.
///
/// ```
/// use hunkravy::aegis128l::{Aegis128L, Error};
///
/// let cipher = Aegis128L::<16>::new(&[1; 16], &[2; 16]);
/// let mut ciphertext = *b"AEGIS is fast";
/// let mut encryptor = cipher.encryptor(b"header");
/// encryptor.update_in_place(&mut ciphertext);
/// let tag = encryptor.finalize();
///
/// let mut buffer = [0; 13];
/// let mut decryptor = cipher.decryptor(b"header", &mut buffer);
/// for chunk in ciphertext.chunks(4) {
///     decryptor.update(chunk)?;
/// }
/// assert_eq!(decryptor.finalize(&tag)?, b"AEGIS is fast");
/// # Ok::<(), Error>(())
/// ```
#[must_use = "the message is erased without `finalize`"]
pub struct Decryptor<'a, V: Variant, const TAG_BYTES: usize> {
    pub(crate) state: State,
    variant: PhantomData<V>,
    plaintext: &'a mut [u8],
    written: usize,
}

impl<'a, V: Variant, const TAG_BYTES: usize> Decryptor<'a, V, TAG_BYTES> {
    /// Goes on with a message that was begun.
    pub(crate) fn new(state: State, plaintext: &'a mut [u8]) -> Self {
        Self { state, variant: PhantomData, plaintext, written: 0 }
    }

    /// Decrypts the next chunk of the ciphertext.
    ///
    /// # Errors
    ///
    /// [`Error::OutputBufferTooSmall`] if the chunk does not fit into the rest of the destination, and otherwise
    /// [`Error::MessageTooLong`] if the message would be longer than [`MAX_AEAD_BYTES`](crate::MAX_AEAD_BYTES). Nothing has
    /// changed then, and another chunk may follow.
    ///
    /// ```
    /// use hunkravy::aegis256x2::{Aegis256X2, Error};
    ///
    /// let mut buffer = [0; 4];
    /// let mut decryptor = Aegis256X2::<16>::new(&[1; 32], &[2; 32]).decryptor(b"", &mut buffer);
    /// assert_eq!(decryptor.update(&[0; 5]), Err(Error::OutputBufferTooSmall));
    /// assert_eq!(decryptor.update(&[0; 4]), Ok(()));
    /// ```
    pub fn update(&mut self, ciphertext: &[u8]) -> Result<(), Error> {
        let chunk = self.plaintext[self.written..].get_mut(..ciphertext.len()).ok_or(Error::OutputBufferTooSmall)?;
        if ciphertext.len() as u64 > MAX_AEAD_BYTES - self.state.message_bytes {
            return Err(Error::MessageTooLong);
        }
        // It is counted first, so that it is erased in any case.
        self.written += ciphertext.len();
        done(exports::state_decrypt_unverified(&mut self.state, chunk, ciphertext));
        Ok(())
    }

    /// Returns the message, which is at the beginning of the destination, if the tag is right.
    ///
    /// # Errors
    ///
    /// [`Error::InvalidTag`] if authentication fails. Zeros then overwrite the message, and the rest of the destination is
    /// unchanged.
    ///
    /// ```
    /// use hunkravy::aegis256x4::{Aegis256X4, Error};
    ///
    /// let mut buffer = [0xff; 6];
    /// let mut decryptor = Aegis256X4::<16>::new(&[1; 32], &[2; 32]).decryptor(b"", &mut buffer);
    /// decryptor.update(b"nope")?;
    /// assert_eq!(decryptor.finalize(&[0; 16]), Err(Error::InvalidTag));
    /// assert_eq!(buffer, [0, 0, 0, 0, 0xff, 0xff]);
    /// # Ok::<(), Error>(())
    /// ```
    pub fn finalize(mut self, tag: &Tag<TAG_BYTES>) -> Result<&'a mut [u8], Error> {
        accepted(exports::state_decrypt_final(&mut self.state, &mut [], tag))?;
        let written = mem::take(&mut self.written);
        Ok(&mut mem::take(&mut self.plaintext)[..written])
    }
}

/// Overwrites the message with zeros.
impl<V: Variant, const TAG_BYTES: usize> Drop for Decryptor<'_, V, TAG_BYTES> {
    fn drop(&mut self) {
        wipe(&mut self.plaintext[..self.written]);
    }
}

debug_as!([V: Variant, const TAG_BYTES: usize] Decryptor<'_, V, TAG_BYTES>, V::MODULE, "::Decryptor");

#[cfg(test)]
mod tests {
    use crate::MAX_AEAD_BYTES;
    use crate::aegis256x2::{Aegis256X2, Error};

    fn cipher() -> Aegis256X2<16> {
        Aegis256X2::new(&[1; 32], &[2; 32])
    }

    #[test]
    fn a_decryptor_returns_an_error_and_goes_on() {
        let mut buffer = [0xff; 2];
        let mut decryptor = cipher().decryptor(b"", &mut buffer);
        decryptor.state.message_bytes = MAX_AEAD_BYTES - 1;
        for (count, expected) in [
            (3, Err(Error::OutputBufferTooSmall)),
            (2, Err(Error::MessageTooLong)),
            (1, Ok(())),
            (1, Err(Error::MessageTooLong)),
        ] {
            assert_eq!(decryptor.update(&[0; 3][..count]), expected);
        }
        drop(decryptor);
        assert_eq!(buffer, [0, 0xff]);
    }

    /// A chunk is counted before it is decrypted, so that it is erased even if that panics.
    #[cfg(feature = "std")]
    #[test]
    fn a_decryptor_that_panics_erases() {
        use std::panic::{AssertUnwindSafe, catch_unwind};
        let mut buffer = [0xff; 4];
        let mut decryptor = cipher().decryptor(b"", &mut buffer);
        decryptor.state = crate::exports::State::ENDED;
        let update = AssertUnwindSafe(|| decryptor.update(&[1; 3]));
        assert!(catch_unwind(update).is_err());
        drop(decryptor);
        assert_eq!(buffer, [0, 0, 0, 0xff]);
    }
}
