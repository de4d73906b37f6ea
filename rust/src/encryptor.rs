//! Encrypting a message in chunks.

use crate::error::done;
use crate::exports::{self, State};
use crate::{MAX_AEAD_BYTES, Tag, Variant};
use core::marker::PhantomData;

/// Encrypts a message in chunks of any lengths: each chunk gives as many bytes of ciphertext, and the end the tag.
///
/// [`Cipher::encryptor`](crate::Cipher::encryptor) returns one. If it is dropped before [`finalize`](Self::finalize), there is
/// no tag, and the ciphertext cannot be decrypted.
///
/// **After a fork only one of the two processes may go on with an encryptor**: both have its nonce.
///
/// ```
/// use hunkravy::aegis128l::Aegis128L;
///
/// let (key, nonce) = ([1; 16], [2; 16]);
/// let mut chunks = [*b"AEGIS", *b" fast"];
/// let mut encryptor = Aegis128L::<16>::new(&key, &nonce).encryptor(b"header");
/// for chunk in &mut chunks {
///     encryptor.update_in_place(chunk);
/// }
/// let tag = encryptor.finalize();
///
/// let in_one_call = Aegis128L::<16>::new(&key, &nonce).encrypt(b"AEGIS fast", b"header");
/// assert_eq!((chunks.concat(), tag), in_one_call);
/// ```
#[must_use = "the message cannot be decrypted without its tag"]
pub struct Encryptor<V: Variant, const TAG_BYTES: usize> {
    pub(crate) state: State,
    variant: PhantomData<V>,
}

impl<V: Variant, const TAG_BYTES: usize> Encryptor<V, TAG_BYTES> {
    /// Goes on with a message that was begun.
    pub(crate) fn new(state: State) -> Self {
        Self { state, variant: PhantomData }
    }

    /// Encrypts the next chunk into `ciphertext`, which must have the same length.
    ///
    /// # Panics
    ///
    /// If the lengths differ, or the message is then longer than [`MAX_AEAD_BYTES`](crate::MAX_AEAD_BYTES). Nothing has
    /// changed then.
    #[track_caller]
    pub fn update(&mut self, plaintext: &[u8], ciphertext: &mut [u8]) {
        assert_eq!(plaintext.len(), ciphertext.len(), "the buffers must have equal length");
        done(exports::state_encrypt(&mut self.state, ciphertext, plaintext));
    }

    /// Encrypts the next chunk in place.
    ///
    /// # Panics
    ///
    /// If the message is then longer than [`MAX_AEAD_BYTES`](crate::MAX_AEAD_BYTES). Nothing has changed then.
    #[track_caller]
    pub fn update_in_place(&mut self, buffer: &mut [u8]) {
        done(exports::state_encrypt_in_place(&mut self.state, buffer));
    }

    /// Returns how many more bytes the message may have.
    #[must_use]
    pub fn remaining(&self) -> u64 {
        MAX_AEAD_BYTES - self.state.message_bytes
    }

    /// Returns the tag of the message, which authenticates the associated data too.
    ///
    /// ```
    /// use hunkravy::aegis128x4::Aegis128X4;
    ///
    /// let cipher = Aegis128X4::<32>::new(&[1; 16], &[2; 16]);
    /// let tag = cipher.encryptor(b"header").finalize();
    /// assert_eq!(tag, cipher.encrypt_in_place(&mut [], b"header"));
    /// ```
    #[must_use = "the message cannot be decrypted without its tag"]
    pub fn finalize(mut self) -> Tag<TAG_BYTES> {
        let mut tag = [0; TAG_BYTES];
        done(exports::state_encrypt_final(&mut self.state, &mut tag));
        tag
    }
}

debug_as!([V: Variant, const TAG_BYTES: usize] Encryptor<V, TAG_BYTES>, V::MODULE, "::Encryptor");

#[cfg(test)]
mod tests {
    use crate::MAX_AEAD_BYTES;
    use crate::aegis256x2::{Aegis256X2, Encryptor};

    /// An encryptor that has room for one more byte.
    fn encryptor() -> Encryptor<16> {
        let mut encryptor = Aegis256X2::new(&[1; 32], &[2; 32]).encryptor(b"");
        encryptor.state.message_bytes = MAX_AEAD_BYTES - 1;
        encryptor
    }

    #[test]
    fn an_encryptor_counts() {
        let mut encryptor = encryptor();
        assert_eq!(encryptor.remaining(), 1);
        encryptor.update(&[0], &mut [0]);
        encryptor.update_in_place(&mut []);
        assert_eq!(encryptor.remaining(), 0);
    }

    #[test]
    #[should_panic = "the message is longer than 2^61 - 1 bytes"]
    fn an_encryptor_panics() {
        encryptor().update(&[0; 2], &mut [0; 2]);
    }

    #[test]
    #[should_panic = "the message is longer than 2^61 - 1 bytes"]
    fn an_encryptor_in_place_panics() {
        encryptor().update_in_place(&mut [0; 2]);
    }
}
