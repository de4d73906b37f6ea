//! Ciphers: a key and a nonce, for one message or one keystream.

use crate::error::{accepted, done};
use crate::exports::{self, State};
use crate::variant::assert_tag_bytes;
use crate::{Decryptor, Encryptor, Error, Tag, Variant};
use alloc::vec;
use alloc::vec::Vec;

/// A cipher with tags of `TAG_BYTES` bytes, 16 or 32: a key and a nonce.
///
/// Use a nonce for one message or one keystream under a key, and never again. Nothing checks this. The functions for one
/// message consume the cipher, and the functions for chunks borrow it. The X2 and X4 ciphers are `Copy`.
///
/// Lengths are in bytes. Associated data and a message have at most [`MAX_AEAD_BYTES`](crate::MAX_AEAD_BYTES) each: if one is
/// longer, the functions panic and change nothing. Keystreams have no limit. Only [`encrypt`](Self::encrypt),
/// [`decrypt`](Self::decrypt) and [`stream_xor`](Self::stream_xor) allocate.
///
/// ```
/// use hunkravy::aegis128l::{Aegis128L, Error};
///
/// let (key, nonce) = ([1; 16], [2; 16]);
/// let (ciphertext, tag) = Aegis128L::<16>::new(&key, &nonce).encrypt(b"a message", b"header");
/// let message = Aegis128L::<16>::new(&key, &nonce).decrypt(&ciphertext, &tag, b"header")?;
/// assert_eq!(message, b"a message");
/// # Ok::<(), Error>(())
/// ```
///
/// An AEGIS-128L or AEGIS-256 cipher encrypts one message:
///
/// ```compile_fail,E0382
/// let cipher = hunkravy::aegis128l::Aegis128L::<16>::new(&[1; 16], &[2; 16]);
/// let _first = cipher.encrypt(b"a message", b"");
/// let _second = cipher.encrypt(b"another message", b"");
/// ```
///
/// ```compile_fail,E0382
/// let cipher = hunkravy::aegis256::Aegis256::<16>::new(&[1; 32], &[2; 32]);
/// let _first = cipher.encrypt(b"a message", b"");
/// let _second = cipher.encrypt(b"another message", b"");
/// ```
#[must_use]
pub struct Cipher<V: Variant, const TAG_BYTES: usize> {
    key: V::Key,
    nonce: V::Nonce,
}

impl<V: Variant, const TAG_BYTES: usize> Cipher<V, TAG_BYTES> {
    /// Returns the cipher of a key and a nonce. `TAG_BYTES` is 16 or 32: with another length the program does not compile.
    ///
    /// ```compile_fail,E0080
    /// hunkravy::aegis256::Aegis256::<24>::new(&[1; 32], &[2; 32]);
    /// ```
    pub fn new(key: &V::Key, nonce: &V::Nonce) -> Self {
        assert_tag_bytes::<TAG_BYTES>();
        Self { key: *key, nonce: *nonce }
    }

    /// Encrypts a message. Returns its ciphertext and its tag, which authenticates the associated data `ad` too.
    #[track_caller]
    #[must_use = "the message cannot be decrypted without its tag"]
    pub fn encrypt(self, m: &[u8], ad: &[u8]) -> (Vec<u8>, Tag<TAG_BYTES>) {
        let (mut c, mut tag) = (vec![0; m.len()], [0; TAG_BYTES]);
        done(exports::encrypt(V::NUMBER, &mut c, m, ad, self.nonce.as_ref(), self.key.as_ref(), &mut tag));
        (c, tag)
    }

    /// Encrypts the message at `mc` in place. Returns its tag, which authenticates the associated data `ad` too.
    #[track_caller]
    #[must_use = "the message cannot be decrypted without its tag"]
    pub fn encrypt_in_place(self, mc: &mut [u8], ad: &[u8]) -> Tag<TAG_BYTES> {
        let mut tag = [0; TAG_BYTES];
        done(exports::encrypt_in_place(V::NUMBER, mc, ad, self.nonce.as_ref(), self.key.as_ref(), &mut tag));
        tag
    }

    /// Decrypts a ciphertext, and returns its message. The comparison of the tags does not stop at the first difference.
    ///
    /// # Errors
    ///
    /// [`Error::InvalidTag`] if authentication fails.
    #[track_caller]
    pub fn decrypt(self, c: &[u8], tag: &Tag<TAG_BYTES>, ad: &[u8]) -> Result<Vec<u8>, Error> {
        let mut m = vec![0; c.len()];
        accepted(exports::decrypt(V::NUMBER, &mut m, c, ad, self.nonce.as_ref(), self.key.as_ref(), tag))?;
        Ok(m)
    }

    /// Decrypts the ciphertext at `mc` in place. The comparison of the tags does not stop at the first difference.
    ///
    /// # Errors
    ///
    /// [`Error::InvalidTag`] if authentication fails. Each byte of `mc` is then [`ERASED`](crate::ERASED).
    ///
    /// ```
    /// use hunkravy::aegis256x2::{Aegis256X2, Error};
    ///
    /// let mut buffer = *b"no ciphertext";
    /// let cipher = Aegis256X2::<16>::new(&[1; 32], &[2; 32]);
    /// let refused = cipher.decrypt_in_place(&mut buffer, &[0; 16], b"header");
    /// assert_eq!(refused, Err(Error::InvalidTag));
    /// assert_eq!(buffer, [hunkravy::ERASED; 13]);
    /// ```
    #[track_caller]
    pub fn decrypt_in_place(self, mc: &mut [u8], tag: &Tag<TAG_BYTES>, ad: &[u8]) -> Result<(), Error> {
        accepted(exports::decrypt_in_place(V::NUMBER, mc, ad, self.nonce.as_ref(), self.key.as_ref(), tag))
    }

    /// Fills `out` with the beginning of the keystream. `TAG_BYTES` has no effect on it.
    ///
    /// ```
    /// use hunkravy::aegis128x4::Aegis128X4;
    ///
    /// let (mut keystream, mut zeros) = ([0xff; 100], [0; 100]);
    /// let cipher = Aegis128X4::<16>::new(&[1; 16], &[2; 16]);
    /// cipher.stream(&mut keystream);
    /// cipher.stream_xor_in_place(&mut zeros);
    /// assert_eq!(keystream, zeros);
    /// ```
    pub fn stream(self, out: &mut [u8]) {
        done(exports::stream(V::NUMBER, out, self.nonce.as_ref(), self.key.as_ref()));
    }

    /// Returns a message xored with the keystream from its beginning. There is no tag, so changes are not detected.
    ///
    /// ```
    /// use hunkravy::aegis256x4::Aegis256X4;
    ///
    /// let cipher = Aegis256X4::<16>::new(&[1; 32], &[2; 32]);
    /// let ciphertext = cipher.stream_xor(b"a message");
    /// assert_eq!(cipher.stream_xor(&ciphertext), b"a message");
    /// ```
    #[must_use]
    pub fn stream_xor(self, m: &[u8]) -> Vec<u8> {
        let mut mc = m.to_vec();
        self.stream_xor_in_place(&mut mc);
        mc
    }

    /// Xors the bytes at `mc` with the keystream from its beginning. Calling it twice restores them.
    pub fn stream_xor_in_place(self, mc: &mut [u8]) {
        done(exports::stream_xor_in_place(V::NUMBER, mc, self.nonce.as_ref(), self.key.as_ref()));
    }

    /// Begins to encrypt a message in chunks.
    #[track_caller]
    pub fn encryptor(&self, associated_data: &[u8]) -> Encryptor<V, TAG_BYTES> {
        Encryptor::new(self.begin(associated_data))
    }

    /// Begins to decrypt a message in chunks, into `plaintext`, which must have room for the whole message.
    #[track_caller]
    pub fn decryptor<'a>(&self, associated_data: &[u8], plaintext: &'a mut [u8]) -> Decryptor<'a, V, TAG_BYTES> {
        Decryptor::new(self.begin(associated_data), plaintext)
    }

    /// Decrypts a message in chunks, into `plaintext`, and returns it. `chunks` passes each chunk of the ciphertext to the function
    /// that it is given, which is [`Decryptor::update`], and returns the tag.
    ///
    /// Unlike a [`Decryptor`] it cannot be leaked: whatever `chunks` does, only an authentic message is left in `plaintext`.
    ///
    /// # Errors
    ///
    /// That of `chunks`, or [`Error::InvalidTag`] if authentication fails. Zeros then overwrite the message, and if `chunks` panics.
    ///
    /// ```
    /// use hunkravy::aegis256::{Aegis256, Error};
    ///
    /// let (ciphertext, tag) = Aegis256::<32>::new(&[1; 32], &[2; 32]).encrypt(b"a message", b"header");
    /// let mut buffer = [0; 100];
    /// let cipher = Aegis256::<32>::new(&[1; 32], &[2; 32]);
    /// let message = cipher.decrypt_chunks(b"header", &mut buffer, |update| {
    ///     for chunk in ciphertext.chunks(4) {
    ///         update(chunk)?;
    ///     }
    ///     Ok::<_, Error>(tag)
    /// })?;
    /// assert_eq!(message, b"a message");
    /// # Ok::<(), Error>(())
    /// ```
    #[track_caller]
    pub fn decrypt_chunks<'a, E: From<Error>>(
        &self,
        associated_data: &[u8],
        plaintext: &'a mut [u8],
        chunks: impl FnOnce(&mut dyn FnMut(&[u8]) -> Result<(), Error>) -> Result<Tag<TAG_BYTES>, E>,
    ) -> Result<&'a mut [u8], E> {
        let mut decryptor = self.decryptor(associated_data, plaintext);
        let tag = chunks(&mut |ciphertext| decryptor.update(ciphertext))?;
        Ok(decryptor.finalize(&tag)?)
    }

    /// Begins a message.
    #[track_caller]
    fn begin(&self, ad: &[u8]) -> State {
        let mut state = State::ENDED;
        done(exports::state_init(V::NUMBER, &mut state, ad, self.nonce.as_ref(), self.key.as_ref()));
        state
    }
}

impl<V: Variant + Copy, const TAG_BYTES: usize> Clone for Cipher<V, TAG_BYTES> {
    fn clone(&self) -> Self {
        *self
    }
}

impl<V: Variant + Copy, const TAG_BYTES: usize> Copy for Cipher<V, TAG_BYTES> {}

debug_as!([V: Variant, const TAG_BYTES: usize] Cipher<V, TAG_BYTES>, V::CIPHER);
