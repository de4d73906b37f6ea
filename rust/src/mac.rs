//! MACs of an input in chunks.

use crate::error::{accepted, done};
use crate::exports::{self, State};
use crate::variant::assert_tag_bytes;
use crate::{Error, MAX_AEAD_BYTES, Tag, Variant};
use core::marker::PhantomData;

/// The MAC of an input in chunks of any lengths.
///
/// Use its key for nothing else. A clone has the input so far, and continues independently.
///
/// ```
/// use hunkravy::aegis128l::{Aegis128LMac, Error};
///
/// let mut mac = Aegis128LMac::<32>::new(&[1; 16]);
/// mac.update(b"the ");
/// mac.update(b"input");
/// let tag = mac.finalize();
///
/// let mut mac = Aegis128LMac::<32>::new(&[1; 16]);
/// mac.update(b"the input");
/// mac.verify(&tag)?;
/// # Ok::<(), Error>(())
/// ```
#[must_use]
pub struct Mac<V: Variant, const TAG_BYTES: usize> {
    pub(crate) state: State,
    variant: PhantomData<V>,
}

impl<V: Variant, const TAG_BYTES: usize> Mac<V, TAG_BYTES> {
    /// Begins a MAC under a key, with a zeroed nonce. `TAG_BYTES` is 16 or 32: with another length the
    /// program does not compile.
    pub fn new(key: &V::Key) -> Self {
        Self::new_with_nonce(key, &V::Nonce::default())
    }

    /// Begins a MAC under a key and a nonce. `TAG_BYTES` is 16 or 32: with another length the program does not compile.
    pub fn new_with_nonce(key: &V::Key, nonce: &V::Nonce) -> Self {
        assert_tag_bytes::<TAG_BYTES>();
        let mut state = State::ENDED;
        let (nonce, key) = (nonce.as_ref(), key.as_ref());
        done(exports::mac_init(V::NUMBER, &mut state, nonce, key));
        Self { state, variant: PhantomData }
    }

    /// Adds the next chunk of the input.
    ///
    /// # Panics
    ///
    /// If the input is then longer than [`MAX_AEAD_BYTES`](crate::MAX_AEAD_BYTES). Nothing has changed then.
    #[track_caller]
    pub fn update(&mut self, data: &[u8]) {
        done(exports::mac_update(&mut self.state, data));
    }

    /// Returns how many more bytes the input may have.
    #[must_use]
    pub fn remaining(&self) -> u64 {
        MAX_AEAD_BYTES - self.state.message_bytes
    }

    /// Returns the MAC of the input.
    ///
    /// ```
    /// use hunkravy::aegis128l::Aegis128LMac;
    ///
    /// let mut mac = Aegis128LMac::<16>::new(b"YELLOW SUBMARINE");
    /// mac.update(b"a");
    /// let expected = 0x7b1e31c93ef8a9b70d3a7aae2980d6a0_u128;
    /// assert_eq!(mac.finalize(), expected.to_be_bytes());
    /// ```
    #[must_use]
    pub fn finalize(self) -> Tag<TAG_BYTES> {
        let mut mac = [0; TAG_BYTES];
        done(exports::mac_final(&self.state, &mut mac));
        mac
    }

    /// Checks that `expected` is the MAC of the input. The comparison does not stop at the first difference.
    ///
    /// # Errors
    ///
    /// [`Error::InvalidTag`] if it is not.
    pub fn verify(self, expected: &Tag<TAG_BYTES>) -> Result<(), Error> {
        accepted(exports::mac_final_verify(&self.state, expected))
    }
}

impl<V: Variant, const TAG_BYTES: usize> Clone for Mac<V, TAG_BYTES> {
    fn clone(&self) -> Self {
        Self { state: self.state.clone(), variant: PhantomData }
    }
}

debug_as!([V: Variant, const TAG_BYTES: usize] Mac<V, TAG_BYTES>, V::CIPHER, "Mac");

#[cfg(test)]
mod tests {
    use crate::MAX_AEAD_BYTES;
    use crate::aegis256x2::Aegis256X2Mac;

    #[test]
    #[should_panic = "the message is longer than 2^61 - 1 bytes"]
    fn a_mac_panics() {
        let mut mac = Aegis256X2Mac::<16>::new(&[1; 32]);
        mac.state.message_bytes = MAX_AEAD_BYTES - 1;
        assert_eq!(mac.remaining(), 1);
        mac.update(&[0; 2]);
    }
}
