//! The six variants: what tells them apart, and a module for each.

/// A tag of an authenticated message, or a MAC.
pub type Tag<const TAG_BYTES: usize> = [u8; TAG_BYTES];

/// A variant of AEGIS. The types of [`variants`] implement it, and are the first parameter of [`Cipher`](crate::Cipher),
/// [`Encryptor`](crate::Encryptor), [`Decryptor`](crate::Decryptor) and [`Mac`](crate::Mac).
///
/// No other type can implement it. It is for code that is generic over the variant:
///
/// ```
/// use hunkravy::{Cipher, Tag, Variant, aegis128l::Aegis128L, aegis256::Aegis256};
///
/// fn empty<V: Variant>(cipher: Cipher<V, 16>) -> Tag<16> {
///     cipher.encrypt_in_place(&mut [], b"header")
/// }
///
/// empty(Aegis128L::new(&[1; 16], &[2; 16]));
/// empty(Aegis256::new(&[1; 32], &[2; 32]));
/// ```
pub trait Variant: sealed::Sealed {
    /// A key.
    type Key: AsRef<[u8]> + AsMut<[u8]> + Copy + Default;

    /// A nonce, which has the length of a key.
    type Nonce: AsRef<[u8]> + AsMut<[u8]> + Copy + Default;
}

pub(crate) mod sealed {
    /// What only this crate uses of a variant.
    pub trait Sealed {
        /// The number that the library has for it.
        const NUMBER: u32;
        /// The number of bytes of a key, and of a nonce.
        const KEY_BYTES: usize;
        /// The number of lanes.
        const LANES: u8;
        /// The module's name.
        const MODULE: &'static str;
        /// The cipher's name.
        const CIPHER: &'static str;
    }
}

/// Fails to compile for any tag length but 16 and 32 bytes.
pub(crate) const fn assert_tag_bytes<const TAG_BYTES: usize>() {
    const { assert!(TAG_BYTES == 16 || TAG_BYTES == 32, "TAG_BYTES must be 16 or 32") }
}

/// Declares the variants, each with its type, which is `Copy` if its cipher is, and its module: names for the generic types with
/// that variant.
macro_rules! variants {
    ($(
        $(#[$use:meta])*
        $module:ident, $standard:literal, $cipher:ident, $mac:ident, $bytes:literal bytes, $lanes:literal lanes, number $number:literal
            $(, $copy:meta)?;
    )*) => {
        /// The variants as types, for code that is generic over them.
        ///
        /// ```
        /// use hunkravy::{Cipher, variants::Aegis256};
        ///
        /// let cipher = Cipher::<Aegis256, 16>::new(&[1; 32], &[2; 32]);
        /// assert_eq!(format!("{cipher:?}"), "Aegis256 { .. }");
        /// ```
        pub mod variants {$(
            #[doc = $standard]
            $(#[$copy])?
            #[derive(Debug)]
            pub struct $cipher;

            impl crate::Variant for $cipher {
                type Key = [u8; $bytes];
                type Nonce = [u8; $bytes];
            }

            impl super::sealed::Sealed for $cipher {
                const NUMBER: u32 = $number;
                const KEY_BYTES: usize = $bytes;
                const LANES: u8 = $lanes;
                const MODULE: &'static str = stringify!($module);
                const CIPHER: &'static str = stringify!($cipher);
            }
        )*}

        $(
        #[doc = concat!($standard, ": keys and nonces of ", $bytes, " bytes.")]
        ///
        $(#[$use])*
        ///
        /// ```
        #[doc = concat!("use hunkravy::", stringify!($module), "::{", stringify!($cipher), ", Error, Key, Nonce};")]
        ///
        #[doc = concat!("let (key, nonce): (Key, Nonce) = ([1; ", $bytes, "], [2; ", $bytes, "]);")]
        /// let mut buffer = *b"a message";
        #[doc = concat!("let tag = ", stringify!($cipher), "::<16>::new(&key, &nonce).encrypt_in_place(&mut buffer, b\"header\");")]
        #[doc = concat!(stringify!($cipher), "::<16>::new(&key, &nonce).decrypt_in_place(&mut buffer, &tag, b\"header\")?;")]
        /// assert_eq!(&buffer, b"a message");
        /// # Ok::<(), Error>(())
        /// ```
        pub mod $module {
            pub use crate::{Error, Tag};

            #[doc = concat!("A key of ", $standard, ".")]
            pub type Key = [u8; $bytes];

            #[doc = concat!("A nonce of ", $standard, ", to be used once under a key.")]
            pub type Nonce = [u8; $bytes];

            #[doc = concat!($standard, " under a key and a nonce. [`Cipher`](crate::Cipher) has its functions.")]
            pub type $cipher<const TAG_BYTES: usize> = crate::Cipher<crate::variants::$cipher, TAG_BYTES>;

            #[doc = concat!("Encrypts a message of ", $standard, " in chunks. [`Encryptor`](crate::Encryptor) has its functions.")]
            pub type Encryptor<const TAG_BYTES: usize> = crate::Encryptor<crate::variants::$cipher, TAG_BYTES>;

            #[doc = concat!("Decrypts a message of ", $standard, " in chunks. [`Decryptor`](crate::Decryptor) has its functions.")]
            pub type Decryptor<'a, const TAG_BYTES: usize> = crate::Decryptor<'a, crate::variants::$cipher, TAG_BYTES>;

            #[doc = concat!("The MAC of ", $standard, ". [`Mac`](crate::Mac) has its functions.")]
            pub type $mac<const TAG_BYTES: usize> = crate::Mac<crate::variants::$cipher, TAG_BYTES>;
        }
        )*
    };
}

variants! {
    /// Faster than AEGIS-256. Generate at most 2^48 random nonces under one key.
    aegis128l, "AEGIS-128L", Aegis128L, Aegis128LMac, 16 bytes, 1 lanes, number 0;
    /// For data of other programs that use it.
    aegis128x2, "AEGIS-128X2", Aegis128X2, Aegis128X2Mac, 16 bytes, 2 lanes, number 1, derive(Clone, Copy);
    /// For data of other programs that use it.
    aegis128x4, "AEGIS-128X4", Aegis128X4, Aegis128X4Mac, 16 bytes, 4 lanes, number 2, derive(Clone, Copy);
    /// Use it unless you have a reason for another. Nonces may be random.
    aegis256, "AEGIS-256", Aegis256, Aegis256Mac, 32 bytes, 1 lanes, number 3;
    /// For data of other programs that use it. Nonces may be random.
    aegis256x2, "AEGIS-256X2", Aegis256X2, Aegis256X2Mac, 32 bytes, 2 lanes, number 4, derive(Clone, Copy);
    /// For data of other programs that use it. Nonces may be random.
    aegis256x4, "AEGIS-256X4", Aegis256X4, Aegis256X4Mac, 32 bytes, 4 lanes, number 5, derive(Clone, Copy);
}
