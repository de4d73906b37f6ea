"""The ciphers: messages in one call or in chunks, and keystreams."""

from __future__ import annotations

import operator
import os
from typing import TYPE_CHECKING, Optional, Self

from . import _native, _variants as variants

if TYPE_CHECKING:
    from _typeshed import ReadableBuffer as _ReadableBuffer, WriteableBuffer as _WriteableBuffer

NO_DATA = b""


class Cipher(variants.Variant, variants.Secret):
    """A cipher with a key: `Aegis256` or another of the six variants.

    `key` has `KEY_BYTES` bytes. `tag_length` is the length of its tags in bytes, 16 or 32. Any other length of either
    raises `ValueError`.

    Keys, nonces, data and associated data may be any contiguous buffers of bytes, such as bytes, bytearray, memoryview,
    mmap and array. A nonce has `NONCE_BYTES` bytes. Any other length of a nonce or of an output buffer raises
    `ValueError`, and then nothing is written.
    """

    __slots__ = ("_cipher", "_tag_length")

    def __init__(self, key: _ReadableBuffer, tag_length: int = 32) -> None:
        tag_length = operator.index(tag_length)
        self._cipher = _native.Cipher(self._VARIANT, key, tag_length)
        self._tag_length = tag_length

    @classmethod
    def generate_key(cls) -> bytes:
        """Returns a random key."""
        return os.urandom(cls.KEY_BYTES)

    @classmethod
    def generate_nonce(cls) -> bytes:
        """Returns a random nonce.

        Nonces of 32 bytes may be random for any number of messages, and those of 16 bytes for up to 2^48 messages under
        one key.
        """
        return os.urandom(cls.NONCE_BYTES)

    @property
    def tag_length(self) -> int:
        """The length of a tag in bytes."""
        return self._tag_length

    def encrypt(
        self, nonce: _ReadableBuffer, data: _ReadableBuffer, associated_data: Optional[_ReadableBuffer] = None
    ) -> bytes:
        """Returns the ciphertext of a message, with its tag after it."""
        return self._cipher.encrypt(nonce, data, NO_DATA if associated_data is None else associated_data)

    def encrypt_into(
        self,
        nonce: _ReadableBuffer,
        data: _ReadableBuffer,
        associated_data: Optional[_ReadableBuffer],
        buf: _WriteableBuffer,
    ) -> int:
        """Encrypts a message into `buf`, which must be as long as message and tag together. Returns that length.

        The other arguments may lie in the buffer. Until the method returns, the buffer may hold the message. If it
        raises an exception, nothing was written.
        """
        return self._cipher.encrypt(nonce, data, NO_DATA if associated_data is None else associated_data, buf)

    def decrypt(
        self, nonce: _ReadableBuffer, data: _ReadableBuffer, associated_data: Optional[_ReadableBuffer] = None
    ) -> bytes:
        """Returns the message of a ciphertext that has its tag after it.

        Raises `InvalidTag` if the tag is wrong, or if the data are shorter than a tag.
        """
        return self._cipher.decrypt(nonce, data, NO_DATA if associated_data is None else associated_data)

    def decrypt_into(
        self,
        nonce: _ReadableBuffer,
        data: _ReadableBuffer,
        associated_data: Optional[_ReadableBuffer],
        buf: _WriteableBuffer,
    ) -> int:
        """Decrypts a ciphertext that has its tag after it into a buffer of the message's length. Returns that length.

        The other arguments may lie in the buffer. Raises `InvalidTag` if the tag is wrong: each byte of the buffer is
        then 0xaa. If the data are shorter than a tag, `InvalidTag` is raised and nothing is written. Until the method
        returns the buffer may hold bytes that are not verified.
        """
        return self._cipher.decrypt(nonce, data, NO_DATA if associated_data is None else associated_data, buf)

    def encryptor(self, nonce: _ReadableBuffer, associated_data: Optional[_ReadableBuffer] = None) -> Encryptor:
        """Begins a message that is encrypted in chunks."""
        return Encryptor._of(self._begin(nonce, associated_data))

    def decryptor(self, nonce: _ReadableBuffer, associated_data: Optional[_ReadableBuffer] = None) -> Decryptor:
        """Begins a ciphertext that is decrypted in chunks."""
        return Decryptor._of(self._begin(nonce, associated_data))

    def keystream(self, nonce: _ReadableBuffer, length: int) -> bytes:
        """Returns the first bytes of a keystream. Never use a nonce for both a message and a keystream."""
        return self._cipher.keystream(nonce, length)

    def _begin(self, nonce: _ReadableBuffer, associated_data: Optional[_ReadableBuffer]) -> _native.State:
        return self._cipher.begin(nonce, NO_DATA if associated_data is None else associated_data)


class Chunks(variants.Secret):
    """A message in chunks. With right arguments each method raises `RuntimeError` once the message has ended.

    A method that raises `TypeError`, `ValueError` or `MemoryError` has had no effect.
    """

    __slots__ = ("_state",)
    _state: _native.State

    def __init__(self) -> None:
        raise TypeError(f"create {type(self).__name__} objects with a cipher's `encryptor` or `decryptor`")

    @classmethod
    def _of(cls, state: _native.State) -> Self:
        chunks = cls.__new__(cls)
        chunks._state = state
        return chunks


class Encryptor(Chunks):
    """A message that is encrypted in chunks, which `Cipher.encryptor` begins.

    After a fork only one of the two processes may go on with it: both have its nonce.

    >>> from hunkravy import Aegis128L
    >>> cipher, nonce = Aegis128L(bytes(16)), bytes(16)
    >>> encryptor = cipher.encryptor(nonce)
    >>> ciphertext = encryptor.update(b"a mes") + encryptor.update(b"sage") + encryptor.finalize()
    >>> ciphertext == cipher.encrypt(nonce, b"a message")
    True
    """

    __slots__ = ()

    def update(self, data: _ReadableBuffer) -> bytes:
        """Returns the ciphertext of the next chunk."""
        return self._state.encrypt(data)

    def finalize(self) -> bytes:
        """Ends the message, and returns its tag."""
        return self._state.final()


class Decryptor(Chunks):
    """A ciphertext that is decrypted in chunks, which `Cipher.decryptor` begins.

    The message is kept in memory, and no byte of it can be read until `finalize` has verified the tag.

    >>> from hunkravy import Aegis128L
    >>> cipher, nonce = Aegis128L(bytes(16)), bytes(16)
    >>> ciphertext = cipher.encrypt(nonce, b"a message")
    >>> decryptor = cipher.decryptor(nonce)
    >>> decryptor.update(ciphertext[:5])
    >>> decryptor.update(ciphertext[5:-32])
    >>> decryptor.finalize(ciphertext[-32:])
    b'a message'
    """

    __slots__ = ()

    def update(self, data: _ReadableBuffer) -> None:
        """Takes in the next chunk of the ciphertext, without its tag."""
        self._state.decrypt(data)

    def finalize(self, tag: _ReadableBuffer) -> bytes:
        """Ends the ciphertext, and returns its message.

        Raises `InvalidTag`, and erases the message, if the tag is wrong. Any other length of the tag raises
        `ValueError`, and `finalize` can be called again.
        """
        return self._state.decrypt_final(tag)


class Aegis128L(Cipher, variant=0):
    """AEGIS-128L: keys and nonces of 16 bytes.

    A published test vector:

    >>> key = bytes.fromhex("10010000000000000000000000000000")
    >>> nonce = bytes.fromhex("10000200000000000000000000000000")
    >>> Aegis128L(key, 16).encrypt(nonce, bytes(16)).hex()
    'c1c0e58bd913006feba00f4b3cc3594eabe0ece80c24868a226a35d16bdae37a'
    """

    __slots__ = ()


class Aegis128X2(Cipher, variant=1):
    """AEGIS-128X2: two lanes of AEGIS-128L."""

    __slots__ = ()


class Aegis128X4(Cipher, variant=2):
    """AEGIS-128X4: four lanes of AEGIS-128L."""

    __slots__ = ()


class Aegis256(Cipher, variant=3):
    """AEGIS-256: keys and nonces of 32 bytes."""

    __slots__ = ()


class Aegis256X2(Cipher, variant=4):
    """AEGIS-256X2: two lanes of AEGIS-256."""

    __slots__ = ()


class Aegis256X4(Cipher, variant=5):
    """AEGIS-256X4: four lanes of AEGIS-256."""

    __slots__ = ()
