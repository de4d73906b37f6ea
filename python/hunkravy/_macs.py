"""MACs, in the manner of the standard library's `hmac`."""

from __future__ import annotations

import operator
from copy import deepcopy
from typing import TYPE_CHECKING, Any, Optional, Self

from . import _native, _variants as variants

if TYPE_CHECKING:
    from _typeshed import ReadableBuffer as _ReadableBuffer


class Mac(variants.Variant, variants.Secret):
    """The MAC of an input that comes in chunks: `Aegis256Mac` or another of the six variants.

    `key` has `KEY_BYTES` bytes, and must be used for nothing but MACs. `message` is the first chunk of the input, as in
    `hmac.new`: it is not a nonce. `nonce` has `NONCE_BYTES` bytes, and is zeros if it is left out. `tag_length` is the
    length of the MAC in bytes, 16 or 32. Any other length of a key or a nonce raises `ValueError`.

    >>> from hunkravy import Aegis128LMac
    >>> mac = Aegis128LMac(bytes(16))
    >>> mac.update(b"the ")
    >>> mac.update(b"input")
    >>> mac.verify(Aegis128LMac(bytes(16), b"the input").digest())
    """

    __slots__ = ("_digest_size", "_state")
    _state: _native.State

    def __init__(
        self,
        key: _ReadableBuffer,
        message: Optional[_ReadableBuffer] = None,
        *,
        nonce: Optional[_ReadableBuffer] = None,
        tag_length: int = 32,
    ) -> None:
        tag_length = operator.index(tag_length)
        cipher = _native.Cipher(self._VARIANT, key, tag_length)
        self._state = cipher.begin(bytes(self.NONCE_BYTES) if nonce is None else nonce)
        self._digest_size = tag_length
        if message is not None:
            self._state.mac_update(message)

    @property
    def digest_size(self) -> int:
        """The length of the MAC in bytes."""
        return self._digest_size

    def update(self, data: _ReadableBuffer) -> None:
        """Takes in the next chunk of the input."""
        self._state.mac_update(data)

    def digest(self) -> bytes:
        """Returns the MAC of the input so far. More input may follow."""
        return self._state.final()

    def hexdigest(self) -> str:
        """Returns the MAC of the input so far in hexadecimal digits. More input may follow."""
        return self.digest().hex()

    def verify(self, mac: _ReadableBuffer) -> None:
        """Raises `InvalidTag` unless this is the MAC of the input so far. More input may follow.

        The comparison does not stop at the first difference. Any other length raises `ValueError`.
        """
        self._state.mac_verify(mac)

    def copy(self) -> Self:
        """Returns an independent copy with the same input so far.

        If a subclass has attributes, the copy has them too, except those in slots.
        """
        other = type(self).__new__(type(self))
        other._digest_size = self._digest_size
        other._state = self._state.mac_copy()
        if hasattr(self, "__dict__"):
            other.__dict__.update(self.__dict__)
        return other

    __copy__ = copy

    def __deepcopy__(self, memo: dict[int, Any]) -> Self:
        other = self.copy()
        # An attribute may lead back to the MAC.
        memo[id(self)] = other
        if hasattr(self, "__dict__"):
            other.__dict__.update(deepcopy(self.__dict__, memo))
        return other


class Aegis128LMac(Mac, variant=0):
    """The MAC of AEGIS-128L: keys and nonces of 16 bytes."""

    __slots__ = ()


class Aegis128X2Mac(Mac, variant=1):
    """The MAC of AEGIS-128X2: keys and nonces of 16 bytes."""

    __slots__ = ()


class Aegis128X4Mac(Mac, variant=2):
    """The MAC of AEGIS-128X4: keys and nonces of 16 bytes."""

    __slots__ = ()


class Aegis256Mac(Mac, variant=3):
    """The MAC of AEGIS-256: keys and nonces of 32 bytes."""

    __slots__ = ()


class Aegis256X2Mac(Mac, variant=4):
    """The MAC of AEGIS-256X2: keys and nonces of 32 bytes."""

    __slots__ = ()


class Aegis256X4Mac(Mac, variant=5):
    """The MAC of AEGIS-256X4: keys and nonces of 32 bytes."""

    __slots__ = ()
