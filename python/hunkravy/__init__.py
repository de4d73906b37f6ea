"""The AEGIS ciphers, their MACs, record streams, sealed files, and random-access files.

A message is encrypted in one call or in chunks. A decrypted message is returned only after its tag is verified:

>>> from hunkravy import Aegis256, InvalidTag
>>> cipher = Aegis256(Aegis256.generate_key())
>>> nonce = Aegis256.generate_nonce()
>>> ciphertext = cipher.encrypt(nonce, b"a message", b"header")
>>> cipher.decrypt(nonce, ciphertext, b"header")
b'a message'
>>> try:
...     cipher.decrypt(nonce, ciphertext, b"another header")
... except InvalidTag:
...     print("not authentic")
not authentic

Never use a nonce twice under one key: nothing detects it.

The ciphers are a C library with a proved core. This package is tested, and not proved. Several threads may use an
object, a `RandomAccessFile` only with `check_same_thread=False`. The GIL is released for work on 4 KiB or more.
"""

from ._ciphers import (
    Aegis128L,
    Aegis128X2,
    Aegis128X4,
    Aegis256,
    Aegis256X2,
    Aegis256X4,
    Cipher,
    Decryptor,
    Encryptor,
)
from ._files import SealedFileError, SealedReader, SealedWriter, read_key
from ._macs import Aegis128LMac, Aegis128X2Mac, Aegis128X4Mac, Aegis256Mac, Aegis256X2Mac, Aegis256X4Mac, Mac
from ._native import LEVEL as _LEVEL, VERSION as __version__, InvalidTag
from ._random_access import RandomAccessError, RandomAccessFile, RandomAccessStream
from ._records import RecordError, RecordOpener, RecordSealer

__all__ = [
    "Aegis128L",
    "Aegis128LMac",
    "Aegis128X2",
    "Aegis128X2Mac",
    "Aegis128X4",
    "Aegis128X4Mac",
    "Aegis256",
    "Aegis256Mac",
    "Aegis256X2",
    "Aegis256X2Mac",
    "Aegis256X4",
    "Aegis256X4Mac",
    "Cipher",
    "Decryptor",
    "Encryptor",
    "InvalidTag",
    "Mac",
    "RandomAccessError",
    "RandomAccessFile",
    "RandomAccessStream",
    "RecordError",
    "RecordOpener",
    "RecordSealer",
    "SealedFileError",
    "SealedReader",
    "SealedWriter",
    "__version__",
    "level",
    "read_key",
]


def level() -> int:
    """Returns which build of the library runs: 3 or 2 for x86-64-v3 or x86-64-v2, and 1 on aarch64.

    >>> level() in (1, 2, 3)
    True
    """
    return _LEVEL
