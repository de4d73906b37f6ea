"""Measures the Python package beside others, one message a call, and prints the time of each round for table.py.

    python.py LIBRARY     LIBRARY is the shared C library
"""

import ctypes
import importlib.metadata
import io
import platform
import sys
import time
from typing import Callable

from hunkravy import Aegis256, SealedReader, SealedWriter

SIZES = {"64": 64, "1 KiB": 1024, "16 KiB": 16_384, "1 MiB": 1 << 20}
# The calls take turns, since a processor is faster at some times than at others.
ROUNDS = 8
SECONDS = 0.05
KEY = bytes(range(32))
CIPHER, NONCE = Aegis256(KEY), bytes(32)

Call = Callable[[], object]
Makers = dict[str, Callable[[bytes], Call]]


def best(call: Call) -> float:
    """The shortest time of the call, in seconds, over some hundredths of a second."""
    shortest, end = float("inf"), time.perf_counter() + SECONDS
    while (start := time.perf_counter()) < end:
        call()
        shortest = min(shortest, time.perf_counter() - start)
    return shortest


def opened(message: bytes) -> Call:
    ciphertext = CIPHER.encrypt(NONCE, message)
    return lambda: CIPHER.decrypt(NONCE, ciphertext)


def into(message: bytes) -> Call:
    """Encrypts a message into a buffer that is there already."""
    buffer = bytearray(len(message) + 32)
    return lambda: CIPHER.encrypt_into(NONCE, message, None, buffer)


def written(contents: bytes) -> Call:
    def write() -> None:
        with SealedWriter(io.BytesIO(), KEY) as writer:
            writer.write(contents)

    return write


def read(contents: bytes) -> Call:
    file = io.BytesIO()
    with SealedWriter(file, KEY) as writer:
        writer.write(contents)
    data, buffer = file.getvalue(), bytearray(len(contents))
    return lambda: SealedReader(io.BytesIO(data), KEY).readinto(buffer)


def c_library(path: str) -> Callable[[bytes], Call]:
    """The function of the C library that `encrypt_into` calls."""
    encrypt = ctypes.CDLL(path).hunkravy_encrypt
    data = [ctypes.c_void_p, ctypes.c_size_t]
    encrypt.argtypes = [ctypes.c_uint32, ctypes.c_void_p, *data * 5]

    def call_of(message: bytes) -> Call:
        output = ctypes.create_string_buffer(len(message))
        tag = ctypes.create_string_buffer(32)
        return lambda: encrypt(3, output, message, len(message), b"", 0, NONCE, 32, KEY, 32, tag, 32)

    return call_of


def others() -> Makers:
    """Other packages that are installed."""
    found: Makers = {}
    try:
        from cryptography.hazmat.primitives.ciphers.aead import ChaCha20Poly1305

        chacha = ChaCha20Poly1305(KEY)
        name = f"`cryptography` {importlib.metadata.version('cryptography')}"
        found[name] = lambda message: lambda: chacha.encrypt(bytes(12), message, None)
    except ImportError:
        pass
    try:
        from nacl.bindings import crypto_aead_chacha20poly1305_ietf_encrypt as encrypt

        name = f"PyNaCl {importlib.metadata.version('pynacl')}"
        found[name] = lambda message: lambda: encrypt(message, None, bytes(12), KEY)
    except ImportError:
        pass
    return found


def main() -> None:
    makers: Makers = {
        "`encrypt`": lambda message: lambda: CIPHER.encrypt(NONCE, message),
        "`decrypt`": opened,
        "`encrypt_into`": into,
        "`SealedWriter`": written,
        "`SealedReader`": read,
    }
    makers["the C library"] = c_library(sys.argv[1])
    makers |= others()
    calls = [
        (name, title, size, maker(bytes(size))) for name, maker in makers.items() for title, size in SIZES.items()
    ]
    for _ in range(ROUNDS):
        for name, title, size, call in calls:
            print(name, title, best(call), size, sep="\t")
    print(f"Python {platform.python_version()}.")


if __name__ == "__main__":
    main()
