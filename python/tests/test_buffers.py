"""Buffers of other types, wrong lengths, and objects that have ended."""

import array
import ctypes
import mmap
import unittest
from typing import TYPE_CHECKING, Any, Callable

import hunkravy
from hunkravy import Aegis128L, Aegis256, Aegis256Mac

if TYPE_CHECKING:
    from _typeshed import ReadableBuffer, WriteableBuffer

KEY, NONCE = bytes(range(32)), bytes(32)
CIPHER = Aegis256(KEY)


class Buffers(unittest.TestCase):
    def test_each_type_is_read(self) -> None:
        message = bytes(range(200))
        sealed = CIPHER.encrypt(NONCE, message, b"header")
        mapped = mmap.mmap(-1, len(message))
        mapped[:] = message
        array_of_bytes = array.array("B", message)
        buffers: list[ReadableBuffer] = [bytearray(message), memoryview(message), array_of_bytes, mapped]
        for buffer in buffers:
            self.assertEqual(CIPHER.encrypt(bytearray(NONCE), buffer, memoryview(b"header")), sealed)
            encryptor = CIPHER.encryptor(NONCE, bytearray(b"header"))
            self.assertEqual(encryptor.update(buffer) + encryptor.finalize(), sealed)
            self.assertEqual(Aegis256Mac(KEY, buffer).digest(), Aegis256Mac(KEY, message).digest())

    def test_each_type_is_written(self) -> None:
        message = bytes(range(200))
        sealed = CIPHER.encrypt(NONCE, message)
        mapped = mmap.mmap(-1, len(sealed))
        array_of_bytes = array.array("B", bytes(len(sealed)))
        buffers: list[WriteableBuffer] = [bytearray(len(sealed)), array_of_bytes, mapped]
        for buffer in buffers:
            self.assertEqual(CIPHER.encrypt_into(NONCE, message, None, buffer), len(sealed))
            self.assertEqual(bytes(memoryview(buffer)), sealed)
        numbers = array.array("I", bytes(len(message)))
        self.assertEqual(CIPHER.decrypt_into(NONCE, memoryview(sealed), None, numbers), len(message))
        self.assertEqual(numbers.tobytes(), message)

    def test_names_of_arguments(self) -> None:
        buffer = bytearray(41)
        sealed = CIPHER.encrypt(nonce=NONCE, data=b"a message", associated_data=b"header")
        CIPHER.encrypt_into(nonce=NONCE, data=b"a message", associated_data=b"header", buf=buffer)
        self.assertEqual(buffer, sealed)
        self.assertEqual(CIPHER.decrypt(nonce=NONCE, data=sealed, associated_data=b"header"), b"a message")
        mac = Aegis256Mac(key=KEY, message=b"input", nonce=NONCE, tag_length=16)
        self.assertEqual(mac.digest(), Aegis256Mac(KEY, b"input", tag_length=16).digest())

    def test_every_overlap(self) -> None:
        """The message, the nonce and the associated data lie where the output is written, at each distance."""
        start = bytes(range(200))
        for first in range(0, 69, 3):
            for nonce in (0, 10, 60, 100, 150):
                for header in (slice(0, 0), slice(0, 40), slice(50, 132), slice(120, 200)):
                    buffer = bytearray(start)
                    view = memoryview(buffer)
                    expected = CIPHER.encrypt(start[nonce : nonce + 32], start[first : first + 100], start[header])
                    CIPHER.encrypt_into(view[nonce : nonce + 32], view[first : first + 100], view[header], view[40:172])
                    self.assertEqual(buffer, start[:40] + expected + start[172:])
        for first in range(0, 68, 3):
            buffer = bytearray(start)
            view = memoryview(buffer)
            view[first : first + 132] = CIPHER.encrypt(NONCE, start[:100], b"header")
            CIPHER.decrypt_into(NONCE, view[first : first + 132], b"header", view[34:134])
            self.assertEqual(buffer[34:134], start[:100])

    def test_nothing_is_written_after_an_error(self) -> None:
        wrong: list[tuple[Any, Any, Any]] = [
            (b"", bytes(9), None), (5, bytes(9), None), (NONCE, 5, None), (NONCE, bytes(9), 5), (NONCE, bytes(8), None),
            (NONCE, bytes(10), None), (NONCE, "text", None), (NONCE, bytes(9), "text"), (None, bytes(9), None),
        ]
        for nonce, data, header in wrong:
            buffer = bytearray(b"a" * 41)
            self.assertRaises((TypeError, ValueError), CIPHER.encrypt_into, nonce, data, header, buffer)
            data = bytes(73 if len(data) == 9 else 32 + len(data)) if isinstance(data, bytes) else data
            self.assertRaises((TypeError, ValueError), CIPHER.decrypt_into, nonce, data, header, buffer)
            self.assertEqual(buffer, b"a" * 41)
        buffer = bytearray(b"a" * 41)
        self.assertRaises(hunkravy.InvalidTag, CIPHER.decrypt_into, NONCE, bytes(31), None, buffer)
        self.assertEqual(buffer, b"a" * 41)
        self.assertRaises(hunkravy.InvalidTag, CIPHER.decrypt_into, NONCE, bytes(73), None, buffer)
        self.assertEqual(buffer, b"\xaa" * 41)

    def test_buffers_are_held_and_given_back(self) -> None:
        buffers = [bytearray(data) for data in (NONCE, b"a message", b"header", bytes(41), bytes(9), KEY)]
        nonce, data, header, output, opened, key = buffers
        cipher = Aegis256(key)
        cipher.encrypt_into(nonce, data, header, output)
        cipher.decrypt_into(nonce, output, header, opened)
        self.assertRaises(hunkravy.InvalidTag, cipher.decrypt, nonce, output, data)
        self.assertRaises(ValueError, cipher.encrypt_into, nonce, data, header, opened)
        self.assertRaises(TypeError, cipher.encrypt_into, nonce, data, header, b"")
        cipher.encryptor(nonce, header).update(data)
        cipher.decryptor(nonce, header).update(data)
        mac = Aegis256Mac(key, data, nonce=nonce)
        self.assertRaises(hunkravy.InvalidTag, mac.verify, nonce)
        for buffer in buffers:
            # Raises BufferError while anybody holds it.
            buffer.append(0)


class Errors(unittest.TestCase):
    def test_wrong_lengths(self) -> None:
        for wrong in (b"", bytes(31), bytes(33)):
            calls: list[tuple[str, Callable[[], object]]] = [
                ("key", lambda: Aegis256(wrong)),
                ("key", lambda: Aegis256Mac(wrong)),
                ("nonce", lambda: CIPHER.encrypt(wrong, b"")),
                ("nonce", lambda: CIPHER.decrypt(wrong, bytes(100))),
                ("nonce", lambda: CIPHER.encryptor(wrong)),
                ("nonce", lambda: CIPHER.decryptor(wrong)),
                ("nonce", lambda: CIPHER.keystream(wrong, 10)),
                ("nonce", lambda: Aegis256Mac(KEY, nonce=wrong)),
                ("MAC", lambda: Aegis256Mac(KEY).verify(wrong)),
                ("tag", lambda: CIPHER.decryptor(NONCE).finalize(wrong)),
                ("output buffer", lambda: CIPHER.encrypt_into(NONCE, b"", None, bytearray(wrong))),
            ]
            for name, call in calls:
                self.assertRaisesRegex(ValueError, f"^the {name} must have 32 bytes, not {len(wrong)}$", call)

    def test_lengths_of_tags(self) -> None:
        for length in range(-1, 70):
            makers: list[Callable[[], object]] = [
                lambda: Aegis256(KEY, length),
                lambda: Aegis256Mac(KEY, tag_length=length),
            ]
            for make in makers:
                if length in (16, 32):
                    make()
                else:
                    self.assertRaisesRegex(ValueError, f"^tag_length must be 16 or 32, not {length}$", make)
        for wrong in ("16", 16.0, None, 1 << 80):
            self.assertRaises((TypeError, OverflowError), Aegis256, KEY, wrong)

    def test_no_tag(self) -> None:
        for length in (0, 1, 31):
            self.assertRaises(hunkravy.InvalidTag, CIPHER.decrypt, NONCE, bytes(length))

    def test_error_messages(self) -> None:
        self.assertRaisesRegex(hunkravy.InvalidTag, "invalid tag", CIPHER.decrypt, NONCE, bytes(40))
        self.assertRaisesRegex(hunkravy.InvalidTag, "invalid tag", Aegis256Mac(KEY).verify, bytes(32))
        self.assertRaisesRegex(TypeError, "^use one of the six variants, such as Aegis256$", hunkravy.Cipher, KEY)
        self.assertRaisesRegex(TypeError, "^use one of the six variants, such as Aegis256$", hunkravy.Mac, b"")

    def test_wrong_types(self) -> None:
        wrong: Any
        for wrong in ("text", 5, None, [1, 2], memoryview(bytes(64))[::2]):
            calls: list[Callable[[], object]] = [
                lambda: CIPHER.encrypt(NONCE, wrong),
                lambda: CIPHER.encryptor(NONCE).update(wrong),
                lambda: CIPHER.decryptor(NONCE).update(wrong),
                lambda: CIPHER.decryptor(NONCE).finalize(wrong),
                lambda: Aegis256Mac(KEY).update(wrong),
                lambda: Aegis256Mac(KEY).verify(wrong),
                lambda: Aegis128L(wrong),
                lambda: CIPHER.keystream(wrong, 5),
            ]
            for call in calls:
                self.assertRaises((TypeError, BufferError), call)
        for output in (bytes(32), memoryview(bytearray(32)).toreadonly(), memoryview(bytearray(64))[::2], None, 5):
            self.assertRaises((TypeError, BufferError), CIPHER.encrypt_into, NONCE, b"", None, output)

    def test_lengths_past_limits(self) -> None:
        """Buffers that claim lengths which no memory has. Nothing of them is read."""
        huge: Any = (ctypes.c_char * (1 << 62)).from_address(1 << 12)
        output: Any = (ctypes.c_char * ((1 << 62) + 32)).from_address(1 << 12)
        calls: list[Callable[[], object]] = [
            lambda: CIPHER.encrypt(NONCE, huge),
            lambda: CIPHER.encrypt(NONCE, b"", huge),
            lambda: CIPHER.decrypt(NONCE, huge),
            lambda: CIPHER.encrypt_into(NONCE, huge, None, output),
            lambda: CIPHER.decrypt_into(NONCE, output, None, huge),
            lambda: CIPHER.encrypt_into(NONCE, b"", huge, bytearray(32)),
            lambda: CIPHER.encryptor(NONCE, huge),
            lambda: CIPHER.encryptor(NONCE).update(huge),
            lambda: CIPHER.decryptor(NONCE).update(huge),
            lambda: Aegis256Mac(KEY, huge),
            lambda: CIPHER.keystream(NONCE, (1 << 63) - 1),
            lambda: CIPHER.keystream(NONCE, 1 << 62),
            lambda: CIPHER.keystream(NONCE, 1 << 64),
            lambda: CIPHER.keystream(NONCE, -1),
        ]
        for call in calls:
            self.assertRaises((ValueError, MemoryError, OverflowError), call)
        for wrong in (b"abc", [1, 2], "3", 2.0, None):
            self.assertRaises(TypeError, CIPHER.keystream, NONCE, wrong)

    def test_after_the_end(self) -> None:
        encryptor, decryptor = CIPHER.encryptor(NONCE), CIPHER.decryptor(NONCE)
        encryptor.finalize()
        self.assertRaises(hunkravy.InvalidTag, decryptor.finalize, bytes(32))
        calls: list[Callable[[], object]] = [
            encryptor.finalize,
            lambda: encryptor.update(b""),
            lambda: decryptor.finalize(bytes(32)),
            lambda: decryptor.update(b""),
            lambda: decryptor.update(b"more"),
        ]
        for call in calls:
            self.assertRaisesRegex(RuntimeError, "^this message has already ended$", call)

    def test_an_error_takes_nothing_in(self) -> None:
        """After a wrong argument the message goes on."""
        encryptor, decryptor, mac = CIPHER.encryptor(NONCE), CIPHER.decryptor(NONCE), Aegis256Mac(KEY)
        sealed = b""
        for chunk in (b"a ", b"message"):
            for update in (encryptor.update, decryptor.update, mac.update):
                self.assertRaises(TypeError, update, "text")
            sealed += encryptor.update(chunk)
            decryptor.update(sealed[-len(chunk) :])
            mac.update(chunk)
        tag = encryptor.finalize()
        self.assertEqual(sealed + tag, CIPHER.encrypt(NONCE, b"a message"))
        for wrong in (bytes(16), b""):
            self.assertRaises(ValueError, decryptor.finalize, wrong)
        self.assertEqual(decryptor.finalize(tag), b"a message")
        mac.verify(Aegis256Mac(KEY, b"a message").digest())
