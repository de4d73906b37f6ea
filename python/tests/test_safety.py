"""Objects whose methods lie, objects that no cipher has begun, copies and pickles, and what is left in memory."""

import ast
import copy
import ctypes
import io
import os
import pathlib
import pickle
import re
import resource
import subprocess
import sys
import unittest
from typing import Any, Callable
from unittest import mock

import hunkravy
from hunkravy import Aegis256, Aegis256Mac, Decryptor, Encryptor, SealedWriter, _native
from vectors import CIPHERS

KEY, NONCE = bytes(range(32)), bytes(32)
CIPHER = Aegis256(KEY)
ENVIRONMENT = dict(os.environ, PYTHONPATH=os.pathsep.join(sys.path))

# The address sanitizer keeps freed memory, and does not let it be read.
not_sanitized = unittest.skipIf("HUNKRAVY_SANITIZED" in os.environ, "freed memory under the address sanitizer")


class Lying(bytes):
    """Bytes that have another length, as far as they say."""

    said = 32

    def __len__(self) -> int:
        return self.said

    def __getitem__(self, place: Any) -> Any:
        raise AssertionError("nothing of it is read by its methods")

    def __bytes__(self) -> bytes:
        return bytes(self.said)


class Long(Lying):
    said = 1 << 40


class Lies(unittest.TestCase):
    def test_keys_nonces_and_tags(self) -> None:
        calls: list[Callable[[bytes], object]] = [
            Aegis256,
            Aegis256Mac,
            lambda wrong: Aegis256Mac(KEY, nonce=wrong),
            lambda wrong: Aegis256Mac(KEY).verify(wrong),
            lambda wrong: CIPHER.encrypt(wrong, b""),
            lambda wrong: CIPHER.decrypt(wrong, bytes(40)),
            lambda wrong: CIPHER.encrypt_into(wrong, b"", None, bytearray(32)),
            lambda wrong: CIPHER.keystream(wrong, 10),
            lambda wrong: CIPHER.encryptor(wrong),
            lambda wrong: CIPHER.decryptor(wrong),
            lambda wrong: CIPHER.decryptor(NONCE).finalize(wrong),
        ]
        for call in calls:
            for wrong in (Lying(), Lying(bytes(31)), Long(), Long(bytes(33))):
                self.assertRaises(ValueError, call, wrong)

    def test_messages_and_associated_data(self) -> None:
        sealed = CIPHER.encrypt(NONCE, b"a message", b"header")
        tag = Aegis256Mac(KEY, b"a message").digest()
        for kind in (Lying, Long):
            message, header = kind(b"a message"), kind(b"header")
            self.assertEqual(CIPHER.encrypt(kind(NONCE), message, header), sealed)
            self.assertEqual(Aegis256(kind(KEY)).decrypt(NONCE, kind(sealed), header), b"a message")
            buffer = bytearray(len(sealed))
            CIPHER.encrypt_into(NONCE, message, header, buffer)
            self.assertEqual(buffer, sealed)
            CIPHER.decrypt_into(NONCE, kind(sealed), header, memoryview(buffer)[:9])
            self.assertEqual(buffer[:9], b"a message")
            encryptor, decryptor = CIPHER.encryptor(NONCE, header), CIPHER.decryptor(NONCE, header)
            self.assertEqual(encryptor.update(message) + encryptor.finalize(), sealed)
            decryptor.update(kind(sealed[:9]))
            self.assertEqual(decryptor.finalize(kind(sealed[9:])), b"a message")
            self.assertEqual(Aegis256Mac(KEY, message).digest(), tag)
            Aegis256Mac(KEY, b"a message").verify(kind(tag))


class Begun(unittest.TestCase):
    def test_only_ciphers_begin_messages(self) -> None:
        short = bytes(range(5))
        kinds: list[Any] = [Encryptor, Decryptor]
        for kind in kinds:
            for arguments in ((), (5, 16), (short, 16), (CIPHER._cipher, 16)):
                self.assertRaises(TypeError, kind, *arguments)
            self.assertRaises(AttributeError, kind.__new__(kind).update, b"a chunk")
        self.assertEqual(short, bytes(range(5)))

    def test_native_objects(self) -> None:
        """Native objects are made whole or not at all."""
        state = type(CIPHER.encryptor(NONCE)._state)
        makers: list[Callable[[], object]] = [
            state, lambda: state.__new__(state), lambda: object.__new__(state), type(CIPHER._cipher),
            lambda: object.__new__(type(CIPHER._cipher)), lambda: Aegis256.__new__(Aegis256).tag_length,
            lambda: Aegis256Mac.__new__(Aegis256Mac).digest(), lambda: type("Sub", (state,), {}),
            lambda: setattr(state, "__new__", lambda *_: None),
        ]
        for make in makers:
            self.assertRaises((TypeError, AttributeError), make)

    def test_the_stub(self) -> None:
        """It has the names that the native module has."""
        stub = ast.parse((pathlib.Path(hunkravy.__file__).parent / "_native.pyi").read_text())
        kinds = {kind.name: kind.body for kind in stub.body if isinstance(kind, ast.ClassDef)}
        self.assertEqual({name for name in vars(_native) if isinstance(vars(_native)[name], type)}, set(kinds))
        for name, body in kinds.items():
            stated = {method.name for method in body if isinstance(method, ast.FunctionDef)} - {"__new__"}
            found = vars(_native)[name]
            self.assertEqual({method for method in vars(found) if not method.startswith("_")}, {method for method in stated if not method.startswith("_")})

    def test_a_changed_module(self) -> None:
        """It uses its own types, whatever its names are bound to."""
        own, invalid_tag = _native.State, _native.InvalidTag
        with mock.patch.object(_native, "State", int), mock.patch.object(_native, "InvalidTag", KeyError):
            self.assertIs(type(CIPHER.encryptor(NONCE)._state), own)
            self.assertRaises(invalid_tag, CIPHER.decrypt, NONCE, bytes(40))

    def test_roles(self) -> None:
        """The library refuses a state in another role."""
        encryptor, decryptor = CIPHER.encryptor(NONCE)._state, CIPHER.decryptor(NONCE)._state
        mac = Aegis256Mac(KEY)._state
        encryptor.encrypt(b"a chunk")
        decryptor.decrypt(b"a chunk")
        calls: list[Callable[[], object]] = [
            lambda: encryptor.decrypt(b"a chunk"), lambda: encryptor.mac_update(b""), lambda: mac.encrypt(b"a chunk"),
            lambda: decryptor.encrypt(b"a chunk"), decryptor.final, lambda: mac.decrypt_final(bytes(32)),
            lambda: encryptor.decrypt_final(bytes(32)), lambda: encryptor.mac_verify(bytes(32)),
            lambda: mac.decrypt(b""),
        ]
        for call in calls:
            self.assertRaises(RuntimeError, call)

    def test_record_streams(self) -> None:
        """Records out of turn or of no length that records have."""
        records = _native.Records(KEY, bytes(24), b"context")
        calls: list[tuple[type[Exception], Callable[[], object]]] = [
            (RuntimeError, lambda: records.seal(bytearray(40), False)),
            (RuntimeError, lambda: records.open(bytearray(40))),
            (ValueError, lambda: records.begin(1 << 60, 1 << 60)),
            (RuntimeError, lambda: records.open(bytearray(40))),
            (TypeError, lambda: records.begin("", 1)),  # type: ignore[call-overload]
            (TypeError, lambda: records.open(bytes(40))),
            (TypeError, lambda: records.seal(bytes(40), True)),
        ]
        for error, call in calls:
            self.assertRaises(error, call)
        records.begin()
        for length in (0, 36):
            self.assertRaises(ValueError, records.seal, bytearray(length), True)
        record = bytearray(37)
        records.seal(record, True)
        self.assertRaises(RuntimeError, records.seal, bytearray(40), False)
        records.begin(0, 0)
        self.assertRaises(ValueError, records.open, bytearray(36))
        self.assertIs(records.open(record), True)

    def test_secrets_are_compared_by_the_library(self) -> None:
        """In a time that does not depend on them."""
        folder = pathlib.Path(__file__).parents[1]
        for path, comparison in (
            (folder / "hunkravy" / "_ciphers.py", "^(?! *>>>).*([!=]=|compare)"),
            (folder / "hunkravy" / "_macs.py", "^(?! *>>>).*([!=]=|compare)"),
            (folder / "native" / "native.c", "memcmp|strn?cmp"),
        ):
            self.assertIsNone(re.search(comparison, path.read_text(), re.M), path)


class Copies(unittest.TestCase):
    def test_only_macs_are_copied(self) -> None:
        cipher = Aegis256(bytes(32))
        for state in (cipher.encryptor(bytes(32))._state, cipher.decryptor(bytes(32))._state):
            self.assertRaises(RuntimeError, state.mac_copy)

    def test_a_mac_has_a_state_of_its_own(self) -> None:
        expected = Aegis256Mac(KEY, b"the input", tag_length=16).digest()
        copiers: list[Callable[[Aegis256Mac], Any]] = [copy.copy, copy.deepcopy, Aegis256Mac.copy]
        for copied in copiers:
            mac = Aegis256Mac(KEY, b"the ", tag_length=16)
            other = copied(mac)
            self.assertIs(type(other), Aegis256Mac)
            mac.update(b"other input")
            other.update(b"input")
            self.assertEqual(other.digest(), expected)
            del other
            self.assertEqual(mac.digest(), Aegis256Mac(KEY, b"the other input", tag_length=16).digest())

    def test_the_length_of_a_mac_stays(self) -> None:
        mac = Aegis256Mac(bytes(32), tag_length=16)
        self.assertRaises(AttributeError, setattr, mac, "digest_size", 32)
        self.assertEqual((mac.digest_size, len(mac.digest())), (16, 16))
        self.assertEqual(mac.copy().digest_size, 16)

    def test_attributes_of_a_subclass(self) -> None:
        class Labelled(Aegis256Mac):
            def __init__(self) -> None:
                super().__init__(KEY)
                self.labels, self.itself = ["a label"], self

        mac = Labelled()
        for copied in (mac.copy(), copy.copy(mac), copy.deepcopy(mac)):
            assert isinstance(copied, Labelled)
            self.assertEqual(copied.labels, ["a label"])
            self.assertEqual(copied.digest(), mac.digest())
        self.assertIs(copy.copy(mac).labels, mac.labels)
        deep = copy.deepcopy(mac)
        self.assertIsNot(deep.labels, mac.labels)
        self.assertIs(deep.itself, deep)

    def test_nothing_else_is_copied_or_pickled(self) -> None:
        copiers: list[Callable[[Any], Any]] = [copy.copy, copy.deepcopy]
        secrets: list[Any] = [CIPHER, CIPHER.encryptor(NONCE), CIPHER.decryptor(NONCE)]
        secrets += [cipher(bytes(cipher.KEY_BYTES)) for cipher, _ in CIPHERS.values()]
        writer = SealedWriter(io.BytesIO(), KEY)
        self.addCleanup(writer.close)
        secrets.append(writer)
        for secret in secrets:
            for copied in copiers:
                self.assertRaises(TypeError, copied, secret)
        secrets += [mac(bytes(mac.KEY_BYTES)) for _, mac in CIPHERS.values()]
        self.assertEqual(len(secrets), 16)
        for secret in secrets:
            for protocol in range(pickle.HIGHEST_PROTOCOL + 1):
                self.assertRaises(TypeError, pickle.dumps, secret, protocol)
            self.assertRaises(TypeError, secret.__getstate__)


class Drawn(unittest.TestCase):
    def test_all_come_from_the_system(self) -> None:
        """No process repeats the bytes of another, nor with the same seed of the module random."""
        with mock.patch("os.urandom", side_effect=lambda count: b"\7" * count):
            for cipher, _ in CIPHERS.values():
                self.assertEqual(cipher.generate_key(), b"\7" * cipher.KEY_BYTES)
                self.assertEqual(cipher.generate_nonce(), b"\7" * cipher.NONCE_BYTES)
            self.assertEqual(hunkravy.RecordSealer.generate_prefix(), b"\7" * 24)
            file = io.BytesIO()
            SealedWriter(file, KEY).close()
        self.assertEqual(file.getvalue()[:24], b"\7" * 24)


class Memory(unittest.TestCase):
    """What is left in memory of objects and of chunks."""

    def test_ended_states(self) -> None:
        encryptor, decryptor = CIPHER.encryptor(NONCE), CIPHER.decryptor(NONCE)
        decryptor.update(b"a chunk")
        for state in (encryptor._state, decryptor._state):
            self.assertGreater(len(set(contents(state)[:672])), 50)
        encryptor.finalize()
        self.assertRaises(hunkravy.InvalidTag, decryptor.finalize, bytes(32))
        self.assertRaises(RuntimeError, decryptor.update, b"another chunk")
        for state in (encryptor._state, decryptor._state):
            self.assertEqual(contents(state), bytes(len(contents(state))))

    @not_sanitized
    def test_freed_objects(self) -> None:
        """A program of its own reads the memory of objects after they are freed."""
        subprocess.run([sys.executable, "-c", FREED], env=ENVIRONMENT, timeout=60, check=True)

    @not_sanitized
    def test_nothing_leaks(self) -> None:
        """Many objects and calls, those that fail too, take no more memory than some."""
        sealed = CIPHER.encrypt(NONCE, bytes(5000))

        def calls() -> None:
            for _ in range(2000):
                CIPHER.decrypt(NONCE, sealed)
                CIPHER.encrypt_into(NONCE, bytes(9), b"header", bytearray(41))
                CIPHER.encryptor(NONCE, b"header").update(bytes(5000))
                decryptor = CIPHER.decryptor(NONCE)
                decryptor.update(sealed)
                mac = Aegis256Mac(KEY, bytes(5000)).copy()
                for call in (decryptor.finalize, mac.verify, mac.update, Aegis256, CIPHER.encryptor):
                    for wrong in (bytes(32), b"", "text", None):
                        try:
                            call(wrong)  # type: ignore[operator]
                        except (hunkravy.InvalidTag, TypeError, ValueError, RuntimeError):
                            pass

        def resident() -> int:
            return int(pathlib.Path("/proc/self/statm").read_text().split()[1]) * resource.getpagesize()

        calls()
        before = resident()
        for _ in range(5):
            calls()
        self.assertLess(resident() - before, 4 << 20)


def contents(native: Any) -> bytes:
    """The fields of a native object after those of its lock and the length of tags."""
    return ctypes.string_at(id(native) + 48, type(native).__basicsize__ - 48)


# Objects of 512 bytes or more are freed by the C library, whose own fields take the first 32.
FREED = """
import ctypes
from hunkravy import Aegis256, Aegis256Mac, InvalidTag, SealedReader, SealedWriter
import io

key, nonce = bytes(range(32)), bytes(range(32, 64))
kept = []
cipher = Aegis256(key)
file = io.BytesIO()
with SealedWriter(file, key) as writer:
    pass
made = [lambda: cipher.encryptor(nonce)._state, lambda: cipher.decryptor(nonce)._state,
        lambda: Aegis256Mac(key, bytes(100))._state, lambda: Aegis256(key)._cipher,
        lambda: SealedReader(io.BytesIO(file.getvalue()), key)._records]
for make in made:
    # Memory of its size around it, so that it stays mapped. musl unmaps pages that have nothing else.
    kept += [make() for _ in range(20)]
    native = kept.pop(-10)
    place, length = id(native), type(native).__basicsize__
    before = ctypes.string_at(place, length)
    del native
    after = ctypes.string_at(place, length)
    secret = before[32:]
    assert sum(map(bool, secret)) > 16, make
    for start in range(0, len(secret) - 8):
        part = secret[start : start + 8]
        assert part.count(0) > 3 or part not in after, (make, start)

# The chunks of a decryptor, the last of which a field of the state points to, behind the library's 672 bytes.
message = bytes(range(256)) * 2
ciphertext = cipher.encrypt(nonce, message)
for end in (lambda: decryptor.finalize(ciphertext[-32:]), lambda: decryptor.finalize(bytes(32)), lambda: None):
    decryptor = cipher.decryptor(nonce)
    decryptor.update(ciphertext[:-32])
    place = ctypes.c_void_p.from_address(id(decryptor._state) + 720).value
    kept += [bytes(len(message)) for _ in range(20)]
    assert ctypes.string_at(place + 16, len(message)) == message
    try:
        end()
    except InvalidTag:
        pass
    del decryptor
    assert message[64:128] not in ctypes.string_at(place, len(message)), end
"""
