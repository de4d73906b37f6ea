"""Sealed files: writing and reading, and damaged files that the tests of the tool and of Rust read too."""

import array
import concurrent.futures
import csv
import ctypes
import errno
import io
import itertools
import os
import pathlib
import random
import shutil
import tarfile
import tempfile
import time
import tracemalloc
import unittest
import warnings
from typing import Any, BinaryIO, Iterator, Optional, cast
from unittest import mock

from hunkravy import SealedFileError, SealedReader, SealedWriter, _native, read_key
from processes import returns_in_a_fork

DATA = pathlib.Path(__file__).parents[2] / "crates" / "hunkravy" / "data"
KEY = read_key(DATA / "key")
PREFIX = bytes(range(24))
PIECE = 65_536


def sealed(contents: bytes, key: bytes = KEY) -> bytes:
    """The sealed file of contents."""
    file = io.BytesIO()
    with SealedWriter(file, key) as writer:
        writer.write(contents)
    return file.getvalue()


def with_pieces(pieces: list[bytes]) -> bytes:
    """The sealed file with these pieces, the last of which is that of the last record."""
    records = _native.Records(KEY, PREFIX, b"hunkravy v1")
    records.begin()
    file = PREFIX + b"AGR2"
    for number, piece in enumerate(pieces):
        part = bytearray(5) + piece + bytearray(32)
        records.seal(part, number == len(pieces) - 1)
        file += part
    return file


class Unreliable(io.BytesIO):
    """A file whose reads and seeks may fail, or read less."""

    def __init__(self, data: bytes, numbers: random.Random, fails: float) -> None:
        super().__init__(data)
        self.numbers, self.fails = numbers, fails

    def read(self, size: Optional[int] = -1) -> bytes:
        if self.numbers.random() < self.fails:
            raise OSError("broken")
        assert size is not None
        return super().read(self.numbers.randint(1, size))

    def seek(self, offset: int, whence: int = 0) -> int:
        if self.numbers.random() < self.fails:
            raise OSError("broken")
        return super().seek(offset, whence)


class Counted(io.BytesIO):
    """A file that notes the size that each read asks for."""

    def __init__(self, data: bytes) -> None:
        super().__init__(data)
        self.sizes: list[Optional[int]] = []

    def read(self, size: Optional[int] = -1) -> bytes:
        self.sizes.append(size)
        return super().read(size)


class Slow(io.RawIOBase):
    """A file that reads and writes only some bytes at a time, and fails or has nothing at chosen calls."""

    def __init__(self, data: bytes = b"", most: int = 7, fails: Optional[dict[int, Any]] = None) -> None:
        self.file, self.most, self.fails, self.calls = io.BytesIO(data), most, fails or {}, 0

    def _call(self) -> Any:
        self.calls += 1
        answer = self.fails.get(self.calls, self)
        if isinstance(answer, BaseException):
            raise answer
        return answer

    def read(self, size: int = -1) -> Any:
        answer = self._call()
        return self.file.read(min(size, self.most)) if answer is self else answer

    def write(self, data: Any) -> Any:
        answer = self._call()
        return self.file.write(data[: self.most]) if answer is self else answer


def unsupported(*names: str) -> Iterator[tuple[str, tuple[Any, ...]]]:
    """These methods of files, with arguments."""
    arguments = {"readinto": (bytearray(1),), "write": (b"abc",), "writelines": ([b"abc"],), "seek": (0,), "truncate": (0,)}
    return ((name, arguments.get(name, ())) for name in names)


def slow(data: bytes = b"", most: int = 7, fails: Optional[dict[int, Any]] = None) -> BinaryIO:
    return cast(BinaryIO, Slow(data, most, fails))


def damaged_files() -> Iterator[tuple[str, bytes, bytes, str, int]]:
    """The names, the bytes and the keys of the damaged files, their causes, and how many bytes are verified before."""
    with open(DATA / "damaged.csv", newline="") as file:
        for row in csv.DictReader(file):
            data, key = bytes.fromhex(row["file"]), bytes.fromhex(row["key"])
            yield row["name"], data, key, row["cause"], int(row["verified"])


class Damaged(unittest.TestCase):
    contents = b"0123456789abcdefghijkl"

    def read(self, file: BinaryIO, key: bytes, size: int) -> tuple[bytes, str]:
        """The bytes that were read before a fault, and its cause."""
        found = b""
        try:
            reader = SealedReader(file, key)
        except SealedFileError as error:
            return found, error.cause
        try:
            while part := reader.read(size):
                found += part
        except SealedFileError as error:
            # It stays.
            for call in (lambda: reader.read(1), lambda: reader.readinto(bytearray(1)), reader.readall):
                with self.assertRaises(SealedFileError) as again:
                    call()
                self.assertEqual(again.exception.args, error.args)
            cause = f"damaged {error.record}" if error.cause == "damaged" else error.cause
            return found, cause
        self.assertEqual(reader.read(1), b"")
        return found, "none"

    def test_each_file(self) -> None:
        count = 0
        for name, data, key, cause, verified in damaged_files():
            for size in (1, 3, 100):
                for file in (io.BytesIO(data), slow(data, 1), slow(data, 11)):
                    with self.subTest(name, size=size):
                        found, said = self.read(file, key, size)
                        self.assertEqual((said, len(found)), (cause, verified))
                        self.assertTrue(self.contents.startswith(found) or found == b"xyz")
            count += 1
        self.assertEqual(count, 126)

    def test_each_flipped_bit_by_position(self) -> None:
        """What is read at a position is right, or an error."""
        whole = (DATA / "records.sealed").read_bytes()
        errors = 0
        for bit in range(8 * 28, 8 * len(whole)):
            data = bytearray(whole)
            data[bit // 8] ^= 1 << bit % 8
            for position in (0, 9, 10, 16, 17, 21, 22, 30):
                try:
                    with SealedReader(io.BytesIO(data), KEY) as reader:
                        reader.seek(position)
                        found = reader.read(3)
                        self.assertTrue(self.contents[position:].startswith(found))
                except SealedFileError:
                    errors += 1
        self.assertGreater(errors, 3000)

    def test_no_error_keeps_what_was_read(self) -> None:
        file = sealed(bytes(200_000))[:-1]
        reader = SealedReader(io.BytesIO(file), KEY)
        errors = []
        for _ in range(3):
            with self.assertRaises(SealedFileError) as raised:
                reader.readall()
            errors.append(raised.exception)
        self.assertEqual(len({id(error) for error in errors}), 3)
        self.assertEqual({error.args for error in errors}, {("truncated", 4)})
        kept = reader._error
        self.assertTrue(kept is not None and kept.__traceback__ is None)

    def test_wrong_arguments_of_a_reader(self) -> None:
        reader = SealedReader(io.BytesIO(sealed(b"contents")), KEY)
        for wrong in ("x", None, 1.5):
            self.assertRaises(TypeError, reader.seek, wrong)
        self.assertRaises(TypeError, reader.readinto, b"abc")
        self.assertEqual(reader.read(), b"contents")

    def test_error_messages(self) -> None:
        for cause, text in (
            ("header", "not a sealed file: bytes 24 to 27 are not AGR2"),
            ("damaged", "record 3 is damaged, or the key is wrong"),
        ):
            self.assertEqual(str(SealedFileError(cause, 3)), text)

    def test_a_record_that_announces_much(self) -> None:
        """No more memory is taken than for what comes."""
        data = (DATA / "records.sealed").read_bytes()[:28] + b"\0" + (1 << 24).to_bytes(4, "little") + bytes(200_000)
        file = Counted(data)
        tracemalloc.start()
        reader = SealedReader(file, KEY)
        self.assertRaises(SealedFileError, reader.read, 1)
        self.assertLess(tracemalloc.get_traced_memory()[1], 1 << 20)
        tracemalloc.stop()
        self.assertLess(max(cast("list[int]", file.sizes)), 1 << 18)


class Writing(unittest.TestCase):
    def test_pieces(self) -> None:
        """The records are those of the tool, whatever lengths are written."""
        for length in (0, 1, PIECE - 1, PIECE, PIECE + 1, 2 * PIECE, 200_000):
            contents = os.urandom(length)
            file = io.BytesIO()
            with mock.patch("os.urandom", return_value=PREFIX), SealedWriter(file, KEY) as writer:
                for start in range(0, length, 7_777):
                    self.assertEqual(writer.write(contents[start : start + 7_777]), len(contents[start:][:7_777]))
                self.assertEqual(writer.tell(), length)
                writer.write(b"")
            data = file.getvalue()
            self.assertEqual(len(data), length + 37 * -(-length // PIECE) + 65)
            self.assertEqual(data[:28], PREFIX + b"AGR2")
            self.assertEqual(data[-37:-32], b"\1" + bytes(4))
            with mock.patch("os.urandom", return_value=PREFIX):
                self.assertEqual(sealed(contents), data)
            self.assertEqual(SealedReader(io.BytesIO(data), KEY).read(), contents)

    def test_no_two_files_have_a_prefix(self) -> None:
        self.assertEqual(len({sealed(b"")[:24] for _ in range(64)}), 64)

    def test_only_the_end_completes_a_file(self) -> None:
        file = io.BytesIO()
        writer = SealedWriter(file, KEY)
        writer.write(bytes(100_000))
        writer.flush()
        self.assertEqual(len(file.getvalue()), 28 + 37 + PIECE)
        self.assert_incomplete(file)
        writer.close()
        writer.close()
        self.assertEqual(SealedReader(io.BytesIO(file.getvalue()), KEY).read(), bytes(100_000))
        for call in (lambda: writer.write(b"more"), writer.tell, writer.writable, writer.__enter__):
            self.assertRaises(ValueError, call)

    def test_buffers_of_the_file_are_written(self) -> None:
        with tempfile.TemporaryDirectory() as folder, open(os.path.join(folder, "sealed"), "wb") as file:
            with SealedWriter(file, KEY) as writer:
                writer.write(b"contents")
            with open(file.name, "rb") as written:
                self.assertEqual(SealedReader(written, KEY).read(), b"contents")

    def assert_incomplete(self, file: io.BytesIO) -> None:
        reader = SealedReader(io.BytesIO(file.getvalue()), KEY)
        self.assertRaisesRegex(SealedFileError, "^the file is truncated$", reader.read)

    def test_an_exception_in_a_block(self) -> None:
        for contents in (b"", b"contents", bytes(2 * PIECE)):
            file = io.BytesIO()
            with self.assertRaises(KeyError), SealedWriter(file, KEY) as writer:
                writer.write(contents)
                raise KeyError
            self.assertTrue(writer.closed)
            self.assert_incomplete(file)
            writer.close()
            self.assert_incomplete(file)

    def test_a_wrapper_in_a_block(self) -> None:
        """Wrappers close what they wrap, even after an exception."""
        file = io.BytesIO()
        with SealedWriter(file, KEY) as writer, io.TextIOWrapper(writer) as text:
            text.write("contents")
        self.assertEqual(SealedReader(io.BytesIO(file.getvalue()), KEY).read(), b"contents")
        file = io.BytesIO()
        with self.assertRaises(KeyError), SealedWriter(file, KEY) as writer, io.BufferedWriter(writer) as buffered:
            buffered.write(b"contents")
            raise KeyError
        self.assert_incomplete(file)

    def test_a_writer_that_is_dropped(self) -> None:
        file = io.BytesIO()
        with self.assertWarnsRegex(ResourceWarning, "was not closed: its file is incomplete$"):
            SealedWriter(file, KEY).write(b"contents")
        self.assert_incomplete(file)

    def test_a_forked_process(self) -> None:
        """There a writer writes nothing, even if a wrapper is closed that still has contents."""

        def use() -> None:
            self.assertRaises(OSError, writer.write, b"x")
            self.assertRaises(OSError, text.close)
            self.assertEqual(file.getvalue(), begun)

        file = io.BytesIO()
        writer = SealedWriter(file, KEY)
        text = io.TextIOWrapper(writer)
        text.write("contents")
        begun = file.getvalue()
        # Both processes may be the first of a container, and another library may fork.
        with mock.patch("os.getpid", return_value=os.getpid()):
            forks: list[Any] = [os.fork, ctypes.PyDLL(None).fork]
            for fork in forks:
                self.assertTrue(returns_in_a_fork(use, fork))
        text.close()
        self.assertEqual(SealedReader(io.BytesIO(file.getvalue()), KEY).read(), b"contents")

    def test_files_that_write_little(self) -> None:
        with mock.patch("os.urandom", return_value=PREFIX):
            file = Slow(most=1000)
            with SealedWriter(cast(BinaryIO, file), KEY) as writer:
                writer.write(bytes(100_000))
            self.assertEqual(file.file.getvalue(), sealed(bytes(100_000)))

    def test_files_that_fail(self) -> None:
        """Each call of the file fails in turn, and no file is complete then."""
        for answer in (OSError("full"), KeyboardInterrupt(), None, 0, -1, 1 << 20):
            failed = 0
            while self.fails_at(failed + 1, answer):
                failed += 1
            self.assertEqual(failed, 13)

    def fails_at(self, number: int, answer: Any) -> bool:
        """Whether writing fails if a call of the file does so."""
        file = Slow(most=10_000, fails={number: answer})
        try:
            with SealedWriter(cast(BinaryIO, file), KEY) as writer:
                writer.write(bytes(100_000))
        except (OSError, KeyboardInterrupt):
            if number > 1:
                self.assert_incomplete(file.file)
            return True
        self.assertEqual(SealedReader(io.BytesIO(file.file.getvalue()), KEY).read(), bytes(100_000))
        return False

    def test_a_signal_at_the_end_of_a_write(self) -> None:
        """An `io.BufferedWriter` would write the data again."""
        turn = mock.MagicMock()
        turn.return_value.__exit__.side_effect = KeyboardInterrupt
        file = io.BytesIO()
        writer = SealedWriter(file, KEY)
        with mock.patch.object(writer, "_turn", turn), self.assertRaises(KeyboardInterrupt):
            writer.write(b"once")
        self.assertRaisesRegex(OSError, "cannot be completed", writer.close)

    def test_a_file_that_does_not_block(self) -> None:
        file = Slow(most=1000, fails={4: None})
        writer = SealedWriter(cast(BinaryIO, file), KEY)
        with self.assertRaises(BlockingIOError) as raised:
            writer.write(bytes(PIECE))
        self.assertEqual((raised.exception.errno, raised.exception.characters_written), (errno.EAGAIN, 0))
        self.assertRaisesRegex(OSError, "cannot be completed", writer.close)

    def test_buffers_of_no_element(self) -> None:
        file = io.BytesIO()
        with SealedWriter(file, KEY) as writer:
            self.assertEqual(writer.write(array.array("I")), 0)
            self.assertEqual(writer.write(memoryview(b"abc")[3:]), 0)
            for wrong in ("text", memoryview(b"abc")[::2]):
                self.assertRaises(TypeError, writer.write, wrong)
            self.assertEqual(writer.write(array.array("I", [1])), 4)
        with SealedReader(io.BytesIO(file.getvalue()), KEY) as reader:
            self.assertEqual(reader.readinto(array.array("I")), 0)
            self.assertEqual(reader.readinto(array.array("I", [0])), 4)
            self.assertRaises(TypeError, reader.readinto, b"")

    def test_what_a_writer_cannot(self) -> None:
        """Each is what a file of the standard library raises."""
        with tempfile.TemporaryFile() as file, open(file.fileno(), "wb", buffering=0, closefd=False) as plain:
            writer = SealedWriter(cast(BinaryIO, file), KEY)
            for written in (plain, writer):
                for name, arguments in unsupported("read", "readline", "readinto", "fileno", "seek"):
                    if written is plain and name in ("fileno", "seek"):
                        continue
                    with self.assertRaises(io.UnsupportedOperation, msg=name):
                        getattr(written, name)(*arguments)
                self.assertFalse(written.readable())
                self.assertTrue(written.writable())
                written.close()
                for name in ("readable", "writable", "seekable", "tell"):
                    self.assertRaises(ValueError, getattr(written, name))

    def test_a_block_in_a_block(self) -> None:
        file = io.BytesIO()
        with SealedWriter(file, KEY) as writer:
            with self.assertRaises(RuntimeError), writer:
                self.fail("a second block")
            writer.write(b"contents")
        self.assertEqual(SealedReader(io.BytesIO(file.getvalue()), KEY).read(), b"contents")

    def test_an_error_that_is_ignored(self) -> None:
        file = Slow(most=1 << 20, fails={2: OSError("full")})
        ends = self.assertRaisesRegex(OSError, "cannot be completed")
        with ends, SealedWriter(cast(BinaryIO, file), KEY) as writer:
            self.assertRaises(OSError, writer.write, bytes(PIECE))
            self.assertRaisesRegex(OSError, "cannot be completed", writer.write, b"more")
        self.assert_incomplete(file.file)

    def test_what_a_file_keeps_is_not_changed_later(self) -> None:
        parts: list[bytes] = []

        class Keeps:
            def write(self, data: bytes) -> int:
                parts.append(data)
                return len(data)

            def flush(self) -> None:
                pass

        with SealedWriter(cast(BinaryIO, Keeps()), KEY) as writer:
            writer.write(bytes(3 * PIECE))
        self.assertEqual(SealedReader(io.BytesIO(b"".join(parts)), KEY).read(), bytes(3 * PIECE))

    def test_threads(self) -> None:
        file = Turns()
        with SealedWriter(file, KEY) as writer:
            with concurrent.futures.ThreadPoolExecutor(20) as threads:
                written = list(threads.map(writer.write, [bytes([i]) * 50_000 for i in range(20)]))
        self.assertEqual(written, [50_000] * 20)
        contents = SealedReader(io.BytesIO(file.getvalue()), KEY).read()
        parts = {contents[start : start + 50_000] for start in range(0, len(contents), 50_000)}
        self.assertEqual(parts, {bytes([i]) * 50_000 for i in range(20)})
        self.assertEqual(file.most, 1)


class Turns(io.BytesIO):
    """A file whose calls take time, and which counts how many are in one."""

    most = inside = 0

    def _take_time(self) -> None:
        self.inside += 1
        self.most = max(self.most, self.inside)
        time.sleep(0.01)
        self.inside -= 1

    def read(self, size: Optional[int] = -1) -> bytes:
        self._take_time()
        return super().read(size)

    def write(self, data: Any) -> int:
        self._take_time()
        return super().write(data)


class Reading(unittest.TestCase):
    def test_with_the_standard_library(self) -> None:
        contents = "".join(f"line {number}\n" for number in range(30_000)).encode()
        data = sealed(contents)
        with io.BufferedReader(SealedReader(io.BytesIO(data), KEY)) as lines:
            self.assertEqual(lines.readlines(), contents.splitlines(keepends=True))
        copied = io.BytesIO()
        shutil.copyfileobj(SealedReader(slow(data, 1000), KEY), copied)
        self.assertEqual(copied.getvalue(), contents)
        with io.TextIOWrapper(io.BufferedReader(SealedReader(io.BytesIO(data), KEY))) as text:
            self.assertEqual(text.read(), contents.decode())

    def test_tar(self) -> None:
        """With pieces of 700 bytes too, at whose bounds no read is short."""
        file = io.BytesIO()
        with SealedWriter(file, KEY) as writer, tarfile.open(fileobj=writer, mode="w") as archive:
            for name in ("one", "two", "three"):
                entry = tarfile.TarInfo(name)
                entry.size = 100_000
                archive.addfile(entry, io.BytesIO(name[:1].encode() * entry.size))
        contents = SealedReader(io.BytesIO(file.getvalue()), KEY).read()
        others = with_pieces([contents[start : start + 700] for start in range(0, len(contents), 700)])
        for mode, data in itertools.product(("r|", "r:", "r"), (file.getvalue(), others)):
            with tarfile.open(fileobj=SealedReader(io.BytesIO(data), KEY), mode=mode) as archive:
                self.assertEqual(len(archive.getnames()), 3) if mode != "r|" else None
                for entry in archive:
                    member = archive.extractfile(entry)
                    assert member is not None
                    self.assertEqual(member.read(), entry.name[:1].encode() * 100_000)
        file.getbuffer()[100_000] ^= 1
        with self.assertRaises(SealedFileError), SealedReader(io.BytesIO(file.getvalue()), KEY) as reader:
            with tarfile.open(fileobj=reader, mode="r:") as archive:
                archive.getmembers()
                for entry in archive:
                    member = archive.extractfile(entry)
                    assert member is not None
                    member.read()

    def test_each_position(self) -> None:
        data = (DATA / "records.sealed").read_bytes()
        contents = Damaged.contents
        for before in (b"", b"before"):
            file = io.BytesIO(before + data)
            file.seek(len(before))
            reader = SealedReader(file, KEY)
            self.assertTrue(reader.seekable())
            for first in range(25):
                for second in range(25):
                    for position in (first, second):
                        self.assertEqual(reader.seek(position), position)
                        self.assertEqual(reader.tell(), position)
                    self.assertEqual(reader.read(4), contents[second : second + 4])
                    self.assertEqual(reader.tell(), second + len(contents[second : second + 4]))
            self.assertEqual(reader.seek(-3, os.SEEK_END), 19)
            self.assertEqual(reader.seek(1, os.SEEK_CUR), 20)
            self.assertEqual(reader.readall(), b"kl")
            self.assertEqual(reader.seek(0, os.SEEK_END), 22)
            self.assertEqual(reader.read(1), b"")

    def test_as_a_plain_file(self) -> None:
        """Random calls give what they give for a plain file, or errors that stay."""
        numbers = random.Random(5)
        ended = 0
        for turn in range(300):
            lengths = [numbers.choice((0, 0, 1, 2, 7, 100, 5000)) for _ in range(numbers.randint(0, 12))]
            pieces = [numbers.randbytes(length) for length in [*lengths, numbers.choice((0, 0, 3))]]
            plain = io.BytesIO(b"".join(pieces))
            file = Unreliable(with_pieces(pieces), numbers, 0)
            reader = SealedReader(file, KEY)
            file.fails = 0.05 if turn % 2 else 0
            try:
                for _ in range(50):
                    self.one_call(reader, plain, numbers)
            except OSError:
                ended += 1
                self.assertRaises(OSError, reader.seek, 0)
                self.assertRaises(OSError, reader.read, 1)
        self.assertGreater(ended, 10)

    def one_call(self, reader: SealedReader, plain: io.BytesIO, numbers: random.Random) -> None:
        """A call, which raises an error only if the reader no longer works."""
        if numbers.random() < 0.5:
            whence = numbers.randrange(3)
            offset = numbers.randint(-6000, 6000) if whence else numbers.randint(0, 20_000)
            base = (0, plain.tell(), len(plain.getvalue()))[whence]
            if base + offset < 0:
                with self.assertRaises(OSError) as raised:
                    reader.seek(offset, whence)
                if raised.exception.errno != errno.EINVAL:
                    raise raised.exception
            else:
                self.assertEqual(reader.seek(offset, whence), plain.seek(base + offset))
        size = numbers.choice((0, 1, 2, 100, 7000, 30_000))
        while True:
            try:
                found = reader.read(size)
                break
            except OSError as error:
                if "broken" not in str(error):
                    raise
        self.assertTrue(plain.getvalue()[plain.tell() :].startswith(found))
        self.assertTrue(found or not size or plain.tell() >= len(plain.getvalue()))
        plain.seek(len(found), 1)
        self.assertEqual(reader.tell(), plain.tell())

    def test_what_a_reader_cannot(self) -> None:
        """Each is what a file of the standard library raises."""
        with open(DATA / "records.sealed", "rb", buffering=0) as plain:
            for reader in (plain, SealedReader(open_records(), KEY)):
                for name, arguments in unsupported("write", "truncate", "writelines"):
                    with self.assertRaises(io.UnsupportedOperation, msg=name):
                        getattr(reader, name)(*arguments)
                self.assertTrue(reader.readable() and reader.seekable())
                self.assertFalse(reader.writable())
                reader.close()
                for name in ("readable", "writable", "seekable", "tell"):
                    self.assertRaises(ValueError, getattr(reader, name))
                for name, arguments in unsupported("read", "readinto", "write", "seek", "truncate"):
                    self.assertRaises(ValueError, getattr(reader, name), *arguments)

    def test_sizes(self) -> None:
        """None is -1, for each method that reads."""
        for size in (None, -1):
            self.assertEqual(SealedReader(open_records(), KEY).read(size), Damaged.contents)
            self.assertEqual(SealedReader(open_records(), KEY).readline(size), Damaged.contents)
        self.assertEqual(SealedReader(open_records(), KEY).readlines(cast(Any, None)), [Damaged.contents])
        self.assertEqual(SealedReader(open_records(), KEY).read(0), b"")

    def test_wrong_positions(self) -> None:
        reader = SealedReader(open_records(), KEY)
        reader.seek(12)
        for offset, whence, error in ((-1, 0, OSError), (-13, 1, OSError), (-23, 2, OSError), (0, 3, ValueError)):
            self.assertRaises(error, reader.seek, offset, whence)
            self.assertEqual(reader.tell(), 12)
        self.assertEqual(reader.read(2), b"cd")
        self.assertRaises(io.UnsupportedOperation, SealedReader(slow((DATA / "records.sealed").read_bytes()), KEY).seek, 0)

    def test_a_seek_reads_one_record(self) -> None:
        """The records before it are not read if each has a whole piece."""
        file = Counted(sealed(bytes(40 * PIECE + 9)))
        reader = SealedReader(file, KEY)
        for place in 39 * PIECE, 3 * PIECE, 40 * PIECE + 8:
            file.sizes.clear()
            self.assertEqual(reader.seek(place), place)
            self.assertLess(len(file.sizes), 4)

    def test_an_end_that_is_not_verified(self) -> None:
        """The end is that of a verified record, which nothing follows."""
        data = (DATA / "records.sealed").read_bytes()
        for wrong, cause in ((data[:-37], "truncated"), (data[:-1] + b"?", "damaged"), (data + b"?", "trailing")):
            with SealedReader(io.BytesIO(wrong), KEY) as reader, self.assertRaises(SealedFileError) as raised:
                reader.seek(0, os.SEEK_END)
            self.assertEqual(raised.exception.cause, cause)

    def test_a_skipped_record_may_be_damaged(self) -> None:
        data = bytearray((DATA / "records.sealed").read_bytes())
        data[40] ^= 1
        reader = SealedReader(io.BytesIO(data), KEY)
        reader.seek(10)
        self.assertEqual(reader.read(), Damaged.contents[10:])
        for call in (lambda: reader.seek(9), lambda: reader.seek(10), lambda: reader.read(1), reader.readall):
            self.assertRaisesRegex(SealedFileError, "^record 0 is damaged", call)

    def test_files_that_fail(self) -> None:
        """After an exception of the file beneath, or of a signal handler, nothing is read any more."""
        data = sealed(os.urandom(100_000))
        for number in (3, 4, 5, 6, 20):
            for error in (OSError("broken"), TimeoutError("broken"), KeyboardInterrupt()):
                reader = SealedReader(slow(data, 5000, {number: error}), KEY)
                self.assertRaises(type(error), reader.readinto, bytearray(100_000))
                for call in (lambda: reader.read(1), lambda: reader.seek(0), reader.readall):
                    self.assertRaises((OSError, io.UnsupportedOperation), call)

    def test_a_file_that_calls_its_reader(self) -> None:
        class Calling(io.BytesIO):
            reader: Optional[SealedReader] = None

            def read(self, size: Optional[int] = -1, /) -> bytes:
                if self.reader is not None:
                    self.reader.read(1)
                return super().read(size)

        file = Calling(sealed(b"contents"))
        file.reader = SealedReader(file, KEY)
        self.assertRaisesRegex(RuntimeError, "^reentrant call$", file.reader.read, 1)
        file.reader = None

    def test_zeros_are_not_skipped(self) -> None:
        """A hole in a file looks like records of no bytes, which are verified."""
        data = sealed(bytes(PIECE + 1))[: 28 + 37 + PIECE] + bytes(1 << 20)
        reader = SealedReader(io.BytesIO(data), KEY)
        self.assertRaisesRegex(SealedFileError, "^record 1 is damaged", reader.seek, 0, os.SEEK_END)

    def test_files_that_do_not_block(self) -> None:
        contents = os.urandom(100_000)
        reader = SealedReader(slow(sealed(contents), 5000, {number: None for number in range(3, 300, 2)}), KEY)
        found, nothing = b"", 0
        while (part := reader.read(999)) != b"":
            found, nothing = found + (part or b""), nothing + (part is None)
        self.assertEqual(found, contents)
        self.assertGreater(nothing, 10)
        reader = SealedReader(slow(sealed(b"contents"), 5000, {2: None}), KEY)
        self.assertIsNone(reader.readall())
        self.assertEqual(reader.readall(), b"contents")

    def test_threads(self) -> None:
        contents = b"".join(number.to_bytes(8, "big") for number in range(50_000))
        file = Turns(sealed(contents))
        reader = SealedReader(file, KEY)
        found: list[bytes] = []

        def read() -> None:
            while part := reader.read(8):
                found.append(part)

        with concurrent.futures.ThreadPoolExecutor(4) as threads:
            for work in [threads.submit(read) for _ in range(4)]:
                work.result()
        self.assertEqual(b"".join(sorted(found)), contents)
        self.assertEqual(file.most, 1)

    def test_after_the_end(self) -> None:
        file = open_records()
        with SealedReader(file, KEY) as reader:
            pass
        for call in (lambda: reader.read(1), lambda: reader.seek(0), reader.tell, reader.readable, reader.seekable):
            self.assertRaises(ValueError, call)
        reader.close()
        self.assertFalse(file.closed)

    def test_nothing_is_kept_after_the_end(self) -> None:
        reader = SealedReader(open_records(), KEY)
        reader.read(12)
        kept = (_native.Records, memoryview, bytearray)
        self.assertEqual(sum(isinstance(value, kept) for value in vars(reader).values()), 3)
        reader.close()
        self.assertFalse([name for name, value in vars(reader).items() if isinstance(value, kept) and value])

    def test_wrong_arguments(self) -> None:
        for key in (b"", bytes(31), bytes(33)):
            self.assertRaisesRegex(ValueError, "^the key must have 32 bytes, not", SealedReader, open_records(), key)
            with warnings.catch_warnings(), self.assertRaisesRegex(ValueError, "^the key must have 32 bytes, not"):
                SealedWriter(io.BytesIO(), key)
        self.assertRaises(TypeError, SealedReader, cast(BinaryIO, io.StringIO("text" * 100)), KEY)


def open_records() -> BinaryIO:
    """The stored file."""
    return io.BytesIO((DATA / "records.sealed").read_bytes())
