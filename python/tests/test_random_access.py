"""Random-access files: batches, threads, signals, integers, and file objects over them.

What a crash leaves, and owners, names and locks, are tested in c/tests, over the same engine.
"""

import concurrent.futures
import contextlib
import copy
import errno
import gc
import io
import os
import pathlib
import resource
import shutil
import signal
import sys
import tarfile
import tempfile
import threading
import time
import unittest
import zipfile
from collections.abc import Callable, Generator
from typing import Any, Optional
from unittest import mock

from hunkravy import Aegis128L, Aegis256, RandomAccessError, RandomAccessFile, _native, _random_access
from processes import repeated, returns_in_a_fork

KEY = bytes(range(32))
TABLE = pathlib.Path(__file__).parents[2] / "testkit" / "batches.txt"
PAGE = 256


@contextlib.contextmanager
def limited(size: int) -> Generator[None, None, None]:
    """Lets no file be written from this size on."""
    before = resource.getrlimit(resource.RLIMIT_FSIZE)
    resource.setrlimit(resource.RLIMIT_FSIZE, (size, before[1]))
    try:
        yield
    finally:
        resource.setrlimit(resource.RLIMIT_FSIZE, before)


def contents(path: Any, key: bytes = KEY) -> Any:
    """Opens a file, and returns its contents."""
    with RandomAccessFile(path, key) as file:
        return file.read_at(0, file.size)


class Scene:
    """A scene of testkit/batches.txt."""

    def __init__(self, path: pathlib.Path) -> None:
        self.path = path
        self.file = RandomAccessFile.create(path, KEY)
        # Those that no line has named, and the one that was named last.
        self.batches: list[Any] = []
        self.ended: Any = None

    def play(self, lines: list[list[str]]) -> None:
        is_full = False
        for call, *words in lines:
            if call.endswith("room"):
                is_full = call == "no-room"
                continue
            with limited(0) if is_full and call != "stored" else contextlib.nullcontext():
                found = self.result_of(call, words[:-1])
            if found != words[-1]:
                raise AssertionError(f"{lines}: {call} {words}: {found}")

    def result_of(self, call: str, words: list[str]) -> str:
        """Makes a call, and returns the name of its result."""
        try:
            return self.made(call, words) or "ok"
        except RandomAccessError as error:
            return error.cause.replace("_", "-")
        except RuntimeError as error:
            return {"a batch has not ended": "open-batch"}.get(str(error), "wrong-state")
        except OSError as error:
            return "no-room" if error.errno in (errno.EFBIG, errno.ENOSPC) else str(error)

    def made(self, call: str, words: list[str]) -> Optional[str]:
        if call == "begin":
            batch = self.file.batch()
            batch.__enter__()
            self.batches.append(batch)
        elif call.startswith(("end", "undo")):
            self.ended = self.batches.pop(0 if "outer" in call else -1) if self.batches else self.ended
            self.ended.__exit__(ValueError if call.startswith("undo") else None, None, None)
        elif call == "write":
            self.file.write_at(int(words[0]), bytes.fromhex(words[1].replace("-", "")))
        elif call == "truncate":
            self.file.truncate(int(words[0]))
        elif call == "contents":
            return self.file.read_at(0, self.file.size).hex() or "-"
        elif call == "stored":
            copied = self.path.with_name(self.path.name + "-copy")
            for end in ("", ".journal"):
                pathlib.Path(f"{copied}{end}").unlink(missing_ok=True)
                if os.path.exists(f"{self.path}{end}"):
                    shutil.copyfile(f"{self.path}{end}", f"{copied}{end}")
            return contents(copied).hex() or "-"
        else:
            getattr(self.file, call)()
        return None


class Files(unittest.TestCase):
    def setUp(self) -> None:
        self.folder = pathlib.Path(self.enterContext(tempfile.TemporaryDirectory()))
        self.path = self.folder / "file"

    def leave_journal(self, path: pathlib.Path) -> None:
        """Changes the end of a long file, and lets the system stop the commit there, after it has written its journal."""
        file = RandomAccessFile(path, KEY)
        file.truncate(200_000)
        file.commit()
        file.write_at(file.size - 5, b"after")
        with limited(65_536):
            self.assertRaises(OSError, file.commit)
        self.assertCause("broken", file.write_at, 0, b"lost")
        self.assertCause("broken", file.close)

    def assertCause(self, cause: Any, call: Any, *arguments: Any, **named: Any) -> None:
        with self.assertRaises(RandomAccessError) as raised:
            call(*arguments, **named)
        self.assertEqual(raised.exception.cause, cause)
        self.assertEqual(str(raised.exception), _random_access.CAUSES[cause].format(raised.exception.page))

    def test_a_path_in_bytes(self) -> None:
        RandomAccessFile.create(os.fsencode(self.path), KEY).close()  # type: ignore[arg-type]
        self.assertEqual(contents(self.path), b"")

    def test_the_default_page_fills_a_block(self) -> None:
        for variant in (Aegis128L, Aegis256):
            path = self.folder / variant.name
            with RandomAccessFile.create(path, bytes(variant.KEY_BYTES), cipher=variant) as file:
                file.write_at(0, b"x")
            self.assertEqual(path.stat().st_size, 8192)

    def test_exceptions_in_blocks(self) -> None:
        """They undo a batch, and a file commits nothing. Nor does one that is dropped."""
        with RandomAccessFile.create(self.path, KEY) as file, file.batch():
            file.write_at(0, b"first")
            with self.assertRaises(ZeroDivisionError), file.batch():
                file.truncate(0)
                1 / 0
        self.assertEqual(contents(self.path), b"first")
        with self.assertRaises(ZeroDivisionError), RandomAccessFile(self.path, KEY) as file:
            file.write_at(0, b"lost")
            1 / 0
        file = RandomAccessFile(self.path, KEY)
        file.write_at(0, b"lost")
        del file
        self.assertEqual(contents(self.path), b"first")

    def test_the_table_of_batches(self) -> None:
        scenes: list[list[list[str]]] = []
        for line in TABLE.read_text().splitlines():
            if line.startswith("["):
                scenes.append([])
            elif line and not line.startswith("#"):
                scenes[-1].append(line.split())
        self.assertGreater(len(scenes), 20)
        for number, scene in enumerate(scenes):
            with self.subTest(number=number):
                Scene(self.folder / str(number)).play(scene)

    def test_a_batch_that_is_left_open(self) -> None:
        with RandomAccessFile.create(self.path, KEY) as file:
            file.write_at(0, b"before")
            file.commit()
            batch = file.batch()
            batch.__enter__()
            self.assertRaisesRegex(RuntimeError, "this batch has begun", batch.__enter__)
            file.write_at(0, b"lost")
            self.assertRaisesRegex(RuntimeError, "has not ended", file.commit)
            file.discard()
            self.assertEqual(file.read_at(0, 9), b"before")
            # Its block goes on, so a change in it would be in no batch.
            calls: list[Callable[[], object]] = [file.commit, file.batch().__enter__]
            calls += [lambda: file.write_at(0, b"x"), lambda: file.truncate(0)]
            for call in calls:
                self.assertRaisesRegex(RuntimeError, "batch of this block has ended", call)
            del batch
            ended = file.batch()
            with ended:
                file.write_at(0, b"after ")
            self.assertRaisesRegex(RuntimeError, "has ended", ended.__exit__, None, None, None)
        self.assertEqual(contents(self.path), b"after ")
        file = RandomAccessFile(self.path, KEY)
        batch = file.batch()
        batch.__enter__()
        file.write_at(0, b"lost")
        self.assertRaisesRegex(RuntimeError, "has not ended", file.close)
        self.assertTrue(file.closed)
        self.assertEqual(contents(self.path), b"after ")

    def test_a_batch_that_is_dropped(self) -> None:
        """It has not ended, so nothing after it would be committed."""
        with RandomAccessFile.create(self.path, KEY) as file:
            stream = file.open_stream()
            file.batch().__enter__()
            calls: list[Callable[[], object]] = [file.batch().__enter__, file.commit, stream.flush]
            calls += [lambda: file.write_at(0, b"x"), lambda: file.truncate(0), lambda: stream.write(b"x")]
            for call in calls:
                self.assertRaisesRegex(RuntimeError, "dropped", call)
            file.discard()
            with file.batch():
                file.write_at(0, b"after")
            file.batch().__enter__()
            self.assertRaisesRegex(RuntimeError, "has not ended", file.close)
        self.assertEqual(contents(self.path), b"after")

    def test_a_batch_in_one_that_is_dropped(self) -> None:
        """Its end raises an error, even if as many blocks as batches are open."""
        with RandomAccessFile.create(self.path, KEY) as file:
            outer = [file.batch()]
            outer[0].__enter__()
            with self.assertRaisesRegex(RuntimeError, "dropped"), file.batch():
                file.write_at(0, b"lost")
                outer.clear()
            self.assertEqual(file.size, 0)
            file.discard()
            batches = [file.batch(), file.batch(), file.batch()]
            for batch in batches:
                batch.__enter__()
            del batches[0], batch
            batches[0].__exit__(ValueError, ValueError(), None)
            for call in (file.batch().__enter__, file.open_stream().close, lambda: file.write_at(0, b"x")):
                self.assertRaisesRegex(RuntimeError, "dropped", call)
            file.discard()
            self.assertRaisesRegex(RuntimeError, "has ended", batches[1].__exit__, None, None, None)
            with file.batch():
                file.write_at(0, b"after")
        self.assertEqual(contents(self.path), b"after")

    def test_the_collector_clears_no_batch(self) -> None:
        """What a finalizer has made is freed between what the collector clears, and can find a batch there."""

        class Seeker:
            def __del__(self) -> None:
                batches: list[Any] = [found for found in gc.get_objects() if type(found) is Batch]
                sought.extend(found.__exit__(None, None, None) for found in batches)

        class Maker:
            def __del__(self) -> None:
                self.made = Seeker()

        Batch = _native.Batch
        sought: list[None] = []
        gc.collect()
        with RandomAccessFile.create(self.path, KEY) as file:
            batch, maker = file.batch(), Maker()
            batch.__enter__()
            cycle: list[Any] = [batch, maker]
            cycle += [cycle, [batch, cycle]]
            del batch, maker, cycle
            gc.collect()
        self.assertEqual(sought, [None])

    def test_a_batch_of_what_is_no_file(self) -> None:
        class Lying:
            __class__ = RandomAccessFile  # type: ignore[assignment]

        kept: list[Any] = [Lying(), b"no file" * 10]
        with mock.patch.object(_native, "RandomAccessFile", object):
            for given in kept:
                self.assertRaisesRegex(TypeError, "a batch is one of a", RandomAccessFile.batch, given)

    def test_signals(self) -> None:
        """A call that a handler's exception comes in is made whole, and an opening leaves no descriptor."""

        class Interrupt(Exception):
            pass

        def interrupt(*_: object) -> None:
            if is_interrupted:
                raise Interrupt

        RandomAccessFile.create(self.path, KEY).close()
        descriptors, before = len(os.listdir("/proc/self/fd")), b""
        previous = signal.signal(signal.SIGALRM, interrupt)
        interrupts = 0
        try:
            for turn in range(120):
                data, is_interrupted = bytes([turn % 256]) * 300_000, True
                try:
                    signal.setitimer(signal.ITIMER_REAL, 0.0001 * 1.25 ** (turn % 30))
                    with RandomAccessFile(self.path, KEY) as file:
                        file.write_at(0, data)
                    is_interrupted = False
                except Interrupt:
                    interrupts += 1
                signal.setitimer(signal.ITIMER_REAL, 0)
                file = None  # type: ignore[assignment]
                self.assertIn(contents(self.path), (before, data))
                before = contents(self.path)
        finally:
            signal.setitimer(signal.ITIMER_REAL, 0)
            signal.signal(signal.SIGALRM, previous)
        self.assertGreater(interrupts, 10)
        self.assertLess(interrupts, 120)
        self.assertEqual(len(os.listdir("/proc/self/fd")), descriptors)

    def test_batches_keep_no_file(self) -> None:
        # What earlier tests have left.
        gc.collect()
        with RandomAccessFile.create(self.path, KEY) as file:
            kept = (file, _native.Batch)
            before = list(map(sys.getrefcount, kept))
            for divisor in (0, 1) * 50:
                with contextlib.suppress(ZeroDivisionError), file.batch():
                    1 / divisor
            self.assertEqual(list(map(sys.getrefcount, kept)), before)

    def test_a_batch_that_its_own_file_keeps(self) -> None:
        class Kept(RandomAccessFile):
            kept: Any

        Kept.create(self.path, KEY).close()
        for calls in ((), ("__enter__",)):
            file: Any = Kept(self.path, KEY)
            file.kept = file.batch()
            for call in calls:
                getattr(file.kept, call)()
                file.write_at(0, b"lost")
            del file
            gc.collect()
            self.assertEqual(contents(self.path), b"")

    def test_a_cipher_that_closes_the_file(self) -> None:
        """An attribute of a cipher may run any code, also on the file that is being opened."""
        RandomAccessFile.create(self.path, KEY).close()
        file: Any = RandomAccessFile.__new__(RandomAccessFile)

        class Closing:
            @property
            def _VARIANT(self) -> int:
                file.close()
                return Aegis256._VARIANT

        words = {"cipher": Closing(), "check_same_thread": False}
        thread = threading.Thread(target=file.__init__, args=(self.path, KEY), kwargs=words, daemon=True)
        thread.start()
        thread.join(20)
        self.assertFalse(thread.is_alive())
        self.assertEqual(file.read_at(0, 1), b"")
        file.close()

    def test_locks_and_moves(self) -> None:
        file = RandomAccessFile.create(self.path, KEY)
        self.assertCause("locked", RandomAccessFile, self.path, KEY)
        self.assertRaisesRegex(RuntimeError, "open already", file.__init__, self.path, KEY)  # type: ignore[misc]
        self.assertRaises(FileExistsError, RandomAccessFile.create, self.path, KEY)
        file.write_at(0, b"kept")
        self.path.rename(self.folder / "moved")
        self.assertCause("moved", file.commit)
        (self.folder / "moved").rename(self.path)
        file.commit()
        file.close()
        self.assertEqual(contents(self.path), b"kept")

    def test_a_fork_while_another_thread_is_in_a_batch(self) -> None:
        def hold() -> None:
            with file.batch():
                begun.set()
                forked.wait()

        def use() -> None:
            calls: list[Callable[[], object]] = [file.commit, file.discard, file.batch().__enter__, lambda: file.read_at(0, 1)]
            for call in calls + [lambda: file.write_at(0, b"x")]:
                self.assertCause("locked", call)
            file.close()

        begun, forked = threading.Event(), threading.Event()
        file = RandomAccessFile.create(self.path, KEY, check_same_thread=False)
        thread = threading.Thread(target=hold)
        thread.start()
        begun.wait(20)
        self.assertTrue(returns_in_a_fork(use))
        forked.set()
        thread.join()
        file.close()

    def test_forks_while_another_thread_undoes(self) -> None:
        def undo() -> None:
            with file.batch():
                file.write_at(0, bytes(1 << 20))
                raise KeyError

        def read() -> None:
            while True:
                with contextlib.suppress(ValueError):
                    file.read_at(0, 100)

        def close() -> None:
            threading.Thread(target=read, daemon=True).start()
            file.close()

        with RandomAccessFile.create(self.path, KEY, check_same_thread=False, page_size=PAGE) as file:
            file.write_at(0, bytes(1 << 20))
            with repeated(undo):
                for _ in range(40):
                    self.assertTrue(returns_in_a_fork(close))

    def test_blocks_that_end_in_a_forked_process(self) -> None:
        """Their exception goes on, whatever a thread of the other process was doing."""

        def end() -> None:
            for block in blocks:
                block.__exit__(SystemExit, SystemExit(), None)

        with RandomAccessFile.create(self.path, KEY, check_same_thread=False, page_size=PAGE) as file:
            file.write_at(0, bytes(1 << 20))
            batch = file.batch()
            blocks: list[Any] = [file.open_stream(), batch, file.open_stream(), file]
            with batch, repeated(lambda: file.read_at(0, 1 << 20)):
                for _ in range(20):
                    self.assertTrue(returns_in_a_fork(end))

    def test_several_threads_in_one_object(self) -> None:
        def enter(batch: Any) -> bool:
            try:
                batch.__enter__()
            except RuntimeError:
                return False
            return True

        with RandomAccessFile.create(self.path, KEY, check_same_thread=False) as file:
            with concurrent.futures.ThreadPoolExecutor() as threads, repeated(file.open_stream().flush):
                for _ in range(300):
                    batch = file.batch()
                    self.assertEqual(sorted(threads.map(enter, [batch] * 2)), [False, True])
                    file.discard()
                    self.assertRaises(RuntimeError, batch.__exit__, None, None, None)

    def test_a_batch_that_several_threads_end(self) -> None:
        """The file counts its batches, whichever thread ends one."""

        def end(turn: int) -> None:
            with contextlib.suppress(RuntimeError):
                batch.__exit__(None, None, None)
                batch.__enter__()

        with RandomAccessFile.create(self.path, KEY, check_same_thread=False) as file:
            file.truncate(4 << 20)
            with concurrent.futures.ThreadPoolExecutor(4) as threads:
                for turn in range(20):
                    batch = file.batch()
                    batch.__enter__()
                    threads.submit(file.read_at, 0, 4 << 20)
                    list(threads.map(end, range(3)))
                    with contextlib.suppress(RuntimeError):
                        batch.__exit__(None, None, None)
                    with file.batch():
                        file.write_at(0, b"%2d" % turn)
                    self.assertRaises(RuntimeError, batch.__exit__, None, None, None)
                    # It was committed, so nothing is left to discard.
                    file.discard()
                    self.assertEqual(file.read_at(0, 2), b"%2d" % turn)

    def test_two_threads_that_close(self) -> None:
        """The second one returns after the commit of the first, and so does the close of a stream."""
        RandomAccessFile.create(self.path, KEY).close()
        for size in (8 << 20, 9 << 20):
            file = RandomAccessFile(self.path, KEY, check_same_thread=False)
            file.write_at(0, bytes(size))
            second: Any = file if size == 8 << 20 else file.open_stream()
            with concurrent.futures.ThreadPoolExecutor(1) as other:
                closed = other.submit(file.close)
                while not file.closed:
                    time.sleep(0.001)
                second.close()
                self.assertEqual(len(contents(self.path)), size)
                self.assertIsNone(closed.result(20))

    def test_a_batch_that_ends_after_one_that_failed(self) -> None:
        def change(place: int) -> Generator[None, None, None]:
            with file.batch():
                file.write_at(place, b"half")
                yield
                file.write_at(place + 4, b"half")

        with RandomAccessFile.create(self.path, KEY) as file:
            first, second = change(0), change(8)
            next(first)
            next(second)
            self.assertRaises(ZeroDivisionError, first.throw, ZeroDivisionError)
            self.assertEqual(file.size, 0)
            # It was undone with the one that it was in.
            self.assertRaisesRegex(RuntimeError, "batch of this block has ended", next, second)
            self.assertEqual(file.size, 0)
            with file.batch():
                file.write_at(0, b"after")
        self.assertEqual(contents(self.path), b"after")

    def test_the_longest_name(self) -> None:
        path = self.path.with_name("x" * (255 - len(".journal")))
        RandomAccessFile.create(path, KEY).close()
        self.leave_journal(path)
        self.assertEqual(contents(path)[-5:], b"after")

    def test_damage(self) -> None:
        with RandomAccessFile.create(self.path, KEY) as file:
            file.write_at(0, bytes(9000))
        data = bytearray(self.path.read_bytes())
        data[4096 * 2 + 50] ^= 1
        self.path.write_bytes(data)
        file = RandomAccessFile(self.path, KEY)
        self.assertCause("damaged", file.write_at, 5000, b"x")
        self.assertEqual(file.read_at(0, 4032), bytes(4032))
        with self.assertRaises(RandomAccessError) as raised:
            file.close()
        self.assertEqual(raised.exception.page, 1)
        with RandomAccessFile(self.path, KEY) as file:
            self.assertCause("damaged", file.read_at, 4000, 100)
            self.assertCause("damaged", file.write_at, 5000, b"x")
            file.truncate(4032)
        self.assertEqual(contents(self.path), bytes(4032))

    def test_arguments(self) -> None:
        with RandomAccessFile.create(self.path, KEY) as file:
            file.write_at(0, b"contents")
            calls: list[Callable[[Any], object]] = [lambda each: file.read_at(each, 1), lambda each: file.read_at(0, each)]
            calls += [lambda each: file.write_at(each, b""), file.truncate, lambda each: file._read_into(each, bytearray(1))]
            for call in calls:
                for wrong in (-1, -(1 << 32) + 4000, -(1 << 63), -(1 << 64)):
                    self.assertRaises(ValueError, call, wrong)
                self.assertRaises(OverflowError, call, 1 << 64)
                self.assertRaises(TypeError, call, 1.0)
            self.assertEqual((file.read_at((1 << 64) - 1, 5), file.read_at(0, (1 << 64) - 1)), (b"", b"contents"))
            for place in (1 << 60, (1 << 64) - 1):
                self.assertCause("too_long", file.write_at, place, b"x")
            self.assertCause("too_long", file.truncate, (1 << 60) + 1)
        self.assertRaises(ValueError, file.read_at, 0, 1)

    def test_page_sizes_and_variants(self) -> None:
        wrong = (-(1 << 32) + 4000, -1, 0, 255, 65_537, 1 << 32, (1 << 32) + 4000, (1 << 64) - 1, 1 << 64, (1 << 64) + 4000)
        for size in wrong:
            with self.assertRaises((ValueError, OverflowError), msg=str(size)):
                RandomAccessFile.create(self.path, KEY, page_size=size)
        for variant in (-1, 6, (1 << 32) + 3, (1 << 64) - 1, 1 << 64, (1 << 64) + 3):
            cipher: Any = type("Other", (Aegis256,), {"_VARIANT": variant})
            with self.assertRaises((TypeError, ValueError, OverflowError), msg=str(variant)):
                RandomAccessFile.create(self.path, KEY, cipher=cipher)
            with self.assertRaises((TypeError, ValueError, OverflowError), msg=str(variant)):
                _native.Cipher(variant, KEY, 32)
        for other in (None, 3, "Aegis256", object):
            self.assertRaises(TypeError, RandomAccessFile.create, self.path, KEY, cipher=other)
        self.assertEqual(os.listdir(self.folder), [])
        for size in (256, 65_536):
            RandomAccessFile.create(self.folder / str(size), KEY, page_size=size).close()

    def test_an_empty_write(self) -> None:
        """It extends the contents, as `truncate` does. The position of a stream is its own, even after a batch that fails."""
        with RandomAccessFile.create(self.path, KEY) as file:
            file.write_at(3, b"")
            self.assertEqual(file.read_at(0, 9), bytes(3))
            stream = file.open_stream()
            with contextlib.suppress(ZeroDivisionError), file.batch():
                stream.write(b"lost")
                stream.flush()
                1 / 0
            self.assertEqual((stream.tell(), file.size), (4, 3))

    def test_a_full_disk(self) -> None:
        file = RandomAccessFile.create(self.path, KEY)
        file.write_at(0, bytes(9000))
        with limited(8192):
            self.assertRaises(OSError, file.commit)
        self.assertEqual(os.listdir(self.folder), ["file"])
        self.assertEqual(file.read_at(0, 9000), bytes(9000))
        file.commit()
        self.assertEqual(file.write_at(0, b"lost"), 4)
        with limited(0):
            self.assertRaises(OSError, file.commit)
        # Closing raises the error once more, and commits nothing.
        self.assertRaises(OSError, file.close)
        self.assertEqual(contents(self.path), bytes(9000))
        # Without room for a copy of its journal a file does not open.
        self.leave_journal(self.path)
        before = {path: path.read_bytes() for path in self.folder.iterdir()}
        with limited(1000):
            self.assertRaises(OSError, RandomAccessFile, self.path, KEY)
        self.assertEqual({path: path.read_bytes() for path in self.folder.iterdir()}, before)
        self.assertEqual(contents(self.path)[-5:], b"after")

    def test_threads(self) -> None:
        def work(number: Any) -> Any:
            for turn in range(20):
                with turns, file.batch():
                    file.write_at(number * 100, bytes([number]) * 100)
                self.assertEqual(file.read_at(number * 100, 100), bytes([number]) * 100)

        turns = threading.Lock()
        with RandomAccessFile.create(self.path, KEY, check_same_thread=False) as file:
            threads = [threading.Thread(target=work, args=(number,)) for number in range(4)]
            for thread in threads:
                thread.start()
            for thread in threads:
                thread.join()
        expected = b"".join(bytes([number]) * 100 for number in range(4))
        with RandomAccessFile(self.path, KEY, cipher=Aegis256, check_same_thread=False) as file:
            with concurrent.futures.ThreadPoolExecutor() as other:
                self.assertEqual(other.submit(file.read_at, 0, 500).result(), expected)

    def test_another_thread(self) -> None:
        with RandomAccessFile.create(self.path, KEY) as file, concurrent.futures.ThreadPoolExecutor() as other:
            batch = file.batch()
            calls: list[Callable[[], object]] = [lambda: file.read_at(0, 1), lambda: file.write_at(0, b"x"), file.commit]
            calls += [lambda: file.truncate(0), file.discard, file.close, lambda: file.size, batch.__enter__, file.__enter__]
            for call in calls:
                self.assertRaisesRegex(RuntimeError, "another thread", other.submit(call).result)
            with batch:
                file.write_at(0, b"kept")
                self.assertRaises(RuntimeError, other.submit(batch.__exit__, None, None, None).result)
        self.assertEqual(contents(self.path), b"kept")

    def test_streams(self) -> None:
        member = b"a member" * 1000
        with RandomAccessFile.create(self.path, KEY) as file:
            with tarfile.open(fileobj=file.open_stream(), mode="w") as archive:
                entry = tarfile.TarInfo("member")
                entry.size = len(member)
                archive.addfile(entry, io.BytesIO(member))
            with tarfile.open(fileobj=file.open_stream()) as archive:
                extracted = archive.extractfile("member")
                assert extracted is not None
                self.assertEqual(extracted.read(), member)
            file.truncate(0)
            with zipfile.ZipFile(file.open_stream(), "w") as archive:
                archive.writestr("member", member)
            with zipfile.ZipFile(file.open_stream()) as archive:
                self.assertEqual(archive.read("member"), member)
            with file.open_stream() as stream:
                expected = (file.size - 3, file.read_at(file.size - 3, 3), file.size)
                self.assertEqual((stream.seek(-3, os.SEEK_END), stream.read(9), stream.tell()), expected)
                self.assertRaises(OSError, stream.seek, -1)
                self.assertEqual((stream.seek(0), stream.read(0), stream.readinto(bytearray())), (0, b"", 0))
                self.assertRaises(TypeError, stream.readinto, b"")
            self.assertRaises(ValueError, stream.read)
            file.truncate(0)
            zipfile.ZipFile(file.open_stream(), "w").close()
            with zipfile.ZipFile(file.open_stream()) as archive:
                self.assertEqual(archive.namelist(), [])

    def test_a_stream_after_an_exception(self) -> None:
        """Its block commits nothing, and that of the file discards the changes."""
        with RandomAccessFile.create(self.path, KEY) as file, file.open_stream() as stream:
            stream.write(b"kept")
        for error in KeyError, None:
            with contextlib.suppress(KeyError), RandomAccessFile(self.path, KEY) as file, file.open_stream() as stream:
                stream.write(b"lost" if error else b"new ")
                if error:
                    raise error
            self.assertEqual(contents(self.path), b"kept" if error else b"new ")

    def test_a_block_that_ends_in_another_thread(self) -> None:
        """There it raises an error, and the file stays open."""
        file = RandomAccessFile.create(self.path, KEY)
        file.__enter__()
        with concurrent.futures.ThreadPoolExecutor(1) as other:
            ended = other.submit(file.__exit__, KeyError, KeyError(), None)
            self.assertRaises(RuntimeError, ended.result)
        self.assertFalse(file.closed)
        file.close()

    def test_an_error_of_opening_that_closes_the_object(self) -> None:
        """Code that runs while the error is made, such as a signal handler, may use the object."""
        RandomAccessFile.create(self.path, KEY).close()
        file = RandomAccessFile.__new__(RandomAccessFile)
        made = RandomAccessError.__init__

        def closing(error: RandomAccessError, *arguments: Any) -> None:
            file.close()
            made(error, *arguments)

        with mock.patch.object(RandomAccessError, "__init__", closing):
            thread = threading.Thread(target=self.assertCause, args=("header", file.__init__, self.path, bytes(32)), daemon=True)  # type: ignore[misc]
            thread.start()
            thread.join(20)
        self.assertFalse(thread.is_alive())

    def test_a_stream_under_a_buffer(self) -> None:
        """The `flush` of the buffer makes changes, and that of the stream commits them."""
        with RandomAccessFile.create(self.path, KEY) as file, io.BufferedRandom(file.open_stream()) as buffer:
            for flush, size in ((buffer.flush, 0), (buffer.raw.flush, 4)):
                buffer.seek(0)
                buffer.write(b"data")
                buffer.flush()
                self.assertEqual(file.size, 4)
                flush()
                file.discard()
                self.assertEqual(file.size, size)

    def test_secrets_are_not_copied(self) -> None:
        with RandomAccessFile.create(self.path, KEY) as file:
            for each in (file, file.open_stream()):
                self.assertRaises(TypeError, copy.copy, each)
