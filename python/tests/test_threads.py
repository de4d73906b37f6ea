"""One object that several threads use, and several that work at the same time."""

import concurrent.futures
import contextlib
import io
import mmap
import random
import signal
import subprocess
import sys
import threading
import time
import unittest
from typing import Any, Callable, Optional

from hunkravy import Aegis256, Aegis256Mac, InvalidTag, RecordOpener, SealedReader, SealedWriter
from processes import repeated, returns_in_a_fork

# Zeros that take no memory, and that the library works on for a quarter of a second or more.
ZEROS = mmap.mmap(-1, 1 << 28, flags=mmap.MAP_PRIVATE | mmap.MAP_ANONYMOUS)


class Work:
    """Work in another thread, with the moments at which it began and ended."""

    def __init__(self, work: Callable[[], object]) -> None:
        self.begun = self.ended = 0.0
        self._begins = threading.Event()
        self._work = work
        self._thread = threading.Thread(target=self._run)

    def _run(self) -> None:
        self._begins.set()
        self.begun = time.monotonic()
        self._work()
        self.ended = time.monotonic()

    def __enter__(self) -> "Work":
        self._thread.start()
        self._begins.wait()
        # So that the work holds its locks.
        time.sleep(0.02)
        return self

    def __exit__(self, *_: object) -> None:
        self._thread.join()


class Threads(unittest.TestCase):
    def test_one_mac(self) -> None:
        chunk = bytes(10_000)
        mac = Aegis256Mac(bytes(32))
        with concurrent.futures.ThreadPoolExecutor(8) as threads:
            for taken in threads.map(mac.update, [chunk] * 200):
                self.assertIsNone(taken)
        mac.verify(Aegis256Mac(bytes(32), 200 * chunk).digest())

    def test_one_message(self) -> None:
        """Chunks of several threads are encrypted one after the other: each byte of the keystream once."""
        cipher, nonce, chunk = Aegis256(bytes(32)), bytes(32), bytes(10_000)
        encryptor = cipher.encryptor(nonce)
        with concurrent.futures.ThreadPoolExecutor(8) as threads:
            parts = set(threads.map(encryptor.update, [chunk] * 200))
        sealed = cipher.encrypt(nonce, 200 * chunk)
        self.assertEqual(parts, {sealed[start : start + 10_000] for start in range(0, 2_000_000, 10_000)})
        self.assertEqual(encryptor.finalize(), sealed[-32:])

    def test_a_message_that_several_threads_end(self) -> None:
        cipher, nonce = Aegis256(bytes(32)), bytes(32)
        for _ in range(50):
            encryptor = cipher.encryptor(nonce)
            encryptor.update(bytes(10_000))
            ended = []

            def end() -> None:
                try:
                    ended.append(encryptor.finalize())
                except RuntimeError:
                    pass

            with concurrent.futures.ThreadPoolExecutor(4) as threads:
                for _ in range(4):
                    threads.submit(end)
            self.assertEqual(ended, [cipher.encrypt(nonce, bytes(10_000))[-32:]])

    def test_other_threads_run(self) -> None:
        """While the library works, Python runs in other threads."""
        mac, cipher = Aegis256Mac(bytes(32)), Aegis256(bytes(32))
        buffer = bytearray(len(ZEROS) // 4 + 32)
        works: list[Callable[[], object]] = [
            lambda: mac.update(ZEROS),
            lambda: cipher.encrypt_into(bytes(32), memoryview(ZEROS)[: len(ZEROS) // 4], None, buffer),
            lambda: cipher.encrypt(bytes(32), b"", ZEROS),
            lambda: cipher.encryptor(bytes(32), ZEROS),
        ]
        for work in works:
            # On a machine that is busy a thread may wait for other reasons.
            self.assertTrue(any(self.runs_beside(work) for _ in range(5)))

    def runs_beside(self, work: Callable[[], object]) -> bool:
        """Whether this thread never waits for half of the work of another."""
        moments = []
        with Work(work) as working:
            while not working.ended:
                moments.append(time.monotonic())
        longest = max(after - before for before, after in zip(moments, moments[1:]))
        return len(moments) > 100 and longest < (working.ended - working.begun) / 2

    def test_short_work(self) -> None:
        """From 4 KiB on other threads may run, though none asks for that here."""
        mac, counts = Aegis256Mac(bytes(32)), [0]

        def count() -> None:
            counts[0] += 1
            time.sleep(0)

        def runs_beside(length: int) -> bool:
            data, before = bytes(length), counts[0]
            for _ in range(2000):
                mac.update(data)
            return counts[0] != before

        interval = sys.getswitchinterval()
        try:
            sys.setswitchinterval(1000)
            with repeated(count):
                self.assertFalse(runs_beside(4095))
                self.assertTrue(any(runs_beside(4096) for _ in range(50)))
        finally:
            sys.setswitchinterval(interval)

    def test_each_method_waits_for_another_thread(self) -> None:
        mac, cipher = Aegis256Mac(bytes(32)), Aegis256(bytes(32))
        encryptor = cipher.encryptor(bytes(32))
        digest = mac.digest()
        calls: list[Callable[[], object]] = [mac.digest, lambda: mac.verify(digest), mac.copy, lambda: mac.update(b"")]
        for call in calls:
            with Work(lambda: mac.update(ZEROS)) as working:
                with contextlib.suppress(InvalidTag):
                    call()
                returned = time.monotonic()
            self.assertGreater(returned, (working.begun + working.ended) / 2)
        with Work(lambda: encryptor.update(memoryview(ZEROS)[: len(ZEROS) // 2])) as working:
            encryptor.finalize()
            returned = time.monotonic()
        self.assertGreater(returned, (working.begun + working.ended) / 2)

    def test_a_fork_while_another_thread_has_a_turn(self) -> None:
        """The forked process can close the object. Its other methods raise an error."""

        class Slow(io.BytesIO):
            def wait(self) -> None:
                if goes.is_set():
                    goes.clear()
                    ends.wait()

            def write(self, data: Any) -> int:
                self.wait()
                return super().write(data)

            def read(self, size: Optional[int] = -1) -> bytes:
                self.wait()
                return super().read(size)

        def use() -> None:
            self.assertRaises(OSError, call)
            used.__exit__(SystemExit, SystemExit(), None)
            self.assertTrue(used.closed)

        goes, ends, file = threading.Event(), threading.Event(), Slow()
        with SealedWriter(file, bytes(32)) as writer:
            writer.write(b"contents")
        file.seek(0)
        reader, writer = SealedReader(file, bytes(32)), SealedWriter(Slow(), bytes(32))
        calls: list[tuple[Any, Callable[[], object]]] = [(reader, reader.read)]
        calls += [(writer, lambda: writer.write(bytes(1 << 16)))]
        for used, call in calls:
            ends.clear()
            goes.set()
            thread = threading.Thread(target=call)
            thread.start()
            while goes.is_set():
                time.sleep(0.001)
            self.assertTrue(returns_in_a_fork(use))
            ends.set()
            thread.join()
        writer.close()

    def test_a_fork_while_another_thread_has_a_lock(self) -> None:
        """What it was doing is half done in the forked process, so each method of the object raises an error."""

        def use() -> None:
            for call in (mac.digest, mac.copy, lambda: mac.update(b""), lambda: mac.verify(bytes(32))):
                self.assertRaisesRegex(RuntimeError, "when the process was forked", call)
            self.assertEqual(other.digest(), Aegis256Mac(bytes(32)).digest())

        mac, other = Aegis256Mac(bytes(32)), Aegis256Mac(bytes(32))
        with Work(lambda: mac.update(ZEROS)):
            self.assertTrue(returns_in_a_fork(use))

    def test_an_exception_of_a_signal_handler(self) -> None:
        """It keeps no turn."""

        def interrupt(*_: object) -> None:
            raise KeyError

        opener = RecordOpener(bytes(32), bytes(24), b"", b"AGR2")
        previous = signal.signal(signal.SIGALRM, interrupt)
        try:
            for _ in range(200):
                with self.assertRaises(KeyError):
                    signal.setitimer(signal.ITIMER_REAL, 0.00001 + random.random() * 0.0001)
                    while True:
                        opener.record_length(bytes(5))
                self.assertEqual(opener.record_length(bytes(5)), 37)
        finally:
            signal.signal(signal.SIGALRM, previous)

    def test_a_signal_handler(self) -> None:
        """It runs between two calls, and may use the object that it interrupts."""
        mac, digests = Aegis256Mac(bytes(32)), []
        previous = signal.signal(signal.SIGALRM, lambda *_: digests.append(mac.digest()))
        signal.setitimer(signal.ITIMER_REAL, 0.001, 0.001)
        count = 0
        try:
            while len(digests) < 20:
                mac.update(bytes(1 << 20))
                count += 1
        finally:
            signal.setitimer(signal.ITIMER_REAL, 0)
            signal.signal(signal.SIGALRM, previous)
        mac.verify(Aegis256Mac(bytes(32), bytes(count << 20)).digest())

    def test_a_buffer_that_is_in_use(self) -> None:
        """It cannot be resized until the method returns."""
        mac, buffer = Aegis256Mac(bytes(32)), bytearray(1 << 28)
        with Work(lambda: mac.update(buffer)):
            self.assertRaises(BufferError, buffer.append, 0)
        buffer.append(0)

    def test_a_message_that_changes(self) -> None:
        """The message is copied before it is encrypted, so each ciphertext is that of one message or of the other."""
        cipher, nonce = Aegis256(bytes(32)), bytes(32)
        zeros, ones = bytes(1 << 20), b"\1" * (1 << 20)
        message = bytearray(zeros)
        expected = {cipher.encrypt(nonce, zeros), cipher.encrypt(nonce, ones)}

        def change() -> None:
            message[:] = ones
            message[:] = zeros

        with repeated(change):
            for _ in range(30):
                self.assertIn(cipher.encrypt(nonce, message), expected)
                encryptor = cipher.encryptor(nonce)
                self.assertIn(encryptor.update(message) + encryptor.finalize(), expected)


class AtTheEnd(unittest.TestCase):
    """The interpreter ends while a thread is in a method, and `__del__` uses the same object."""

    program = """
import io, mmap, os, sys, threading, time
from hunkravy import *
zeros = mmap.mmap(-1, 1 << 27, flags=mmap.MAP_PRIVATE | mmap.MAP_ANONYMOUS)
cipher = Aegis256(bytes(32))
class Slow(io.BytesIO):
    def read(self, size=-1):
        time.sleep(0.5)
        return super().read(size)
    def write(self, data):
        time.sleep(0.5)
        return super().write(data)
{}
class Last:
    def __del__(self, call=call, write=os.write):
        try:
            call()
            write(1, b"returned")
        except RuntimeError:
            write(1, b"raised")
for _ in range(2):
    threading.Thread(target=work, daemon=True).start()
time.sleep(0.03)
# Dropped as soon as the interpreter ends, or when it has cleared most modules.
{} = Last()
"""

    def ends(self, objects: str, place: str = 'sys.modules["kept"]') -> str:
        """What the program with these objects writes until it ends."""
        command = [sys.executable, "-c", self.program.format(objects, place)]
        return subprocess.run(command, stdout=subprocess.PIPE, check=True, text=True, timeout=200).stdout

    def test_native_objects(self) -> None:
        for objects in (
            "mac = Aegis256Mac(bytes(32)); work, call = lambda: mac.update(zeros), mac.digest",
            "mac = Aegis256Mac(bytes(32)); work, call = lambda: mac.update(zeros), lambda: mac.update(zeros)",
            "message = cipher.encryptor(bytes(32)); work, call = lambda: message.update(zeros), message.finalize",
        ):
            with self.subTest(objects):
                self.assertEqual(self.ends(objects), "returned")

    def test_files(self) -> None:
        """A method of a thread that never goes on keeps its turn."""
        for objects in (
            "writer = SealedWriter(Slow(), bytes(32)); work, call = (lambda: writer.write(bytes(1 << 20)),) * 2",
            "writer = SealedWriter(Slow(), bytes(32)); work, call = lambda: writer.write(bytes(1 << 20)), writer.close",
            """file = io.BytesIO()
with SealedWriter(file, bytes(32)) as writer:
    writer.write(bytes(1 << 20))
reader = SealedReader(Slow(file.getvalue()), bytes(32)); work, call = (lambda: reader.read(1),) * 2""",
        ):
            for place in ('sys.modules["kept"]', "sys.last_object"):
                with self.subTest(objects, place=place):
                    self.assertEqual(self.ends(objects, place), "raised")
