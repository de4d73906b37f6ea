"""Record streams: what they give back, and at each position. test_corpus.py has damaged streams."""

import array
import concurrent.futures
import io
import unittest
from typing import Any, Callable
from unittest import mock

from hunkravy import RecordError, RecordOpener, RecordSealer

KEY, PREFIX, CONTEXT = bytes(range(32)), bytes(range(24)), b"a context"


def stream(messages: list[bytes], context: bytes = CONTEXT) -> list[bytes]:
    """The header and the records of a stream."""
    sealer = RecordSealer(KEY, PREFIX, context)
    return [sealer.header, *map(sealer.seal, messages[:-1]), sealer.seal_last(messages[-1])]


def read(opener: RecordOpener, file: io.BytesIO) -> list[bytes]:
    """The messages of a stream that comes from a file."""
    messages = []
    while not opener.has_ended:
        head = file.read(5)
        messages.append(opener.open(head + file.read(opener.record_length(head) - 5)))
    opener.finish(file.read())
    return messages


class Streams(unittest.TestCase):
    def test_messages(self) -> None:
        for messages in ([b""], [b"one", b"", b"three"], [bytes(1 << 16), b"x" * 100]):
            header, *records = stream(messages)
            opener = RecordOpener(KEY, PREFIX, CONTEXT, header)
            self.assertEqual(read(opener, io.BytesIO(b"".join(records))), messages)
            self.assertEqual(opener.position, (len(messages), sum(map(len, messages))))

    def test_positions(self) -> None:
        messages = [b"one", b"", b"three"]
        _, *records = stream(messages)
        for number in range(3):
            before = sum(map(len, messages[:number]))
            opener = RecordOpener.at(KEY, PREFIX, CONTEXT, number, before)
            self.assertEqual(opener.position, (number, before))
            self.assertEqual([opener.open(record) for record in records[number:]], messages[number:])
            opener.finish()
            for wrong in ((number + 1, before), (number, before + 1)):
                with self.assertRaisesRegex(RecordError, "^record . is damaged"):
                    RecordOpener.at(KEY, PREFIX, CONTEXT, *wrong).open(records[number])
        for number, before in ((1 << 60, 1 << 60), (1 << 64, 0), (0, 1 << 64), (-1, 0), (0, -1)):
            self.assertRaises(ValueError, RecordOpener.at, KEY, PREFIX, CONTEXT, number, before)

    def test_a_stream_has_a_key_a_prefix_and_a_context(self) -> None:
        header, record = stream([b"a message"])
        for key, prefix, context in ((bytes(32), PREFIX, CONTEXT), (KEY, bytes(24), CONTEXT), (KEY, PREFIX, b"")):
            with self.assertRaises(RecordError) as raised:
                RecordOpener(key, prefix, context, header).open(record)
            self.assertEqual((raised.exception.cause, raised.exception.record), ("damaged", 0))
        self.assertEqual(len({RecordSealer.generate_prefix() for _ in range(64)}), 64)

    def test_an_exception_of_a_signal_handler(self) -> None:
        """No other record is taken for the one in which it came."""

        def interrupted(record: bytearray) -> None:
            records.open(record)
            raise KeyError

        header, first, last = stream([b"one", b"two"])
        opener = RecordOpener(KEY, PREFIX, CONTEXT, header)
        before, records = opener.position, opener._records
        opener._records = mock.Mock(open=interrupted)
        self.assertRaises(KeyError, opener.open, first)
        calls: list[Callable[[], object]] = [lambda: opener.open(last), opener.finish, lambda: opener.record_length(bytes(5))]
        for call in calls:
            self.assertRaisesRegex(RuntimeError, "while a record was opened", call)
        self.assertEqual(RecordOpener.at(KEY, PREFIX, CONTEXT, *before).open(first), b"one")

    def test_after_the_end(self) -> None:
        sealer = RecordSealer(KEY, PREFIX)
        record = sealer.seal_last(b"last")
        for seal in (sealer.seal, sealer.seal_last):
            self.assertRaises(RuntimeError, seal, b"more")
        opener = RecordOpener(KEY, PREFIX, b"", sealer.header)
        opener.open(record)
        self.assertRaisesRegex(RecordError, "^bytes follow the last record$", opener.open, record)

    def test_wrong_arguments(self) -> None:
        """They change nothing."""
        sealer = RecordSealer(KEY, PREFIX, array.array("I", [1]))
        self.assertRaisesRegex(ValueError, "too long", sealer.seal, bytes((1 << 24) + 1))
        self.assertRaises(TypeError, sealer.seal, "text")
        self.assertRaises(ValueError, RecordSealer, KEY, PREFIX, bytes(1 << 16))
        self.assertRaises(ValueError, RecordSealer, KEY, bytes(23))
        self.assertRaises(ValueError, RecordSealer, bytes(31), PREFIX)
        opener = RecordOpener(KEY, PREFIX, bytes(array.array("I", [1])), sealer.header)
        record = sealer.seal(array.array("I", [7]))
        wrong: list[Any] = [record + b"?", "text", None]
        for data in wrong:
            self.assertRaises((TypeError, ValueError), opener.open, data)
        self.assertEqual(opener.open(record), bytes(array.array("I", [7])))

    def test_threads(self) -> None:
        """Each message has a record of its own."""
        sealer = RecordSealer(KEY, PREFIX)
        with concurrent.futures.ThreadPoolExecutor(8) as threads:
            records = list(threads.map(sealer.seal, [bytes(5000)] * 50))
        numbers = set()
        for record in records:
            for number in range(50):
                try:
                    RecordOpener.at(KEY, PREFIX, b"", number, 5000 * number).open(record)
                    numbers.add(number)
                except RecordError:
                    pass
        self.assertEqual(numbers, set(range(50)))
