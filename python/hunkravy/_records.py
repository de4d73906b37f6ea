"""Record streams: messages that are encrypted one by one, each of which opens only at its place in its stream."""

from __future__ import annotations

import operator
import os
from typing import TYPE_CHECKING, Callable, ClassVar, Optional, Self

from . import _native, _turns as turns, _variants as variants
from ._native import HEAD_BYTES, PREFIX_BYTES, RECORD_BYTES

if TYPE_CHECKING:
    from _typeshed import ReadableBuffer as _ReadableBuffer

HEADER = b"AGR2"
TAG_BYTES = RECORD_BYTES - HEAD_BYTES


class Fault(ValueError):
    """A fault of a record stream or a sealed file: its `cause`, and the number of the `record` that was read."""

    causes: ClassVar[dict[str, str]]

    def __init__(self, cause: str, record: int) -> None:
        super().__init__(cause, record)
        self.cause = cause
        self.record = record

    def __str__(self) -> str:
        return self.causes[self.cause].format(self.record)


class RecordError(Fault):
    """A record stream is damaged or truncated, or the key, the prefix or the context is wrong.

    `cause` is "header", "truncated", "flag", "too_long", "damaged" or "trailing". `record` is the number of the record
    that was read, counted from 0.
    """

    causes = {
        "header": "not a record stream: the header is wrong",
        "truncated": "the record stream is truncated",
        "flag": "the first byte of record {} is neither 0 nor 1",
        "too_long": "the length of record {} is more than 16 MiB",
        "damaged": "record {} is damaged, or the key, the prefix or the context is wrong",
        "trailing": "bytes follow the last record",
    }


def stream_of(key: _ReadableBuffer, prefix: _ReadableBuffer, context: _ReadableBuffer) -> _native.Records:
    """Returns a stream that has not begun."""
    with memoryview(context) as view:
        return _native.Records(key, prefix, view.tobytes())


def length_of_record(head: bytes, fault: Callable[[str], Exception]) -> int:
    """Returns the length of a record from its head, which is not verified, or raises the fault with its cause."""
    length = _native.record_length(bytes(head[:HEAD_BYTES].ljust(HEAD_BYTES, b"\0")))
    if length < 0:
        raise fault("flag" if head[0] > 1 else "too_long")
    if len(head) < HEAD_BYTES:
        raise fault("truncated")
    return length


class RecordSealer(variants.Secret):
    """Encrypts the messages of a stream.

    `key` has 32 bytes. `prefix` has 24 bytes, and is used for no other stream under the key: nothing detects that. The
    opener needs the key, the prefix, the context and the header. End each stream with `seal_last`: without it the
    stream is truncated. After a `MemoryError`, or an exception from a signal handler, a record may be lost: begin another
    stream. After a fork only one of the two processes may go on with it: both have its nonces.

    >>> from hunkravy import RecordOpener, RecordSealer
    >>> prefix = RecordSealer.generate_prefix()
    >>> sealer = RecordSealer(bytes(32), prefix, b"my-app/messages")
    >>> records = [sealer.seal(b"first"), sealer.seal_last(b"last")]

    The other side has the key and the context, and gets the rest:

    >>> opener = RecordOpener(bytes(32), prefix, b"my-app/messages", sealer.header)
    >>> [opener.open(record) for record in records]
    [b'first', b'last']
    >>> opener.finish()
    """

    __slots__ = ("_records",)

    def __init__(self, key: _ReadableBuffer, prefix: _ReadableBuffer, context: _ReadableBuffer = b"") -> None:
        self._records = stream_of(key, prefix, context)
        self._records.begin()

    @staticmethod
    def generate_prefix() -> bytes:
        """Returns a random prefix."""
        return os.urandom(PREFIX_BYTES)

    @property
    def header(self) -> bytes:
        """The first bytes of the stream."""
        return HEADER

    def seal(self, message: _ReadableBuffer) -> bytes:
        """Returns the record of the next message, of at most 16 MiB. With a longer one `ValueError` is raised."""
        return self._sealed(message, is_last=False)

    def seal_last(self, message: _ReadableBuffer) -> bytes:
        """Returns the record of the last message. Each later call raises `RuntimeError`."""
        return self._sealed(message, is_last=True)

    def _sealed(self, message: _ReadableBuffer, is_last: bool) -> bytes:
        with memoryview(message) as view:
            record = bytearray(HEAD_BYTES) + view.tobytes() + bytes(TAG_BYTES)
        self._records.seal(record, is_last)
        return bytes(record)


class RecordOpener(variants.Secret, turns.Turns):
    """Decrypts the records of a stream, in their order.

    The stream is complete only if `finish` returns. Until then it may be truncated. A fault raises `RecordError`, and
    each later call raises it again, so a record cannot be tried with other bytes. After a `MemoryError` or an exception
    of a signal handler in `open`, go on with another opener `at` the `position` from before the call: this one may raise
    `RuntimeError`.
    """

    def __init__(
        self, key: _ReadableBuffer, prefix: _ReadableBuffer, context: _ReadableBuffer, header: _ReadableBuffer
    ) -> None:
        super().__init__()
        with memoryview(header) as view:
            if view.tobytes() != HEADER:
                raise RecordError("header", 0)
        self._begin(key, prefix, context, 0, 0)

    @classmethod
    def at(
        cls, key: _ReadableBuffer, prefix: _ReadableBuffer, context: _ReadableBuffer, number: int, before: int
    ) -> Self:
        """Begins at record `number`, counted from 0. The messages before it have `before` bytes in total.

        A wrong position raises `RecordError` when the record is opened, or `ValueError` immediately if no stream has it. The
        records before it are not verified.
        """
        number, before = operator.index(number), operator.index(before)
        if not (0 <= number < 1 << 64 and 0 <= before < 1 << 64):
            raise ValueError("number and before must be from 0 to 2^64 - 1")
        opener = cls.__new__(cls)
        turns.Turns.__init__(opener)
        opener._begin(key, prefix, context, number, before)
        return opener

    def _begin(
        self, key: _ReadableBuffer, prefix: _ReadableBuffer, context: _ReadableBuffer, number: int, before: int
    ) -> None:
        self._records = stream_of(key, prefix, context)
        self._records.begin(number, before)
        self._position = (number, before)
        self._has_ended = False
        # Whether a record is opened, and the position perhaps not moved.
        self._is_between = False
        self._error: Optional[RecordError] = None

    @property
    def position(self) -> tuple[int, int]:
        """The number of the next record, and how many bytes the messages before it have."""
        return self._position

    @property
    def has_ended(self) -> bool:
        """Whether the last record was opened."""
        return self._has_ended

    def record_length(self, head: _ReadableBuffer) -> int:
        """Returns the length of the next record in bytes, from its first five. It is at most 16 MiB and 37 bytes.

        **The length is not verified**: allocate memory for a record as its bytes arrive.
        """
        with self._turn(), memoryview(head) as view:
            return self._length(view.tobytes())

    def open(self, record: _ReadableBuffer) -> bytes:
        """Returns the message of the next record.

        More bytes than its head says raise `ValueError`, and change nothing. Fewer are a truncated stream: collect the
        whole record first.
        """
        with self._turn():
            with memoryview(record) as view:
                data = bytearray(view)
            length = self._length(bytes(data[:HEAD_BYTES]))
            if len(data) > length:
                raise ValueError(f"the record has {length} bytes, not {len(data)}")
            if len(data) < length:
                raise self._fault("truncated")
            number, before = self._position
            self._is_between = True
            try:
                self._has_ended = self._records.open(data)
            except _native.InvalidTag:
                raise self._fault("damaged") from None
            message = bytes(data[HEAD_BYTES:-TAG_BYTES])
            self._position = (number + 1, before + length - RECORD_BYTES)
            self._is_between = False
            return message

    def finish(self, rest: _ReadableBuffer = b"") -> None:
        """Checks that the whole stream was opened, and that no bytes follow it."""
        with self._turn(), memoryview(rest) as view:
            self._check()
            if not self._has_ended:
                raise self._fault("truncated")
            if view.nbytes:
                raise self._fault("trailing")

    def _check(self) -> None:
        if self._error is not None:
            raise RecordError(*self._error.args)
        if self._is_between:
            raise RuntimeError("an exception came while a record was opened")

    def _fault(self, cause: str) -> RecordError:
        self._error = RecordError(cause, self._position[0])
        return RecordError(*self._error.args)

    def _length(self, head: bytes) -> int:
        """Returns the length of a record with this head."""
        self._check()
        if self._has_ended:
            raise self._fault("trailing")
        return length_of_record(head, self._fault)
