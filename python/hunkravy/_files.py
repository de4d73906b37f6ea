"""Sealed files, the files of the tool `hunkravy`: encrypted contents that are written and read like files."""

from __future__ import annotations

import errno
import io
import operator
import os
import re
import warnings
from types import TracebackType
from typing import TYPE_CHECKING, Any, BinaryIO, NoReturn, Optional, Self, Union

from . import _native, _turns as turns, _variants as variants
from ._native import HEAD_BYTES, PREFIX_BYTES, RECORD_BYTES
from ._records import HEADER, TAG_BYTES, Fault, RecordError, length_of_record

if TYPE_CHECKING:
    from _typeshed import ReadableBuffer as _ReadableBuffer, WriteableBuffer as _WriteableBuffer

    class RawFile(io.RawIOBase, BinaryIO):  # type: ignore[misc]
        """A raw file that functions which take a file object accept."""

        def __enter__(self) -> Self: ...
        def read(self, size: Optional[int] = -1, /) -> Union[bytes, Any]: ...
        def readall(self) -> Union[bytes, Any]: ...

else:
    RawFile = io.RawIOBase

# A piece of the contents is the message of a record. These are those that are written.
PIECE_BYTES = 1 << 16
CONTEXT = b"hunkravy v1"

# 64 digits, and at most two bytes of white space.
KEY_FILE = re.compile(rb"([0-9A-Fa-f]{64})(?:\s{0,2}|\xc2[\x85\xa0])")


class SealedFileError(Fault):
    """The file is not a sealed file, is damaged or truncated, or the key is wrong.

    `cause` is "header", "truncated", "flag", "too_long", "damaged" or "trailing". `record` is the number of the record
    that was read, counted from 0.
    """

    causes = RecordError.causes | {
        "header": "not a sealed file: bytes 24 to 27 are not AGR2",
        "truncated": "the file is truncated",
        "damaged": "record {} is damaged, or the key is wrong",
    }


def read_key(path: Union[str, os.PathLike[str]]) -> bytes:
    """Returns the key of a key file of the tool `hunkravy`.

    A key file has 64 hexadecimal digits, and at most two bytes of white space. Raises `ValueError` if it is not a key
    file, and `OSError` if it cannot be read.
    """
    with open(path, "rb") as file:
        found = KEY_FILE.fullmatch(file.read(67))
    if found is None:
        raise ValueError(f"{os.fspath(path)!r} is not a key file: expected 64 hexadecimal digits")
    return bytes.fromhex(found[1].decode())


class NoBytesYet(BlockingIOError):
    """The file beneath does not block, and has no bytes yet."""


def bytes_of(view: memoryview) -> memoryview:
    """Returns a view of the bytes. One of no element cannot be cast."""
    return view.cast("B") if view.nbytes else memoryview(b"")


def negative(position: int) -> OSError:
    """Returns the error of a file for a seek to a negative position, which `zipfile` expects."""
    return OSError(errno.EINVAL, f"negative position: {position}")


class Sealed(variants.Secret, turns.Turns, RawFile):  # type: ignore[misc]
    """What readers and writers share: the file beneath, and turns of threads."""

    _can_read = _can_write = _can_seek = False

    def __init__(self, file: BinaryIO) -> None:
        super().__init__()
        self._file = file

    def _check_open(self) -> None:
        if self.closed:
            raise ValueError("I/O operation on closed file")

    def _unsupported(self, reason: str) -> NoReturn:
        self._check_open()
        raise io.UnsupportedOperation(reason)

    def readable(self) -> bool:
        """Returns whether it is a reader."""
        self._check_open()
        return self._can_read

    def writable(self) -> bool:
        """Returns whether it is a writer."""
        self._check_open()
        return self._can_write

    def seekable(self) -> bool:
        """Returns whether it is a reader whose file can seek."""
        self._check_open()
        return self._can_seek


class SealedWriter(Sealed):
    """Writes a sealed file to `file`, a file object that is open for writing bytes.

    `key` has 32 bytes. The file is complete once `close` has returned, or a `with` block of the writer has ended
    without an exception. After an exception in the block or of `write`, or if the writer is dropped, the file does not open.
    If `close` raises an exception, the file may be complete or not. `file` is not closed. It has to block: if it takes no
    byte, `BlockingIOError` is raised. In a forked process the writer raises `OSError`, and writes nothing.

    Bytes are written in pieces of 65,536. `close` writes the last piece, and `flush` does not. In a `with` block the
    end of the block completes the file, even if an `io.TextIOWrapper` inside it has closed the writer.
    """

    _can_write = True
    # False while a method writes, so it stays false if an exception ends one.
    _may_finish = False

    def __init__(self, file: BinaryIO, key: _ReadableBuffer) -> None:
        super().__init__(file)
        self._is_entered = False
        self._process = turns.process()
        prefix = os.urandom(PREFIX_BYTES)
        self._records = _native.Records(key, prefix, CONTEXT)
        self._record = bytearray(RECORD_BYTES + PIECE_BYTES)
        self._filled = 0
        self._length = 0
        self._records.begin()
        self._write_all(prefix + HEADER)
        self._may_finish = True

    def readinto(self, buffer: _WriteableBuffer, /) -> NoReturn:
        """Raises `io.UnsupportedOperation`. So do `read` and `readall`."""
        self._unsupported("not readable")

    def tell(self) -> int:
        """Returns the number of bytes of contents that were written."""
        self._check_open()
        return self._length

    def write(self, data: _ReadableBuffer) -> int:
        """Writes all of the data, and returns their length. After an exception the file cannot be completed.

        Exceptions: those that come before any of the data are taken in, such as `TypeError`.
        """
        count = -1
        try:
            with self._turn():
                self._check_open()
                self._check_may_finish()
                with memoryview(data) as view, bytes_of(view) as contents:
                    self._may_finish = False
                    self._take_in(contents)
                    count = len(contents)
                self._may_finish = True
        except BaseException:
            if count >= 0:
                # A signal has come at the end of the turn, and its caller would write the data again.
                self._may_finish = False
            raise
        return count

    def close(self) -> None:
        """Completes the file, or raises `OSError` if an earlier write failed.

        In a `with` block of the writer the file is completed at its end.
        """
        with self._turn():
            if self.closed:
                return
            try:
                if not self._is_entered:
                    self._finish()
            finally:
                super().close()

    def __enter__(self) -> Self:
        self._check_open()
        if self._is_entered:
            raise RuntimeError("the writer already has a `with` block")
        self._is_entered = True
        return self

    def __exit__(
        self,
        kind: Optional[type[BaseException]],
        error: Optional[BaseException],
        traceback: Optional[TracebackType],
    ) -> None:
        with self._turn():
            try:
                if kind is None:
                    self._finish()
            finally:
                self._may_finish = False
                super().close()

    def __del__(self) -> None:
        # That of the base class would complete the file.
        super().close()
        if self._may_finish:
            warnings.warn(f"{type(self).__name__} was not closed: its file is incomplete", ResourceWarning, source=self)

    def _check_may_finish(self) -> None:
        # A wrapper that is freed in a forked process would seal other contents there under the same nonces.
        if self._process != turns.process():
            raise OSError("the file cannot be completed: another process has made its writer")
        if not self._may_finish:
            raise OSError("the file cannot be completed: an earlier write failed")

    def _take_in(self, contents: memoryview) -> None:
        """Copies contents to the record, which is written when it is full."""
        start = 0
        while start < len(contents):
            part = contents[start : start + PIECE_BYTES - self._filled]
            place = HEAD_BYTES + self._filled
            self._record[place : place + len(part)] = part
            self._filled += len(part)
            self._length += len(part)
            start += len(part)
            if self._filled == PIECE_BYTES:
                self._write_record(is_last=False)

    def _write_record(self, is_last: bool) -> None:
        with memoryview(self._record)[: RECORD_BYTES + self._filled] as record:
            self._records.seal(record, is_last)
            self._write_all(bytes(record))
        self._filled = 0

    def _write_all(self, data: bytes) -> None:
        while data:
            written: object = self._file.write(data)
            if written is None:
                raise BlockingIOError(errno.EAGAIN, "the file beneath does not block, and took no byte", 0)
            if not isinstance(written, int) or not 0 < written <= len(data):
                raise OSError(f"only {written!r} of {len(data)} bytes were written")
            data = data[written:]

    def _finish(self) -> None:
        self._check_may_finish()
        self._may_finish = False
        if self._filled:
            self._write_record(is_last=False)
        self._write_record(is_last=True)
        self._file.flush()


class SealedReader(Sealed):
    """Reads the contents of a sealed file from `file`, a file object that is open for reading bytes.

    `key` has 32 bytes. Each byte that is returned was verified, with its place in the contents. The end of the contents
    is returned only after the last record was verified and `file` has ended. A fault raises `SealedFileError`, and each
    later read or seek raises it again. After any other exception from a read or a seek in `file`, make a new reader: later
    reads and seeks raise `OSError`, though not always after a `MemoryError` or a signal handler's exception. The first
    28 bytes are read when the reader is made: if `file` does not block, it has to have them by then. `file` is not closed.

    If `file` can seek, the reader can. Unless the record of the place is where `SealedWriter` would have put it, it is
    found with the lengths of the records before it, whose contents are not verified. To read line by line, wrap the
    reader in an `io.BufferedReader`.
    """

    _can_read = True

    def __init__(self, file: BinaryIO, key: _ReadableBuffer) -> None:
        super().__init__(file)
        # The record that is being read, the piece that was opened last, and how many bytes of contents are before it.
        self._record = bytearray()
        self._piece = memoryview(b"")
        self._start = 0
        self._is_last = False
        # The number of the next record.
        self._number = 0
        self._position = 0
        # What each later call raises.
        self._error: Optional[Exception] = None
        self._can_seek = hasattr(file, "seekable") and file.seekable()
        self._first = file.tell() if self._can_seek else 0
        self._read_record(PREFIX_BYTES + len(HEADER))
        if self._record[PREFIX_BYTES:] != HEADER:
            raise SealedFileError("header", 0)
        self._records = _native.Records(key, self._record[:PREFIX_BYTES], CONTEXT)
        self._begin_at(0, 0)

    def write(self, data: _ReadableBuffer, /) -> NoReturn:
        """Raises `io.UnsupportedOperation`."""
        self._unsupported("not writable")

    def tell(self) -> int:
        """Returns the position in the contents."""
        self._check_open()
        return self._position

    def read(self, size: Optional[int] = -1, /) -> Union[bytes, Any]:
        """Returns the next bytes, at most `size`, or with -1 or None all that are left. See `readinto` for None."""
        return super().read(-1 if size is None else size)

    def readinto(self, buffer: _WriteableBuffer) -> Optional[int]:
        """Fills the buffer with the next bytes of the contents, and returns how many. If they are fewer than the buffer
        has, the contents end there, the next call raises an exception, or `file` does not block and has no bytes yet.

        Returns None if there are no bytes yet at all.
        """
        with self._turn(), memoryview(buffer) as view, bytes_of(view) as out:
            if view.readonly:
                raise TypeError("buffer must be writable")
            self._begin_call()
            filled = self._fill(out)
            if not isinstance(self._error, SealedFileError):
                self._error = None
            return filled

    def readall(self) -> Union[bytes, Any]:
        """Returns the rest of the contents."""
        # The method of the base class reads less at a time.
        parts = []
        while part := self.read(PIECE_BYTES):
            parts.append(part)
        return part if part is None and not parts else b"".join(parts)

    def seek(self, offset: int, whence: int = os.SEEK_SET) -> int:
        """Goes to a position in the contents, and returns it. Reading past the end returns no bytes.

        Verifies the record that has the position, and with `os.SEEK_END` the last one.
        """
        offset = operator.index(offset)
        with self._turn():
            if not self.seekable():
                self._unsupported("the underlying file is not seekable")
            if whence not in (os.SEEK_SET, os.SEEK_CUR, os.SEEK_END):
                raise ValueError(f"whence must be 0, 1 or 2, not {whence}")
            self._begin_call()
            try:
                sought = self._sought(offset, whence)
                position = self._position if sought < 0 else sought
                self._go_to(position)
            except SealedFileError as error:
                self._error = SealedFileError(*error.args)
                raise
            self._position = position
            self._error = None
            if sought < 0:
                raise negative(sought)
            return position

    def close(self) -> None:
        """Drops the key and what was read."""
        with self._turn():
            self._piece = memoryview(b"")
            self._record = bytearray()
            # Its key and its state are overwritten.
            self.__dict__.pop("_records", None)
            super().close()

    def _begin_call(self) -> None:
        """Raises the error of an earlier call. If an exception ends this one anywhere, that stays an error."""
        self._check_open()
        if self._error is not None:
            # Another one each time, since a raised one keeps the frames, and what they hold.
            raise type(self._error)(*self._error.args)
        self._error = OSError("an earlier call failed or was interrupted: open the file again")

    def _fault(self, cause: str) -> SealedFileError:
        return SealedFileError(cause, self._number)

    def _sought(self, offset: int, whence: int) -> int:
        """The position that `seek` goes to."""
        if whence == os.SEEK_CUR:
            return self._position + offset
        if whence == os.SEEK_END:
            self._go_to(None)
            self._check_end()
            return self._start + len(self._piece) + offset
        return offset

    def _fill(self, out: memoryview) -> Optional[int]:
        """Fills the buffer until a fault, which the next call raises, or until there are no bytes yet."""
        filled = 0
        try:
            while filled < len(out) and self._has_more():
                filled += self._copy(out[filled:])
        except NoBytesYet:
            return filled or None
        except SealedFileError as error:
            self._error = SealedFileError(*error.args)
            if filled == 0:
                raise
        return filled

    def _has_more(self) -> bool:
        """Opens records until one has bytes at the position. Returns false at the end of the contents."""
        while self._start + len(self._piece) <= self._position:
            if self._is_last:
                self._check_end()
                return False
            self._open_next()
        return True

    def _copy(self, out: memoryview) -> int:
        """Copies bytes of the piece, from the position on."""
        part = self._piece[self._position - self._start :][: len(out)]
        out[: len(part)] = part
        self._position += len(part)
        return len(part)

    def _read_record(self, length: int) -> None:
        """Reads until the record has this many bytes, or the file ends. Memory is taken as bytes come.

        After `NoBytesYet` it can be called again.
        """
        while len(self._record) < length:
            most = min(length - len(self._record), max(len(self._record), PIECE_BYTES + RECORD_BYTES))
            data = self._file.read(most)
            if data is None:
                raise NoBytesYet("no bytes are available yet")
            if not data:
                return
            self._record += data

    def _check_end(self) -> None:
        self._read_record(1)
        if self._record:
            raise self._fault("trailing")

    def _read_head(self) -> int:
        """Reads the head of the next record, and returns the record's length, which is not verified."""
        self._read_record(HEAD_BYTES)
        return length_of_record(self._record, self._fault)

    def _open_next(self) -> None:
        length = self._read_head()
        self._read_record(length)
        if len(self._record) < length:
            raise self._fault("truncated")
        start = self._start + len(self._piece)
        record, self._record = self._record, bytearray()
        try:
            self._is_last = self._records.open(record)
        except _native.InvalidTag:
            raise self._fault("damaged") from None
        self._start = start
        self._piece = memoryview(record)[HEAD_BYTES:-TAG_BYTES]
        self._number += 1

    def _begin_at(self, number: int, before: int) -> None:
        """Begins at a record, of which nothing is read."""
        self._records.begin(number, before)
        self._record = bytearray()
        self._piece = memoryview(b"")
        self._start = before
        self._is_last = False
        self._number = number

    def _go_to(self, position: Optional[int]) -> None:
        """Opens the record that has the position, or the last one if there is none.

        It is tried first where `SealedWriter` would have put it, and otherwise found from the next record on, or from the
        first one.
        """
        end = self._start + len(self._piece)
        if self._is_open_at(position) and (position is None or self._start <= position):
            return
        number, before = self._number, end
        if position is not None and position < end:
            number, before = 0, 0
        if not self._opens_in_whole_pieces(position):
            self._find(position, number, before)

    def _is_open_at(self, position: Optional[int]) -> bool:
        """Whether the record that was opened has the position, or is the last one."""
        return self._is_last or (position is not None and position < self._start + len(self._piece))

    def _move_to(self, number: int, before: int) -> int:
        """Reads the head of a record, and returns the length of its message, which is not verified."""
        self._file.seek(self._first + PREFIX_BYTES + len(HEADER) + RECORD_BYTES * number + before)
        self._record, self._number = bytearray(), number
        return self._read_head() - RECORD_BYTES

    def _opens_in_whole_pieces(self, position: Optional[int]) -> bool:
        """Opens the record where it is if each piece before it is whole, and returns whether it is that."""
        size = self._file.seek(0, os.SEEK_END) - self._first - PREFIX_BYTES - len(HEADER) - RECORD_BYTES
        pieces, rest = divmod(size, PIECE_BYTES + RECORD_BYTES)
        if size < 0 or 0 < rest <= RECORD_BYTES:
            return False
        pieces += rest > 0
        contents = size - RECORD_BYTES * pieces
        number = pieces if position is None or position >= contents else position // PIECE_BYTES
        before = min(contents, number * PIECE_BYTES)
        try:
            self._move_to(number, before)
            self._open_at(number, before)
        except SealedFileError:
            return False
        return self._is_open_at(position)

    def _find(self, position: Optional[int], number: int, before: int) -> None:
        """Opens the record that has the position, or the last one, by the lengths of those from a record on."""
        while True:
            length = self._move_to(number, before)
            if self._record[0] == 1 or (position is not None and position < before + length):
                break
            if length == 0:
                # It is verified, since zeros look like records of no bytes, and a file may have many of them.
                self._open_at(number, before)
            number, before = number + 1, before + length
        self._open_at(number, before)

    def _open_at(self, number: int, before: int) -> None:
        """Opens a record, whose head is read."""
        head = self._record
        self._begin_at(number, before)
        self._record = head
        self._open_next()
