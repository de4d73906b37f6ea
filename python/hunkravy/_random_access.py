"""Random-access files: encrypted contents that are read and written at any position, and survive crashes."""

from __future__ import annotations

import operator
import os
from typing import TYPE_CHECKING, ContextManager, Optional, Self

from . import _native, _variants as variants
from ._files import RawFile, negative

if TYPE_CHECKING:
    from _typeshed import ReadableBuffer as _ReadableBuffer, WriteableBuffer as _WriteableBuffer

CAUSES = {
    "header": "cannot open the header: wrong key or variant, damaged file, or not a random-access file",
    "journal": "the journal is of another file, or of another state of this one",
    "damaged": "page {} is damaged",
    "too_long": "the contents would be longer than 2^60 bytes, or no more commits are possible",
    "locked": "the file is already open, here or in another process",
    "moved": "the file was renamed, removed or replaced, or has several hard links",
    "broken": "a commit failed: open the file again",
}


class RandomAccessError(ValueError):
    """The file cannot be opened, read or written.

    `cause` is "header", "journal", "damaged", "too_long", "locked", "moved" or "broken". `page` is the number of the page
    that is damaged, or None.
    """

    def __init__(self, cause: str, page: Optional[int] = None) -> None:
        super().__init__(cause, page)
        self.cause = cause
        self.page = page

    def __str__(self) -> str:
        return CAUSES[self.cause].format(self.page)


class RandomAccessFile(variants.Secret, _native.RandomAccessFile):
    """An encrypted file whose contents are read and written at any position.

    `RandomAccessFile(path, key, *, cipher=Aegis256, check_same_thread=True)` opens the file at a path, and completes a
    commit that was interrupted, or discards all of it. `create` makes an empty one.

    Changes stay in memory until a commit: `commit`, the end of the outermost `batch`, `close`, the end of a `with` block,
    or outside a batch a stream that is closed, flushed or freed, and a write or a growing `truncate` once more than 16 MiB
    of pages are changed. **After a crash all changes of a commit are there, or none.** A commit first writes them to the
    journal, the file `PATH.journal`, and removes it at the end. `PATH.journal` and `PATH.jrncopy` belong to the file:
    opening may remove them.

    The file is locked while it is open, and belongs to the process that opened it. As in `sqlite3` only the thread that
    opened it may use it, unless `check_same_thread` is false. Then calls wait for each other, and threads have to take
    turns with batches and with positions of streams. Errors of the file are `RandomAccessError`, `OSError` or
    `MemoryError`. Wrong arguments and a closed file raise `ValueError`, `OverflowError` or `TypeError`, and another
    thread or a lost batch `RuntimeError`.

    An exception that leaves a `with` block discards the changes that are not committed yet. Use a `batch` around a
    `ZipFile`, an `io.BufferedRandom` or an `io.TextIOWrapper` over a stream: after an exception they still flush or close
    it, which commits outside a batch. A file that is dropped without `close` loses its changes too.
    """

    __slots__ = ()

    def batch(self) -> ContextManager[Self]:
        """Makes several changes one: `with file.batch():` commits them at its end, or undoes them after an exception.

        A batch in another one commits nothing: it is a savepoint. Changes from before the outermost batch are committed
        with it, and are still pending after it was undone. While a batch is open, `commit` raises `RuntimeError` and changes
        nothing, and `close` raises it and closes the file without a commit. `discard` ends all batches, and the ends of
        their blocks raise `RuntimeError`.
        """
        return _native.Batch(self)

    def open_stream(self) -> RandomAccessStream:
        """Returns a raw file object with a position of its own, for example for `tarfile`, `zipfile` or `io.BufferedRandom`.

        Closing it commits, outside a batch, and so does its `flush`. That of an `io.BufferedRandom` over it does not: it
        only makes the changes. The file stays open. Undoing a batch does not move the position back. After an exception of a
        signal handler in a call the position may be where it was before.
        """
        return RandomAccessStream(self)


class RandomAccessStream(variants.Secret, RawFile):  # type: ignore[misc]
    """A raw file object over a `RandomAccessFile`."""

    def __init__(self, file: RandomAccessFile) -> None:
        self._file = file
        self._position = 0
        self._commits = True

    def _open_file(self) -> RandomAccessFile:
        if self.closed:
            raise ValueError("I/O operation on closed file")
        return self._file

    def readable(self) -> bool:
        """Returns True."""
        return self._open_file() is not None

    writable = seekable = readable

    def readinto(self, buffer: _WriteableBuffer) -> int:
        """Fills the buffer with the next bytes, and returns how many: fewer only at the end of the contents."""
        count = self._open_file()._read_into(self._position, buffer)
        self._position += count
        return count

    def write(self, data: _ReadableBuffer) -> int:
        """Writes all of the data at the position, and returns their length."""
        count = self._open_file().write_at(self._position, data)
        self._position += count
        return count

    def seek(self, offset: int, whence: int = os.SEEK_SET) -> int:
        """Goes to a position in the contents, and returns it."""
        size = self._open_file().size
        origin = {os.SEEK_SET: 0, os.SEEK_CUR: self._position, os.SEEK_END: size}.get(whence)
        if origin is None:
            raise ValueError(f"whence must be 0, 1 or 2, not {whence}")
        position = origin + operator.index(offset)
        if position < 0:
            raise negative(position)
        self._position = position
        return position

    def tell(self) -> int:
        """Returns the position in the contents."""
        self._open_file()
        return self._position

    def truncate(self, size: Optional[int] = None) -> int:
        """Truncates or extends the contents to `size` bytes, or to the position."""
        return self._open_file().truncate(self._position if size is None else size)

    def __exit__(self, kind: object, error: object, traceback: object) -> None:
        """Closes. After an exception it commits nothing: the changes stay in memory."""
        self._commits = kind is None
        self.close()

    def close(self) -> None:
        """Commits, unless in a batch or in a process that did not open the file."""
        try:
            super().close()
        except RandomAccessError as error:
            # It has no changes there, and an exception by which the process ends goes on.
            if error.cause != "locked":
                raise

    def flush(self) -> None:
        """Commits, unless in a batch."""
        if self.closed:
            return
        try:
            if self._commits and not self._file._is_in_batch:
                self._file.commit()
        except ValueError:
            if not self._file.closed:
                raise
            # Another thread has closed it, or is doing so, and commits.
            self._file.close()
