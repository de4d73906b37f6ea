"""program PATH KEY: makes the commands of standard input with a random-access file of AEGIS-256, and answers each with
a line. README.md has the commands."""

import sys
from typing import Any

from hunkravy import RandomAccessFile

PAGE_BYTES = 256


class Undone(Exception):
    """Undoes the batch that it is raised in."""


class Program:
    def __init__(self, path: str, key: str) -> None:
        self.path, self.key = path, bytes.fromhex(key)
        self.file: Any = None
        self.batches: list[Any] = []

    def create(self) -> None:
        self.file = RandomAccessFile.create(self.path, self.key, page_size=PAGE_BYTES)

    def open(self) -> None:
        self.file = RandomAccessFile(self.path, self.key)

    def write(self, place: str, data: str = "") -> None:
        self.file.write_at(int(place), bytes.fromhex(data))

    def truncate(self, size: str) -> None:
        self.file.truncate(int(size))

    def commit(self) -> None:
        self.file.commit()

    def batch(self) -> None:
        self.batches.append(self.file.batch())
        self.batches[-1].__enter__()

    def end(self) -> None:
        self.batches.pop().__exit__(None, None, None)

    def undo(self) -> None:
        self.batches.pop().__exit__(Undone, Undone(), None)

    def contents(self) -> str:
        return self.file.read_at(0, self.file.size).hex()

    def close(self) -> None:
        file, self.file = self.file, None
        file.close()

    def drop(self) -> None:
        self.batches.clear()
        if self.file is not None:
            self.file.discard()
            self.close()


def main(path: str, key: str) -> None:
    program = Program(path, key)
    for line in sys.stdin:
        command, *arguments = line.split()
        try:
            print(getattr(program, command)(*arguments) or "", "ok", flush=True)
        except (AttributeError, OSError, ValueError) as error:
            print("", error, flush=True)


main(*sys.argv[1:])
