"""The corpus of testkit/corpus: files in each format, and what opening them returns."""

import io
import pathlib
import re
import tempfile
import unittest
from typing import Callable, Iterator

import vectors
from hunkravy import RandomAccessError, RandomAccessFile, RecordError, RecordOpener, SealedFileError, SealedReader
from test_records import read

CORPUS = pathlib.Path(__file__).parents[2] / "testkit" / "corpus"
Case = dict[str, str]


def joined(field: str) -> bytes:
    """The bytes of a field. A run of zeros is its length in parentheses."""
    return vectors.joined(re.sub(r"\((\d+)\)", lambda run: "00" * int(run[1]), field))


def cases(name: str) -> Iterator[Case]:
    for text in (CORPUS / f"{name}.txt").read_text().split("\n\n"):
        yield dict(line.split(": ", 1) for line in text.splitlines())


def named(cause: str, number: object) -> str:
    """The name of an error in the corpus."""
    return f"damaged {number}" if cause == "damaged" else cause.replace("_", "-")


def opened_records(case: Case) -> list[bytes] | str:
    file = io.BytesIO(joined(case["stream"]))
    try:
        opener = RecordOpener(joined(case["key"]), joined(case["prefix"]), joined(case["context"]), file.read(4))
    except RecordError as error:
        return named(error.cause, error.record)
    try:
        return read(opener, file)
    except RecordError as error:
        calls: list[Callable[[], object]] = [lambda: opener.open(bytes(37)), lambda: opener.record_length(bytes(5)), opener.finish]
        for call in calls:
            with unittest.TestCase().assertRaises(RecordError) as again:
                call()
            assert again.exception.args == error.args, "it stays"
        return named(error.cause, error.record)


def opened_file(case: Case) -> list[bytes] | str:
    try:
        return [SealedReader(io.BytesIO(joined(case["file"])), joined(case["key"])).read()]
    except SealedFileError as error:
        return named(error.cause, error.record)


def opened_pages(case: Case) -> list[bytes] | str:
    with tempfile.TemporaryDirectory() as folder:
        path, journal = pathlib.Path(folder) / "file", pathlib.Path(folder) / "file.journal"
        path.write_bytes(joined(case["file"]))
        journal.write_bytes(joined(case["journal"]))
        try:
            with RandomAccessFile(path, joined(case["key"]), cipher=vectors.CIPHERS[case["variant"]][0]) as file:
                return [file.read_at(0, file.size)]
        except RandomAccessError as error:
            if error.cause != "damaged":
                # Nothing has changed.
                assert path.read_bytes() == joined(case["file"]), case
                assert case["journal"] == "-" or journal.read_bytes() == joined(case["journal"]), case
            return named(error.cause, error.page)


class Corpus(unittest.TestCase):
    def check(self, name: str, opened: Callable[[Case], list[bytes] | str], least: int) -> None:
        count = 0
        for case in cases(name):
            with self.subTest(case["case"]):
                word, *messages = case["result"].split()
                # A stream of version 1 is none that the package knows.
                is_old = name == "records" and case["stream"].startswith(b"AGR1".hex())
                # A page that is missing is damaged.
                error = case["result"].replace("missing", "damaged")
                expected = [joined(message) for message in messages] if word == "ok" else error
                self.assertEqual(opened(case), "header" if is_old else expected)
                count += 1
        self.assertGreaterEqual(count, least)

    def test_records(self) -> None:
        self.check("records", opened_records, 70)

    def test_sealed_files(self) -> None:
        self.check("sealed", opened_file, 30)

    def test_random_access_files(self) -> None:
        self.check("random-access", opened_pages, 110)
