"""The stored lines of the repository, with their answers."""

import pathlib
from typing import Iterator, NamedTuple

import hunkravy
from hunkravy import Cipher, Mac

CIPHERS: dict[str, tuple[type[Cipher], type[Mac]]] = {
    "aegis128l": (hunkravy.Aegis128L, hunkravy.Aegis128LMac),
    "aegis128x2": (hunkravy.Aegis128X2, hunkravy.Aegis128X2Mac),
    "aegis128x4": (hunkravy.Aegis128X4, hunkravy.Aegis128X4Mac),
    "aegis256": (hunkravy.Aegis256, hunkravy.Aegis256Mac),
    "aegis256x2": (hunkravy.Aegis256X2, hunkravy.Aegis256X2Mac),
    "aegis256x4": (hunkravy.Aegis256X4, hunkravy.Aegis256X4Mac),
}
FOLDER = pathlib.Path(__file__).parents[2] / "crates" / "test_agreement" / "data"


class Line(NamedTuple):
    """The fields of a line, the first of which is its command, and its answer."""

    fields: list[str]
    answer: str


def pieces(field: str) -> list[bytes]:
    """The pieces of a field."""
    return [b"" if part == "-" else bytes.fromhex(part) for part in field.split(",")]


def joined(field: str) -> bytes:
    """The bytes of a field."""
    return b"".join(pieces(field))


def written(data: bytes) -> str:
    """The field of bytes in an answer."""
    return data.hex() or "-"


def lines(command: str) -> Iterator[Line]:
    """The stored lines of a command whose answer is no fault of the line."""
    for source in sorted(FOLDER.glob("*.in")):
        # A line may have other characters at which `splitlines` would split it.
        questions = source.read_bytes().decode().split("\n")
        answers = source.with_suffix(".out").read_bytes().decode().split("\n")
        assert len(questions) == len(answers) > 1, source
        for line, answer in zip(questions, answers):
            fields = line.split(" ")
            if fields[0] == command and not answer.startswith("error"):
                yield Line(fields, answer)
