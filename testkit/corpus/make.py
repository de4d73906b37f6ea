#!/usr/bin/env python3
"""Makes the corpus: files in each format, and what opening them returns. README.md has the form of a case.

    make.py FOLDER      writes records.txt, sealed.txt and random-access.txt
    make.py --check     compares the ciphers with the published lines of crates/test_agreement

The result of each case is written down here, and `formats.py` opens its bytes to find the same.
"""

import hashlib
import pathlib
import re
import sys
from typing import Any, Iterator

import aegis
from aegis import VARIANTS, le
from formats import BLOCK, FIRST_PAGE, Pages, TAG, opened_file, opened_pages, opened_records, records, sealed_file
from formats import written

LINES = pathlib.Path(__file__).parents[2] / "crates/test_agreement/data"
Case = dict[str, Any]


def noise(label: str, count: int) -> bytes:
    """Bytes that look random, the same each time."""
    return hashlib.shake_128(label.encode()).digest(count)


def changed(data: bytes, at: int, by: int = 1) -> bytes:
    """The bytes with one of them changed. A negative place counts from the end."""
    at %= len(data)
    return data[:at] + bytes([data[at] ^ by]) + data[at + 1 :]


def shown(data: bytes) -> str:
    """Hexadecimal digits. A run of zeros is its length in parentheses, and no bytes are `-`."""
    runs = re.compile(rb"\0{12,}")
    pieces, at = "", 0
    for run in runs.finditer(data):
        pieces += f"{data[at : run.start()].hex()}({len(run[0])})"
        at = run.end()
    return pieces + data[at:].hex() or "-"


def text_of(case: Case, found: str | list[bytes]) -> str:
    result = found if isinstance(found, str) else " ".join(["ok", *map(shown, found)])
    assert result.split()[0] == case["result"].split()[0] and case["result"] in (result, "ok"), (case["case"], result)
    case["result"] = result
    return "".join(f"{name}: {shown(value) if isinstance(value, bytes) else value}\n" for name, value in case.items())


# ---- Record streams

KEY, PREFIX, CONTEXT = noise("key", 32), noise("prefix", 24), b"corpus"


def record_case(name: str, stream: bytes, result: str, **other: bytes) -> Case:
    own = {"key": KEY, "prefix": PREFIX, "context": CONTEXT} | other
    return {"case": name, **own, "stream": stream, "result": result}


def whole_streams(version: int) -> Iterator[Case]:
    for name, messages, context in (
        ("one empty message", [b""], CONTEXT),
        ("one message", [b"a message"], CONTEXT),
        ("no context", [b"a message"], b""),
        ("a context of 300 bytes", [b"a message"], noise("context", 300)),
        ("empty messages", [b"", b"", b""], CONTEXT),
        ("messages around a block", [noise("text", count) for count in (15, 16, 17, 33)], CONTEXT),
        ("an empty message in the middle", [b"first", b"", b"last"], CONTEXT),
    ):
        stream = b"".join(records(version, KEY, PREFIX, context, messages))
        yield record_case(f"version {version}: {name}", stream, "ok", context=context)


def damaged_streams(version: int) -> Iterator[Case]:
    pieces = records(version, KEY, PREFIX, CONTEXT, [b"first", b"", b"last"])
    header, first, second, last = pieces
    stream, most = b"".join(pieces), {1: 65_536, 2: 16_777_216}[version]
    for name, damaged, result in (
        ("no bytes", b"", "header"),
        ("half a header", header[:3], "header"),
        ("a header alone", header, "truncated"),
        ("a header of no version", b"AGR3" + stream[4:], "header"),
        ("the other version's header", changed(stream, 3, 3), "damaged 0"),
        ("a flag without a length", header + first[:1], "truncated"),
        ("half a length", header + first[:4], "truncated"),
        ("a record without its tag", header + first[:-32], "truncated"),
        ("a record without its last byte", stream[:-1], "truncated"),
        ("no last record", header + first + second, "truncated"),
        ("a flag of 2", header + changed(first, 0, 2) + second + last, "flag"),
        ("a flag of 255 at the end", header + first + second + b"\xff", "flag"),
        ("a first record that is called the last", header + changed(first, 0), "damaged 0"),
        ("a last record that is not called the last", header + first + second + changed(last, 0), "damaged 2"),
        ("a length that is too long", header + first[:1] + le(most + 1, 4) + first[5:], "too-long"),
        ("the longest length", header + first[:1] + le(most, 4) + first[5:], "truncated"),
        ("a length that is one too short", header + first[:1] + le(4, 4) + first[5:] + second + last, "damaged 0"),
        ("the longest length of four bytes", header + first[:1] + le(2**32 - 1, 4), "too-long"),
        ("a changed ciphertext", header + changed(first, 5) + second + last, "damaged 0"),
        ("a changed tag", header + first + changed(second, -1) + last, "damaged 1"),
        ("a changed first byte of a tag", header + first + second + changed(last, -32), "damaged 2"),
        ("swapped records", header + second + first + last, "damaged 0"),
        ("a missing record", header + first + last, "damaged 1"),
        ("a repeated record", header + first + first + second + last, "damaged 1"),
        ("a byte after the end", stream + b"\0", "trailing"),
        ("a record after the end", stream + last, "trailing"),
    ):
        yield record_case(f"version {version}: {name}", damaged, result)
    yield record_case(f"version {version}: another key", stream, "damaged 0", key=changed(KEY, 31))
    yield record_case(f"version {version}: another prefix", stream, "damaged 0", prefix=changed(PREFIX, 23))
    yield record_case(f"version {version}: another context", stream, "damaged 0", context=CONTEXT + b"\0")


def record_cases() -> Iterator[str]:
    for version in (1, 2):
        for case in (*whole_streams(version), *damaged_streams(version)):
            yield text_of(case, opened_records(case["key"], case["prefix"], case["context"], case["stream"]))


# ---- Sealed files


def sealed_cases() -> Iterator[str]:
    pieces = sealed_file(KEY, PREFIX, [b"the first piece", noise("piece", 40), b""])
    prefix, header, first, second, last = pieces
    file = b"".join(pieces)
    other = b"".join([PREFIX, *records(2, KEY, PREFIX, CONTEXT, [b"contents"])])
    for name, data, result in (
        ("no contents", b"".join(sealed_file(KEY, PREFIX, [b""])), "ok"),
        ("one piece in the last record", b"".join(sealed_file(KEY, PREFIX, [b"contents"])), "ok"),
        ("a piece and an empty last record", b"".join(sealed_file(KEY, PREFIX, [b"contents", b""])), "ok"),
        ("pieces of any length", file, "ok"),
        ("empty records in the middle", b"".join(sealed_file(KEY, PREFIX, [b"a", b"", b"", b"b"])), "ok"),
        ("a prefix of zeros", b"".join(sealed_file(KEY, bytes(24), [b"contents"])), "ok"),
        ("no bytes", b"", "header"),
        ("a prefix alone", prefix, "header"),
        ("half a prefix", prefix[:12], "header"),
        ("half a header", prefix + header[:2], "header"),
        ("a changed header", prefix + b"agr2" + file[28:], "header"),
        ("a stream of version 1", prefix + b"".join(records(1, KEY, prefix, b"hunkravy v1", [b"contents"])), "header"),
        ("a header alone", prefix + header, "truncated"),
        ("a flag alone", prefix + header + first[:1], "truncated"),
        ("half a record", prefix + header + first[:20], "truncated"),
        ("no last record", prefix + header + first + second, "truncated"),
        ("a last record without its last byte", file[:-1], "truncated"),
        ("a flag of 3", prefix + header + changed(first, 0, 3) + second + last, "flag"),
        ("a length that is too long", prefix + header + first[:1] + le(2**24 + 1, 4) + first[5:], "too-long"),
        ("a changed prefix", changed(file, 0), "damaged 0"),
        ("a changed last byte of the prefix", changed(file, 23), "damaged 0"),
        ("a changed flag", prefix + header + changed(first, 0) + second + last, "damaged 0"),
        ("a changed ciphertext", prefix + header + first + changed(second, 6, 128) + last, "damaged 1"),
        ("a changed tag", prefix + header + first + second + changed(last, -1, 128), "damaged 2"),
        ("swapped records", prefix + header + second + first + last, "damaged 0"),
        ("a missing record", prefix + header + first + last, "damaged 1"),
        ("a byte after the end", file + b"\n", "trailing"),
        ("a file after the end", file + file, "trailing"),
        ("another context", other, "damaged 0"),
    ):
        case = {"case": name, "key": KEY, "file": data, "result": result}
        yield text_of(case, opened_file(KEY, data))
    case = {"case": "another key", "key": changed(KEY, 0), "file": file, "result": "damaged 0"}
    yield text_of(case, opened_file(case["key"], file))


# ---- Random-access files


class File:
    """A random-access file and its last commit: the files before and after it, its writes and its journal."""

    def __init__(
        self, variant: str, label: str = "file", counter: int = 1, page_size: int = 256, key: bytes = KEY
    ) -> None:
        self.label, self.variant = f"{label} {variant} {counter}", variant
        self.key = key[: 16 if VARIANTS[variant][0] == 128 else 32]
        self.pages = Pages(variant, self.key, page_size, noise(f"id {label}", 24))
        self.old_text, self.text = noise("old text", 300), noise("old text", 20) + noise("text", 320)
        self.old_header = self.header(counter, len(self.old_text))
        self.next_header = self.header(counter + 1, len(self.text))
        self.old = self.file(self.old_header, self.old_text)
        new_pages = self.pages.pages(self.text, self.nonces(f"pages {counter + 1}", 2))
        self.writes = [(0, self.old_header)]
        self.writes += [(self.pages.place(index), page) for index, page in enumerate(new_pages)]
        self.writes += [(0, self.next_header)]
        self.new = written(self.old, self.writes)
        self.journal = self.pages.journal(self.writes, noise(f"journal {self.label}", 16))

    def nonces(self, label: str, count: int) -> list[bytes]:
        return [noise(f"{self.label} {label} {index}", self.pages.nonce_bytes) for index in range(count)]

    def header(self, counter: int, length: int) -> bytes:
        return self.pages.header(counter, length, *self.nonces(f"header {counter}", 1))

    def file(self, header: bytes, text: bytes) -> bytes:
        pages = self.pages.pages(text, self.nonces("pages", 3))
        return header.ljust(FIRST_PAGE if pages else BLOCK, b"\0") + b"".join(pages)


def pages_case(name: str, file: File, data: bytes, journal: bytes, result: str, **fields: Any) -> Case:
    case = {"case": name, "variant": file.variant, "key": file.key, "file": data, "journal": journal}
    return case | {"result": result} | fields


def cases_of_each(variant: str) -> Iterator[Case]:
    file = File(variant)
    yield pages_case(f"{variant}: two pages", file, file.old, b"", "ok")
    yield pages_case(f"{variant}: a whole journal", file, file.old, file.journal, "ok")
    yield pages_case(f"{variant}: a journal with a changed MAC", file, file.old, changed(file.journal, -1), "ok")
    yield pages_case(f"{variant}: another key", file, file.old, b"", "header", key=changed(file.key, 0))
    yield pages_case(f"{variant}: a changed page", file, changed(file.old, -40), b"", "damaged 1")


def stages(file: File) -> Iterator[tuple[str, bytes, bytes, str]]:
    """What a crash may leave at each step of a commit."""
    old, new, journal = file.old, file.new, file.journal
    first_page = written(old, file.writes[1:2])
    yield "before the journal", old, b"", "old"
    yield "a part of the beginning", old, journal[:100], "old"
    yield "a beginning of garbage", old, noise("garbage", BLOCK), "old"
    yield "the beginning alone", old, journal[:BLOCK], "old"
    yield "the beginning and a byte", old, journal[: BLOCK + 1], "old"
    yield "the beginning and zeros", old, journal[:BLOCK].ljust(len(journal), b"\0"), "old"
    yield "a rest that is torn at its end", old, journal[:-100].ljust(len(journal), b"\0"), "old"
    yield "a rest that is torn at its start", old, journal[:BLOCK] + bytes(512) + journal[1024:], "old"
    yield "a rest without its last byte", old, journal[:-1], "old"
    yield "a rest with one byte more", old, journal + b"\0", "old"
    yield "a whole journal", old, journal, "new"
    yield "one page is written", first_page, journal, "new"
    yield "a page is torn", changed(old, FIRST_PAGE, 255), journal, "new"
    yield "pages are lost", old[:FIRST_PAGE], journal, "new"
    yield "all pages are written", old[:FIRST_PAGE] + new[FIRST_PAGE:], journal, "new"
    yield "the header is torn", noise("garbage", 64) + new[64:], journal, "new"
    yield "the header is half there", new[:60] + old[60:], journal, "new"
    yield "all is written", new, journal, "new"
    yield "the journal is empty again", new, b"", "new"
    yield "the journal is cut to its beginning", new, journal[:BLOCK], "new"
    yield "the journal is emptied in part", new, journal[:-200].ljust(len(journal), b"\0"), "new"


def journal_cases(file: File) -> Iterator[tuple[str, bytes, bytes, str]]:
    """Journals that are not of this commit, or damaged."""
    old, new, journal, pages = file.old, file.new, file.journal, file.pages
    other, of_other_key = File(file.variant, "another file"), File(file.variant, key=changed(file.key, 5))
    later, nonce = File(file.variant, counter=3), noise("nonce", 16)
    content = journal[BLOCK + 16 : -TAG]
    yield "a journal of another file", old, other.journal, "journal"
    yield "a journal of another file, with no header", bytes(FIRST_PAGE), other.journal, "ok"
    yield "a journal of another file, torn", old, other.journal[:-1], "journal"
    yield "a journal of another file, cut to its beginning", old, other.journal[:BLOCK], "old"
    yield "a journal of another key", old, of_other_key.journal, "old"
    yield "a journal of another variant", old, File("aegis128l").journal, "journal"
    yield "an older journal of this file", later.old, journal, "journal"
    yield "the journal of the last commit", new, journal, "new"
    yield "a journal of a later state", old, later.journal, "journal"
    yield "a journal of garbage", old, noise("garbage", 600), "journal"
    yield "a torn journal with a changed padding", old, changed(journal, 511)[:-1], "journal"
    yield "a whole journal with a changed beginning", old, changed(journal, 40), "new"
    yield "a journal with a changed nonce", old, changed(journal, BLOCK), "old"
    yield "a journal with a changed place", old, changed(journal, BLOCK + 16), "old"
    yield "a journal with a changed page", old, changed(journal, BLOCK + 16 + 528 + 60), "old"
    yield "a journal with the header at another place", old, pages.journal([(512, file.next_header)], nonce), "journal"
    yield "a journal of its pages alone", old, pages.journal(file.writes[1:-1], nonce), "journal"
    yield "a journal of the next header alone, after it", new, pages.journal(file.writes[-1:], nonce), "new"
    yield "a journal without writes", old, pages.framed(b"", nonce), "journal"
    yield "a journal whose last write is cut", old, pages.framed(content[:-1], nonce), "old"
    yield "a journal with half a head after its writes", old, pages.framed(content + bytes(8), nonce), "old"
    too_far = content + le(2**63 - 1, 8) + le(1, 8) + b"x"
    yield "a journal with a write past 2^63 - 1", old, pages.framed(too_far, nonce), "old"
    yield "a whole journal and no file", b"", journal, "new"
    yield "a torn journal and no file", b"", journal[:-1], "header"
    yield "a torn journal and no header", changed(new, 40), journal[:-1], "header"


def header_cases(file: File) -> Iterator[tuple[str, bytes, bytes, str]]:
    """Headers that are damaged, or at their limits."""
    old, pages = file.old, file.pages
    end = 33 + pages.nonce_bytes + 16 + TAG

    def with_page_size(size: int) -> bytes:
        return File(file.variant, page_size=size).header(0, 0)

    for name, at in ("mark", 3), ("variant", 4), ("page size", 5), ("id", 9), ("nonce", 33), ("numbers", end - 48):
        yield f"a changed {name}", changed(old, at), b"", "header"
    yield "a changed tag", changed(old, end - 1), b"", "header"
    yield "a changed padding", changed(changed(old, end), 600), b"", "old"
    yield "no bytes", b"", b"", "header"
    yield "no file, and a beginning of a journal", b"", file.journal[:BLOCK], "header"
    yield "one byte less than a header block", file.header(0, 0)[:-1], b"", "header"
    yield "a header block alone", file.header(0, 0), b"", "ok"
    yield "a header of zeros", bytes(BLOCK), b"", "header"
    yield "the smallest page size, and the largest counter", file.header(2**64 - 1, 0), b"", "ok"
    yield "the largest page size", with_page_size(65_536), b"", "ok"
    yield "a page size that is too small", with_page_size(255), b"", "header"
    yield "a page size that is too large", with_page_size(65_537), b"", "header"
    yield "contents that are too long", file.header(1, 2**60 + 1), b"", "header"


def page_cases(file: File) -> Iterator[tuple[str, bytes, bytes, str]]:
    """Pages that are damaged, in another place, or of another state."""
    old, place = file.old, file.pages.place
    first, second = old[place(0) : place(1)], old[place(1) :]
    start, other = old[:FIRST_PAGE], File(file.variant, "another file").old
    of_lines = File(file.variant, page_size=300)
    yield "one full page", file.file(file.header(1, 256), file.old_text[:256]), b"", "ok"
    yield "a byte in the second page", file.file(file.header(1, 257), file.old_text[:257]), b"", "ok"
    yield "pages of 300 bytes", of_lines.old, b"", "ok"
    yield "bytes after the contents in the last page", file.file(file.header(1, 290), file.old_text), b"", "ok"
    yield "a page after the contents", file.file(file.header(1, 256), file.old_text), b"", "ok"
    yield "bytes after the last page", old + b"more", b"", "old"
    yield "a changed nonce of a page", changed(old, FIRST_PAGE), b"", "damaged 0"
    yield "a changed ciphertext of a page", changed(old, place(1) - TAG - 1, 64), b"", "damaged 0"
    yield "a changed tag of a page", changed(old, place(1) - 1), b"", "damaged 0"
    yield "two changed pages", changed(changed(old, FIRST_PAGE), -1), b"", "damaged 0"
    yield "a missing last page", old[: place(1)], b"", "missing 1"
    yield "a last page without its last byte", old[:-1], b"", "missing 1"
    yield "no pages", old[:BLOCK], b"", "missing 0"
    yield "a page of zeros", start + bytes(len(first)) + second, b"", "damaged 0"
    yield "swapped pages", start + second + first, b"", "damaged 0"
    yield "the first page twice", start + first + first, b"", "damaged 1"
    yield "a page of another file", start + other[place(0) : place(1)] + second, b"", "damaged 0"
    yield "an older page in its place", file.new[: place(1)] + second, b"", "ok"


def random_access_cases() -> Iterator[str]:
    file = File("aegis256")
    cases = [case for variant in VARIANTS for case in cases_of_each(variant)]
    for group in (stages, journal_cases, header_cases, page_cases):
        for name, data, journal, result in group(file):
            text = {"old": file.old_text, "new": file.text}.get(result)
            result = result if text is None else f"ok {shown(text)}"
            cases.append(pages_case(f"{group.__name__.split('_')[0]}: {name}", file, data, journal, result))
    same = File("aegis256", "the key of another variant")
    cases.append(pages_case("another variant", same, same.old, b"", "header", variant="aegis256x2"))
    for case in cases:
        found, commitment = opened_pages(case["variant"], case["key"], case["file"], case["journal"])
        yield text_of(case, found) + (f"commitment: {commitment.hex()}\n" if commitment else "")


def check() -> int:
    """Compares the ciphers with the published lines."""
    count = wrong = 0
    for name in ("published", "calls"):
        for line, answer in zip(*((LINES / f"{name}.{end}").read_text().splitlines() for end in ("in", "out"))):
            own = aegis.answer_of(line)
            count += own is not None
            wrong += own not in (None, answer)
    print(f"{count} published lines, {wrong} differ")
    return 1 if wrong or count < 50 else 0


def main(folder: str) -> int:
    if folder == "--check":
        return check()
    for name, cases in ("records", record_cases), ("sealed", sealed_cases), ("random-access", random_access_cases):
        texts = list(cases())
        (pathlib.Path(folder) / f"{name}.txt").write_text("\n".join(texts))
        print(f"{name}: {len(texts)} cases")
    return 0


sys.exit(main(*sys.argv[1:]))
