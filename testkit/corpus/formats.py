"""The formats from their page, docs/FORMATS.md: what is written, and what opens.

A result is "ok" and the contents, or the name of an error.
"""

from aegis import VARIANTS, decrypt, encrypt, le, mac, number

# ---- Record streams

MARKS = {1: b"AGR1", 2: b"AGR2"}
MOST_MESSAGE = {1: 65_536, 2: 16_777_216}
RECORD_TAG = 32


def record_data(version: int, index: int, before: int, flag: int, context: bytes) -> bytes:
    """The associated data of a record."""
    return MARKS[version] + le(index, 8) + (le(before, 8) if version == 2 else b"") + bytes([flag]) + context


def records(version: int, key: bytes, prefix: bytes, context: bytes, messages: list[bytes]) -> list[bytes]:
    """The pieces of a stream: its header, and each record."""
    pieces, before = [MARKS[version]], 0
    for index, message in enumerate(messages):
        flag = int(index == len(messages) - 1)
        data = record_data(version, index, before, flag, context)
        sealed = encrypt("aegis256", key, prefix + le(index, 8), data, message)
        pieces.append(bytes([flag]) + le(len(message), 4) + sealed)
        before += len(message)
    return pieces


def opened_records(key: bytes, prefix: bytes, context: bytes, stream: bytes) -> str | list[bytes]:
    """The messages of a stream, or an error."""
    version = {mark: version for version, mark in MARKS.items()}.get(stream[:4])
    if version is None:
        return "header"
    at, messages = 4, list[bytes]()
    while True:
        head = stream[at : at + 5]
        if head[:1] > b"\1":
            return "flag"
        if len(head) < 5:
            return "truncated"
        length = number(head[1:])
        if length > MOST_MESSAGE[version]:
            return "too-long"
        sealed = stream[at + 5 : at + 5 + length + RECORD_TAG]
        if len(sealed) < length + RECORD_TAG:
            return "truncated"
        index, before = len(messages), sum(map(len, messages))
        data = record_data(version, index, before, head[0], context)
        message = decrypt("aegis256", key, prefix + le(index, 8), data, sealed)
        if message is None:
            return f"damaged {index}"
        messages.append(message)
        at += 5 + len(sealed)
        if head[0] == 1:
            return "trailing" if at < len(stream) else messages


# ---- Sealed files

SEALED_CONTEXT = b"hunkravy v1"


def sealed_file(key: bytes, prefix: bytes, pieces: list[bytes]) -> list[bytes]:
    """The prefix of a file, its header and its records."""
    return [prefix, *records(2, key, prefix, SEALED_CONTEXT, pieces)]


def opened_file(key: bytes, file: bytes) -> str | list[bytes]:
    """The contents of a sealed file, or an error. A stream of version 1 is no sealed file."""
    if file[24:28] != MARKS[2]:
        return "header"
    opened = opened_records(key, file[:24], SEALED_CONTEXT, file[24:])
    return opened if isinstance(opened, str) else [b"".join(opened)]


# ---- Random-access files

BLOCK, FIRST_PAGE, TAG = 512, 4096, 32
HEADER_NUMBER = 2**64 - 1


class Pages:
    """What is written of random-access files of a variant, a key, a page size and an id."""

    def __init__(self, variant: str, key: bytes, page_size: int, file_id: bytes) -> None:
        self.variant, self.key, self.page_size = variant, key, page_size
        family, lanes = VARIANTS[variant]
        self.nonce_bytes = 16 if family == 128 else 32
        self.start = bytes([self.nonce_bytes + lanes]) + le(page_size, 4) + file_id

    def sealed(self, number: int, nonce: bytes, text: bytes) -> bytes:
        return nonce + encrypt(self.variant, self.key, nonce, b"AGP1" + self.start + le(number, 8), text)

    def header(self, counter: int, length: int, nonce: bytes) -> bytes:
        """The first 512 bytes."""
        sealed = self.sealed(HEADER_NUMBER, nonce, le(counter, 8) + le(length, 8))
        return (b"AGP1" + self.start + sealed).ljust(BLOCK, b"\0")

    def place(self, number: int) -> int:
        return FIRST_PAGE + number * (self.nonce_bytes + self.page_size + TAG)

    def pages(self, contents: bytes, nonces: list[bytes]) -> list[bytes]:
        parts = [contents[at : at + self.page_size] for at in range(0, len(contents), self.page_size)]
        padded = [part.ljust(self.page_size, b"\0") for part in parts]
        return [self.sealed(index, nonce, part) for index, (nonce, part) in enumerate(zip(nonces, padded))]

    def reserved(self) -> bytes:
        """The nonce of the two MACs under the key of the file."""
        return b"\xff" * self.nonce_bytes

    def journal_mac(self, nonce: bytes, content: bytes) -> bytes:
        own_key = mac(self.variant, self.key, self.reserved(), b"AGJ1", 16)
        return mac("aegis128l", own_key, nonce, le(0, 8) + content, 32)

    def journal(self, writes: list[tuple[int, bytes]], nonce: bytes) -> bytes:
        return self.framed(b"".join(le(place, 8) + le(len(data), 8) + data for place, data in writes), nonce)

    def framed(self, content: bytes, nonce: bytes) -> bytes:
        beginning = (b"AGJ1" + self.start).ljust(BLOCK, b"\0")
        return beginning + nonce + content + self.journal_mac(nonce, content)

    def commitment(self, file: bytes, counter: int, length: int) -> bytes:
        count = -(-length // self.page_size)
        tags = b"".join(file[self.place(index + 1) - TAG : self.place(index + 1)] for index in range(count))
        data = b"AGP1" + self.start + le(counter, 8) + le(length, 8) + tags
        return mac(self.variant, self.key, self.reserved(), data, 32)


def pages_of(variant: str, key: bytes, block: bytes) -> tuple[Pages, int, int] | None:
    """What a file is of, its counter and its length, if it has a header of this variant and key."""
    family, lanes = VARIANTS[variant]
    pages = Pages(variant, key, number(block[5:9]), block[9:33])
    end = 33 + pages.nonce_bytes
    if len(block) < BLOCK or block[:33] != b"AGP1" + pages.start or not 256 <= pages.page_size <= 65536:
        return None
    data = block[:33] + le(HEADER_NUMBER, 8)
    numbers = decrypt(variant, key, block[33:end], data, block[end : end + 16 + TAG])
    if numbers is None or number(numbers[8:]) > 2**60:
        return None
    return pages, number(numbers[:8]), number(numbers[8:])


def writes_in(content: bytes) -> list[tuple[int, bytes]] | None:
    writes = []
    while content:
        place, length = number(content[:8]), number(content[8:16])
        if len(content) < 16 + length or place + length > 2**63 - 1:
            return None
        writes.append((place, content[16 : 16 + length]))
        content = content[16 + length :]
    return writes


def written(file: bytes, writes: list[tuple[int, bytes]]) -> bytes:
    for place, data in writes:
        file = file.ljust(place, b"\0")[:place] + data + file[place + len(data) :]
    return file


def recovered(variant: str, key: bytes, file: bytes, journal: bytes) -> str | bytes:
    """The file after its recovery, or an error."""
    found = pages_of(variant, key, file[:BLOCK])
    own = found[0] if found else Pages(variant, key, 0, bytes(24))
    content, nonce = journal[BLOCK + 16 : -TAG], journal[BLOCK : BLOCK + 16]
    is_framed = len(journal) >= BLOCK + 16 + TAG and own.journal_mac(nonce, content) == journal[-TAG:]
    writes = writes_in(content) if is_framed else None
    if found is None:
        return "header" if writes is None else written(file, writes)
    if writes is None:
        is_own = len(journal) <= BLOCK or journal.startswith((b"AGJ1" + own.start).ljust(BLOCK, b"\0"))
        return file if is_own else "journal"
    head = file[: 33 + own.nonce_bytes + 16 + TAG]
    is_of_commit = any(place == 0 and data.startswith(head) for place, data in writes[:1] + writes[-1:])
    return written(file, writes) if is_of_commit else "journal"


def opened_pages(variant: str, key: bytes, file: bytes, journal: bytes) -> tuple[str | list[bytes], bytes | None]:
    """The contents of a random-access file, or an error; and its commitment."""
    after = recovered(variant, key, file, journal)
    if isinstance(after, str):
        return after, None
    found = pages_of(variant, key, after[:BLOCK])
    if found is None:
        return "header", None
    pages, counter, length = found
    contents = b""
    for index in range(-(-length // pages.page_size)):
        page = after[pages.place(index) : pages.place(index + 1)]
        nonce, data = page[: pages.nonce_bytes], b"AGP1" + pages.start + le(index, 8)
        if len(page) < pages.place(1) - pages.place(0):
            return f"missing {index}", None
        text = decrypt(variant, key, nonce, data, page[pages.nonce_bytes :])
        if text is None:
            return f"damaged {index}", None
        contents += text
    return [contents[:length]], pages.commitment(after, counter, length)
