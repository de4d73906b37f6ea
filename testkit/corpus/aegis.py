"""AEGIS from its definitions, slowly: one lane after the other. A block is a number, whose lowest byte is the first.

It shares nothing with the code of the project. `make.py` compares it with published vectors.
"""

State = list[int]

# The names of the variants: the family, and how many lanes it has.
VARIANTS = {
    "aegis128l": (128, 1),
    "aegis128x2": (128, 2),
    "aegis128x4": (128, 4),
    "aegis256": (256, 1),
    "aegis256x2": (256, 2),
    "aegis256x4": (256, 4),
}


def number(data: bytes) -> int:
    return int.from_bytes(data, "little")


def le(value: int, count: int) -> bytes:
    return value.to_bytes(count, "little")


def blocks(data: bytes) -> list[int]:
    return [number(data[at : at + 16]) for at in range(0, len(data), 16)]


def both(one: int, other: int) -> int:
    """Two numbers in 8 bytes each, as a block."""
    return one | other << 64


C0 = number(bytes.fromhex("000101020305080d1522375990e97962"))
C1 = number(bytes.fromhex("db3d18556dc22ff12011314273b528dd"))

# ---- The round of AES (FIPS 197)


def times(one: int, other: int) -> int:
    """The product in the field of 256 elements."""
    product = 0
    while other:
        product ^= one if other & 1 else 0
        one = one << 1 ^ (0x11B if one & 0x80 else 0)
        other >>= 1
    return product


def substitute(byte: int) -> int:
    # An element to the power of 254 is its inverse.
    inverse = 1
    for _ in range(254):
        inverse = times(inverse, byte)
    rotations = [(inverse << count | inverse >> 8 - count) & 255 for count in range(5)]
    return 0x63 ^ rotations[0] ^ rotations[1] ^ rotations[2] ^ rotations[3] ^ rotations[4]


SUBSTITUTED = [substitute(byte) for byte in range(256)]
# What a byte of row 0 adds to its column. Those of the other rows add the same, rotated.
COLUMN = [number(bytes([times(2, byte), byte, byte, times(3, byte)])) for byte in SUBSTITUTED]
COLUMNS = [[(entry << 8 * row | entry >> 32 - 8 * row) & 0xFFFFFFFF for entry in COLUMN] for row in range(4)]


def aes_round(block: int, key: int) -> int:
    data, mixed = le(block, 16), 0
    for column in range(4):
        entry = 0
        for row in range(4):
            entry ^= COLUMNS[row][data[4 * ((column + row) % 4) + row]]
        mixed |= entry << 32 * column
    return mixed ^ key


# ---- One lane


def update(state: State, *message: int) -> State:
    """A step of a lane, which takes in one block, or two of the family 128."""
    new = [aes_round(state[index - 1], block) for index, block in enumerate(state)]
    new[0] ^= message[0]
    if len(state) == 8:
        new[4] ^= message[1]
    return new


def begun(family: int, key: bytes, nonce: bytes, lane: int, lanes: int) -> State:
    context = 0 if lanes == 1 else number(bytes([lane, lanes - 1]))
    if family == 128:
        (k,), (n,) = blocks(key), blocks(nonce)
        state, steps = [k ^ n, C1, C0, C1, k ^ n, k ^ C0, k ^ C1, k ^ C0], [(n, k)] * 10
    else:
        (k0, k1), (n0, n1) = blocks(key), blocks(nonce)
        state = [k0 ^ n0, k1 ^ n1, C1, C0, k0 ^ C0, k1 ^ C1]
        steps = [(k0,), (k1,), (k0 ^ n0,), (k1 ^ n1,)] * 4
    for message in steps:
        state[3] ^= context
        state[-1] ^= context
        state = update(state, *message)
    return state


def keystream(state: State) -> list[int]:
    """The blocks of the keystream: one, or two of the family 128."""
    if len(state) == 8:
        _, s1, s2, s3, _, s5, s6, s7 = state
        return [s1 ^ s6 ^ (s2 & s3), s2 ^ s5 ^ (s6 & s7)]
    _, s1, s2, s3, s4, s5 = state
    return [s1 ^ s4 ^ s5 ^ (s2 & s3)]


def ended(state: State, one: int, other: int) -> State:
    last = state[2 if len(state) == 8 else 3] ^ both(one, other)
    for _ in range(7):
        state = update(state, *([last] * (2 if len(state) == 8 else 1)))
    return state


def folded(part: list[int]) -> int:
    value = 0
    for block in part:
        value ^= block
    return value


def tag_of(state: State, length: int) -> bytes:
    if length == 16:
        return le(folded(state[:7]), 16)
    half = len(state) // 2
    return le(folded(state[:half]), 16) + le(folded(state[half:]), 16)


# ---- All lanes


def padded(data: bytes, rate: int) -> bytes:
    return data + bytes(-len(data) % rate)


def rate_of(family: int, lanes: int) -> int:
    return (32 if family == 128 else 16) * lanes


def taken_in(states: list[State], data: bytes) -> list[State]:
    """The lanes after their shares of an input, which is padded with zeros."""
    lanes, width = len(states), 2 if len(states[0]) == 8 else 1
    all_blocks = blocks(padded(data, 16 * width * lanes))
    for at in range(0, len(all_blocks), width * lanes):
        part = all_blocks[at : at + width * lanes]
        states = [update(state, *part[lane::lanes]) for lane, state in enumerate(states)]
    return states


def crypt(variant: str, key: bytes, nonce: bytes, data: bytes, text: bytes, opens: bool) -> tuple[bytes, bytes]:
    """Encrypts or decrypts a text. Returns the other text and the tag of 32 bytes."""
    family, lanes = VARIANTS[variant]
    states = taken_in([begun(family, key, nonce, lane, lanes) for lane in range(lanes)], data)
    rate, output = rate_of(family, lanes), b""
    for at in range(0, len(text), rate):
        part = text[at : at + rate]
        streams = [keystream(state) for state in states]
        stream = b"".join(le(blocks_of[half], 16) for half in range(len(streams[0])) for blocks_of in streams)
        made = bytes(one ^ other for one, other in zip(part, stream))
        states = taken_in(states, made if opens else part)
        output += made
    tags = [tag_of(ended(state, 8 * len(data), 8 * len(text)), 32) for state in states]
    return output, bytes(folded([tag[index] for tag in tags]) for index in range(32))


def encrypt(variant: str, key: bytes, nonce: bytes, data: bytes, text: bytes) -> bytes:
    """Returns the ciphertext, and after it the tag."""
    return b"".join(crypt(variant, key, nonce, data, text, False))


def decrypt(variant: str, key: bytes, nonce: bytes, data: bytes, sealed: bytes) -> bytes | None:
    text, tag = crypt(variant, key, nonce, data, sealed[:-32], True)
    return text if tag == sealed[-32:] else None


def mac(variant: str, key: bytes, nonce: bytes, data: bytes, length: int) -> bytes:
    """The MAC of so many bytes. With several lanes, lane 0 takes in the tags of the lanes after its own end."""
    family, lanes = VARIANTS[variant]
    states = [begun(family, key, nonce, lane, lanes) for lane in range(lanes)]
    states = taken_in(states, data or bytes(rate_of(family, lanes)))
    states = [ended(state, 8 * len(data), 8 * length) for state in states]
    tags = [tag_of(state, length) for state in states]
    if lanes == 1:
        return tags[0]
    first = 0 if family == 128 and length == 16 else 1
    (state,) = taken_in(states[:1], b"".join(tags[first:]))
    return tag_of(ended(state, lanes, 8 * length), length)


def answer_of(line: str) -> str | None:
    """What the line program prints for a line, if it is a MAC, or a message with a tag of 32 bytes to encrypt."""
    command, *rest = line.split(" ")
    if command not in ("mac", "seal") or rest[1] == "16" and command == "seal":
        return None
    key, nonce, *data = (bytes.fromhex(field.replace("-", "").replace(",", "")) for field in rest[2:])
    if command == "mac":
        return mac(rest[0], key, nonce, data[0], int(rest[1])).hex()
    sealed = encrypt(rest[0], key, nonce, *data)
    return f"{sealed[:-32].hex() or '-'} {sealed[-32:].hex()}"
