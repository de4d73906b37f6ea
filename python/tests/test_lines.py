"""Each stored line, by each call that gives its answer."""

import unittest

import hunkravy
from vectors import CIPHERS, joined, lines, pieces, written

CUTS = (1, 7, 16, 33, 128, 200)


def cuts(field: str) -> list[list[bytes]]:
    """A message as its own pieces, and cut into pieces of other lengths."""
    message = joined(field)
    return [pieces(field)] + [
        [message[start : start + length] for start in range(0, len(message), length)] for length in CUTS
    ]


class Sealing(unittest.TestCase):
    def test_each_line(self) -> None:
        count = 0
        for (_, variant, tag_length, key, nonce, header, message), answer in lines("seal"):
            cipher = CIPHERS[variant][0](bytes.fromhex(key), int(tag_length))
            arguments = bytes.fromhex(nonce), joined(message), joined(header)
            sealed = cipher.encrypt(*arguments)
            self.assertEqual(f"{written(sealed[: -cipher.tag_length])} {sealed[-cipher.tag_length :].hex()}", answer)
            buffer = bytearray(len(sealed))
            self.assertEqual(cipher.encrypt_into(*arguments, buffer), len(sealed))
            self.assertEqual(buffer, sealed)
            for chunks in cuts(message):
                encryptor = cipher.encryptor(arguments[0], arguments[2])
                parts = [encryptor.update(chunk) for chunk in chunks]
                self.assertEqual(b"".join(parts) + encryptor.finalize(), sealed)
            count += 1
        self.assertGreater(count, 100)


class Opening(unittest.TestCase):
    def opened(self, call: object, *arguments: object) -> str:
        """The answer of a call that opens."""
        try:
            return f"ok {written(call(*arguments))}"  # type: ignore[operator]
        except hunkravy.InvalidTag:
            return "invalid tag"

    def test_each_line(self) -> None:
        count = 0
        for (_, variant, tag_length, key, nonce, header, ciphertext, tag), answer in lines("open"):
            cipher = CIPHERS[variant][0](bytes.fromhex(key), int(tag_length))
            place, data = bytes.fromhex(nonce), joined(header)
            sealed = joined(ciphertext) + bytes.fromhex(tag)
            self.assertEqual(self.opened(cipher.decrypt, place, sealed, data), answer)

            def into() -> bytes:
                buffer = bytearray(len(sealed) - cipher.tag_length)
                try:
                    cipher.decrypt_into(place, sealed, data, buffer)
                except hunkravy.InvalidTag:
                    self.assertEqual(buffer, bytes([0xAA]) * len(buffer))
                    raise
                return bytes(buffer)

            self.assertEqual(self.opened(into), answer)
            for chunks in cuts(ciphertext):
                decryptor = cipher.decryptor(place, data)
                for chunk in chunks:
                    decryptor.update(chunk)
                self.assertEqual(self.opened(decryptor.finalize, bytes.fromhex(tag)), answer)
            count += 1
        self.assertGreater(count, 100)


class Keystreams(unittest.TestCase):
    def test_each_line(self) -> None:
        count = 0
        for (_, variant, key, nonce, length), answer in lines("stream"):
            cipher = CIPHERS[variant][0](bytes.fromhex(key))
            self.assertEqual(written(cipher.keystream(bytes.fromhex(nonce), int(length))), answer)
            count += 1
        self.assertGreater(count, 20)


class Macs(unittest.TestCase):
    def test_each_line(self) -> None:
        count = 0
        for fields, answer in lines("mac"):
            _, variant, tag_length, key, nonce, message = fields
            start = bytes(len(key) // 2) if nonce == "-" else bytes.fromhex(nonce)
            for chunks in cuts(message):
                mac = CIPHERS[variant][1](bytes.fromhex(key), nonce=start, tag_length=int(tag_length))
                for chunk in chunks:
                    mac.update(chunk)
                self.assertEqual(mac.hexdigest(), answer)
                mac.copy().verify(bytes.fromhex(answer))
                forged = bytearray.fromhex(answer)
                forged[-1] ^= 1
                self.assertRaises(hunkravy.InvalidTag, mac.verify, forged)
            count += 1
        self.assertGreater(count, 50)
