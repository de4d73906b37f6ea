"""Key files, and files that the tool and the package exchange."""

import io
import os
import pathlib
import subprocess
import tempfile
import unittest
from unittest import mock

from hunkravy import SealedReader, read_key
from test_files import PIECE, sealed


class Keys(unittest.TestCase):
    digits = b"00112233445566778899aabbccddeeFF" * 2

    def test_each_form(self) -> None:
        accepted = [b"", b"\n", b"\r\n", b" ", b"\t\v", b"\f\n", b"\xc2\x85", b"\xc2\xa0"]
        rejected = [b"\n\n\n", b"\x1c", b"\x1f\n", b"\0", b"0", b"\xa0", b"\xc2", b"\xe2\x80\x80", b"\n0", b"g"]
        with tempfile.TemporaryDirectory() as folder:
            path = pathlib.Path(folder) / "key"
            for end in accepted + rejected:
                path.write_bytes(self.digits + end)
                if end in accepted:
                    self.assertEqual(read_key(path), bytes.fromhex(self.digits.decode()))
                else:
                    self.assert_rejected(path)
            for wrong in (b"", b"\n", self.digits[:-1], self.digits[:-1] + b"\n", b" " + self.digits,
                          self.digits[:-1] + b"g", b"\xef\xbb\xbf" + self.digits, self.digits[:-2] + "é".encode()):
                path.write_bytes(wrong)
                self.assert_rejected(path)
            # It is not read whole.
            os.truncate(path, 1 << 42)
            self.assert_rejected(path)
            self.assertRaises(FileNotFoundError, read_key, str(path) + "-missing")

    def assert_rejected(self, path: pathlib.Path) -> None:
        with self.assertRaisesRegex(ValueError, "is not a key file: expected 64 hexadecimal digits$") as raised:
            read_key(path)
        self.assertNotIn("00112233", str(raised.exception))


class Tool(unittest.TestCase):
    """The files of the tool that HUNKRAVY_TOOL is the path of, and these."""

    tool = os.environ.get("HUNKRAVY_TOOL", "")

    def setUp(self) -> None:
        if "HUNKRAVY_TOOL" not in os.environ:
            self.skipTest("HUNKRAVY_TOOL is not set to the tool hunkravy")
        self.assertTrue(os.access(self.tool, os.X_OK), f"HUNKRAVY_TOOL={self.tool} is not a program")
        folder = tempfile.TemporaryDirectory()
        self.addCleanup(folder.cleanup)
        self.folder = pathlib.Path(folder.name)

    def run_tool(self, *arguments: object) -> "subprocess.CompletedProcess[bytes]":
        # Without the variables by which these tests may run with a sanitizer.
        return subprocess.run([self.tool, *map(str, arguments)], cwd=self.folder, capture_output=True, env={"LC_ALL": "C"})

    def test_exchange(self) -> None:
        self.assertEqual(self.run_tool("keygen", "key").returncode, 0)
        key = read_key(self.folder / "key")
        for length in (0, 1, PIECE - 1, PIECE, PIECE + 1, 200_000):
            contents = os.urandom(length)
            names = [self.folder / f"{name}{length}" for name in ("contents", "tool", "package", "opened")]
            names[0].write_bytes(contents)
            self.assertEqual(self.run_tool("seal", "-k", "key", names[0], names[1]).returncode, 0)
            data = names[1].read_bytes()
            self.assertEqual(SealedReader(io.BytesIO(data), key).read(), contents)
            with mock.patch("os.urandom", return_value=data[:24]):
                self.assertEqual(sealed(contents, key), data)
            names[2].write_bytes(sealed(contents, key))
            self.assertEqual(self.run_tool("open", "-k", "key", names[2], names[3]).returncode, 0)
            self.assertEqual(names[3].read_bytes(), contents)

    def test_key_files(self) -> None:
        ends = [b"", b"\n", b"\r\n", b"\t\v", b"\f", b"\xc2\x85", b"\xc2\xa0", b"\x1c", b"\0", b"0", b"\n\n\n", b"\xa0"]
        for end in ends:
            with self.subTest(end):
                path = self.folder / "key"
                path.write_bytes(Keys.digits + end)
                try:
                    (self.folder / "sealed").write_bytes(sealed(b"contents", read_key(path)))
                    expected = 0
                except ValueError:
                    expected = 3
                self.assertEqual(self.run_tool("check", "-k", "key", "sealed").returncode, expected)
