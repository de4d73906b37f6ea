"""The samples of the pages and of the modules, and the example."""

import contextlib
import doctest
import importlib
import pathlib
import re
import runpy
import subprocess
import sys
import tempfile
import unittest

import hunkravy
from hunkravy import Aegis256

HERE = pathlib.Path(__file__).parent
EXAMPLE = HERE.parent / "examples" / "session_token.py"


def samples(page: pathlib.Path) -> list[str]:
    """The Python of a page."""
    parts = page.read_text().split("```python\n")[1:]
    return [part.split("```")[0] for part in parts]


class Samples(unittest.TestCase):
    def test_each_page(self) -> None:
        for page, count in ((HERE.parent / "README.md", 5), (HERE.parents[1] / "README.md", 1)):
            found = samples(page)
            self.assertGreaterEqual(len(found), count, page)
            names: dict[str, object] = {}
            with tempfile.TemporaryDirectory() as folder, contextlib.chdir(folder):
                for sample in found:
                    self.assertIn("assert", sample)
                    exec(sample, names)

    def test_random_access_page(self) -> None:
        """The page of random-access files shows a sample of the package's page."""
        found = samples(HERE.parents[1] / "docs" / "RANDOM-ACCESS.md")
        self.assertEqual(len(found), 1)
        self.assertIn(found[0], samples(HERE.parent / "README.md"))

    def test_names(self) -> None:
        """The page names each class and function."""
        page = (HERE.parent / "README.md").read_text()
        for name in hunkravy.__all__:
            is_between = re.fullmatch("Aegis(128X[24]|256|256X2)Mac", name)
            self.assertTrue(name == "__version__" or is_between or f"`{name}" in page, name)
        for kind in (hunkravy.Cipher, hunkravy.Mac, hunkravy.RandomAccessFile):
            for name in vars(kind):
                is_named = name in ("tag_length", "digest_size", "size", "closed") or f"`.{name}(" in page
                self.assertTrue(name.startswith("_") or is_named, name)

    def test_each_module(self) -> None:
        for name, count in (("", 5), ("._ciphers", 13), ("._macs", 5), ("._records", 6)):
            module = importlib.import_module(f"hunkravy{name}")
            failed, attempted = doctest.testmod(module)
            self.assertEqual(failed, 0, name)
            self.assertGreaterEqual(attempted, count, name)


class Example(unittest.TestCase):
    def setUp(self) -> None:
        names = runpy.run_path(str(EXAMPLE))
        self.tokens, self.invalid = names["Tokens"], names["InvalidToken"]

    def test_as_a_program(self) -> None:
        with tempfile.NamedTemporaryFile() as keys:
            keys.write(Aegis256.generate_key())
            keys.flush()
            cases: list[list[str]] = [[], [keys.name]]
            for arguments in cases:
                command = [sys.executable, str(EXAMPLE), *arguments]
                printed = subprocess.run(command, capture_output=True, check=True, text=True).stdout
                self.assertRegex(printed, r"\A[A-Za-z0-9_-]{100,}\n\Z")

    def test_late_altered_and_of_another_key(self) -> None:
        old, new = Aegis256.generate_key(), Aegis256.generate_key()
        before, after = self.tokens({b"1___": old}), self.tokens({b"1___": old, b"2___": new})
        self.assertRaises(self.invalid, before.read, before.issue(["ada"], float("nan"), now=1000), now=1000)
        token = before.issue(["ada"], 60, now=1000)
        for tokens in (before, after):
            self.assertEqual(tokens.read(token, now=1059), ["ada"])
        newer = after.issue(["ada"], 60, now=1000)
        self.assertEqual(self.tokens({b"2___": new}).read(newer, now=1000), ["ada"])
        strangers = (self.tokens({b"2___": new}), self.tokens({b"1___": new}))
        wrong = [(before, token, 1060), *((tokens, token, 1000) for tokens in strangers)]
        # The same key by another id, which is written in front of the token.
        both = self.tokens({b"1___": old, b"2___": old})
        self.assertEqual(both.read(token, now=1000), ["ada"])
        wrong.append((both, "Ml" + token[2:], 1000))
        for place, sign in enumerate(token):
            for other in {"A", "B", "_", "=", "\n", "ä"} - {sign}:
                wrong.append((before, token[:place] + other + token[place + 1 :], 1000))
            wrong.append((before, token[:place], 1000))
        wrong += [(before, token + end, 1000) for end in ("A", "=", " ")]
        self.assertGreater(len(wrong), 500)
        for tokens, altered, now in wrong:
            self.assertRaises(self.invalid, tokens.read, altered, now=now)
