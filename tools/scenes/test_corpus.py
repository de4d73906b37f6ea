"""The sealed files of testkit/corpus, and the damaged ones of crates/hunkravy/data: the contents of each, or the message that
names its fault."""

import csv
import itertools
import os
import re
import subprocess

from scene import ROOT, TOOL, Scene, parts, write

# Of each result in the corpus, and of damage in the first record.
MESSAGES = {
    "header": "is not a sealed file: its bytes 24 to 27 are not AGR2",
    "truncated": "is truncated",
    "flag": "is damaged: the head of a record is invalid",
    "too-long": "is damaged: the head of a record is invalid",
    "trailing": "is damaged: bytes follow its last record",
    "damaged": "is damaged: record {} does not open",
    "damaged 0": "the key is probably wrong, or the file is damaged at its start",
}


def bytes_of(field):
    """The bytes of a field. A run of zeros is its length in parentheses."""
    digits = re.sub(r"\((\d+)\)", lambda run: "00" * int(run[1]), field)
    return b"" if field == "-" else bytes.fromhex(digits)


def message_of(result):
    """What the program says of a result."""
    word, _, number = result.partition(" ")
    return MESSAGES.get(result) or MESSAGES[word].format(number)


def opened(*options):
    """Runs the program on `file`. Returns its status, and what it printed to each output."""
    words = [TOOL, "open", "-k", "key", *options, "file", "-"]
    run = subprocess.run(words, timeout=60, check=False, capture_output=True)
    return run.returncode, run.stdout, run.stderr.decode()


class Corpus(Scene):
    def check(self, case):
        write("key", bytes_of(case["key"]).hex())
        write("file", bytes_of(case["file"]))
        status, contents, said = opened()
        word, _, rest = case["result"].partition(" ")
        if word == "ok":
            self.assertEqual((status, contents), (0, bytes_of(rest)), case["case"])
        else:
            self.assertEqual(status, 1, case["case"])
            self.assertIn(message_of(case["result"]), said, case["case"])

    def test_sealed_files(self):
        cases = (ROOT / "testkit" / "corpus" / "sealed.txt").read_text().split("\n\n")
        self.assertGreaterEqual(len(cases), 30)
        for text in cases:
            self.check(dict(line.split(": ", 1) for line in text.splitlines()))

    def test_damaged_files(self):
        with open(ROOT / "crates" / "hunkravy" / "data" / "damaged.csv", newline="") as file:
            rows = list(csv.DictReader(file))
        self.assertEqual(len(rows), 126)
        for row in rows:
            write("key", row["key"])
            write("file", bytes.fromhex(row["file"]))
            contents = b"xyz" if "with-contents" in row["name"] else b"0123456789abcdefghijkl"
            is_whole, verified = row["cause"] == "none", int(row["verified"])
            self.assertEqual(opened()[:2], (not is_whole, contents[:verified]), row["name"])
            if not is_whole:
                self.check_parts(contents, verified, row["name"])
                self.check_commands(row["cause"].replace("_", "-"), row["name"])

    def check_parts(self, contents, verified, name):
        """Each part is right or is rejected after a beginning of it, and one of what was verified is right."""
        for first, length in itertools.product((0, 9, 10, 17, 22), (2, 300)):
            status, part, _ = opened("--from", str(first), "--length", str(length))
            right = contents[first : first + length]
            self.assertIn(status, (0,) if first + length <= verified else (0, 1), name)
            self.assertEqual(part, right[: len(part)] if status else right, name)

    def check_commands(self, result, name):
        """Each command says why, and leaves no output. Without the key the header is read."""
        says = re.escape(message_of(result))
        commands = ["open -k key file out", "check -k key file", "rekey -k key -n other file out"]
        for words in commands + ["info file", "open -k key --from 0 file out"] * (result == "header"):
            self.tool(1, words, says)
            self.assertFalse(os.path.exists("out") or parts(), name)
