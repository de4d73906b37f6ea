"""What the scenes of this folder share: a folder with keys and sealed files, and runs of the program in it.

TOOL is the program, VERSION its version, and CALLS_LIBRARY the library of system_calls.c,
as tools/rules.mk sets them.
"""

import os
import pathlib
import re
import shutil
import subprocess
import sys
import tempfile
import unittest

TOOL = os.environ["TOOL"]
ROOT = pathlib.Path(__file__).resolve().parents[2]


def write(name, contents):
    """Writes a file of mode 0600, and returns its name."""
    pathlib.Path(name).write_bytes(contents if isinstance(contents, bytes) else contents.encode())
    os.chmod(name, 0o600)
    return name


def read(name):
    return pathlib.Path(name).read_bytes()


def parts():
    """The files that runs have left."""
    return [name for name in os.listdir() if re.match(r"\..*\.hunkravy-", name)]


class Scene(unittest.TestCase):
    """Tests of the program, each in a folder of its own with the keys `key` and `other`, `small` (1,000 bytes), `text`
    (200,000 bytes), and `sealed`, the sealed file of `text`."""

    def setUp(self):
        folder = tempfile.mkdtemp()
        self.addCleanup(shutil.rmtree, folder)
        self.addCleanup(os.chdir, os.getcwd())
        os.chdir(folder)
        write("key", bytes(range(32)).hex() + "\n")
        write("other", "ab" * 32)
        write("small", os.urandom(1000))
        write("text", os.urandom(200_000))
        self.tool(0, "seal -k key text sealed")

    def left_out(self, what):
        """Leaves the rest of the test out, with a line that the gate counts."""
        print(f"\nleft out: {what}", flush=True)
        self.skipTest(what)

    def tool(self, status, command, says=(), lacks=None, **options):
        """Runs the program with the words of a text, or another command. Asserts that it ends with this status, or one of
        these, and prints what the expressions of `says` match, and nothing that `lacks` does."""
        words = [TOOL, *command.split(" ")] if isinstance(command, str) else command
        output = {"stdin": subprocess.DEVNULL, "stdout": subprocess.PIPE, "stderr": subprocess.STDOUT}
        run = subprocess.run(words, timeout=300, check=False, **output, **options)
        self.status, self.printed, self.said = run.returncode, run.stdout, run.stdout.decode(errors="surrogateescape")
        self.assertIn(self.status, status if isinstance(status, tuple) else (status,), f"{command}: {self.said}")
        for text in (says,) if isinstance(says, str) else says:
            self.assertRegex(self.said, re.compile(text, re.M), command)
        if lacks:
            self.assertNotRegex(self.said, re.compile(lacks, re.M), command)

    def shell(self, status, command, says=(), lacks=None):
        """Runs a command of bash, in which $TOOL is the program."""
        self.tool(status, ["bash", "-c", command], says, lacks)

    def terminal(self, status, command, says=(), lacks=None):
        """Runs a command of a shell in a terminal of its own."""
        self.tool(status, ["script", "-qec", command, "/dev/null"], says, lacks)

    def is_same(self, name, other):
        self.assertTrue(read(name) == (read(other) if isinstance(other, str) else other), f"{name} is another file")

    def differ(self, *values):
        """No two of these values have the same part of 8 bytes in any place, as random ones with zeros would."""
        for parts in zip(*([value[at : at + 8] for at in range(0, len(value), 8)] for value in values)):
            self.assertEqual(len(set(parts)), len(values), values)

    def opens(self, name, contents, key="key"):
        """The sealed file opens to these contents."""
        found = subprocess.run([TOOL, "open", "-k", key, name, "-"], stdout=subprocess.PIPE, check=False)
        self.assertTrue((found.returncode, found.stdout) == (0, contents), f"{name} does not open to its contents")

    def nothing_left(self, *outputs):
        """None of these outputs is there, and no file that a run has left."""
        self.assertEqual([name for name in (*outputs, *parts()) if os.path.lexists(name)], [])


if __name__ == "__main__":
    result = unittest.main(None, exit=False).result
    sys.exit(not result.testsRun or not result.wasSuccessful())
