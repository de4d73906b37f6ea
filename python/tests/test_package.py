"""What installers read of the package, and how they build it."""

import importlib.metadata
import os
import pathlib
import re
import subprocess
import sys
import tarfile
import tempfile
import unittest

import hunkravy

HERE = pathlib.Path(__file__).parents[1]
SDIST = pathlib.Path(os.environ.get("HUNKRAVY_SDIST", ""))
# A Python with pip, setuptools and wheel.
BUILDER = os.environ.get("BUILD_PYTHON", "/usr/bin/python3")


class Metadata(unittest.TestCase):
    package = importlib.metadata.distribution("hunkravy")

    def test_metadata(self) -> None:
        for name, value in (
            ("Name", "hunkravy"),
            ("Version", hunkravy.__version__),
            ("Requires-Python", ">=3.11"),
            ("License", "MIT; NOTICES has the terms of the parts inside"),
            ("License-File", "LICENSE"),
        ):
            self.assertEqual(self.package.metadata[name], value)
        licence = self.package.read_text("LICENSE") or self.package.read_text("licenses/LICENSE")
        self.assertEqual(licence, (HERE.parent / "LICENSE").read_text())
        page = self.package.read_text("METADATA") or ""
        self.assertNotIn("\nClassifier: License", page, "a licence that is not that of all parts")
        self.assertNotRegex(page, r"\]\((?!https:|#)", "a link to a file that is not beside the page")

    def test_systems(self) -> None:
        """The wheel is for the interface and the processor that the module is built for."""
        wheel = self.package.read_text("WHEEL")
        assert wheel is not None
        self.assertIn("\nRoot-Is-Purelib: false\n", wheel)
        tags = re.findall("^Tag: (.*)$", wheel, re.M)
        self.assertRegex(" ".join(tags), rf"^cp311-abi3-(manylinux_2_17|musllinux_1_2|linux)_{os.uname().machine}$")


@unittest.skipIf("HUNKRAVY_SANITIZED" in os.environ, "the compiler under the address sanitizer")
@unittest.skipUnless(SDIST.is_file(), "no sources in HUNKRAVY_SDIST")
class Building(unittest.TestCase):
    def setUp(self) -> None:
        folder = tempfile.TemporaryDirectory()
        self.addCleanup(folder.cleanup)
        self.folder = pathlib.Path(folder.name)
        # A compiler of two words, as with ccache, which notes its arguments.
        self.arguments = self.folder / "arguments"
        notes = self.folder / "notes"
        notes.write_text(f'#!/bin/sh\necho "$@" >> {self.arguments}\nexec "$@"\n')
        notes.chmod(0o755)
        self.compiler = f"{notes} cc"

    def pip(self, *words: str | pathlib.Path, flags: str = "") -> None:
        """Runs pip."""
        environment = {"PATH": os.environ["PATH"], "CC": self.compiler, "CFLAGS": flags, "PIP_BREAK_SYSTEM_PACKAGES": "1"}
        command = [BUILDER, "-m", "pip", "--disable-pip-version-check", *words, "--no-index", "--no-deps", "--no-build-isolation"]
        built = subprocess.run(command, env=environment, stdout=subprocess.PIPE, stderr=subprocess.STDOUT, text=True)
        self.assertEqual(built.returncode, 0, built.stdout)

    def unpacked(self) -> pathlib.Path:
        """The folder of the sources."""
        with tarfile.open(SDIST) as archive:
            archive.extractall(self.folder)
        return self.folder / f"hunkravy-{hunkravy.__version__}"

    def test_editable(self) -> None:
        """An edit of the sources takes effect."""
        sources, prefix = self.unpacked(), self.folder / "prefix"
        self.pip("install", "--ignore-installed", "--prefix", prefix, "-e", sources)
        with open(sources / "hunkravy" / "__init__.py", "a") as file:
            file.write("ADDED = True\n")
        site = next(path.parent for path in prefix.glob("**/hunkravy-*.dist-info"))
        program = "import site, sys; site.addsitedir(sys.argv[1]); import hunkravy; print(hunkravy.ADDED, hunkravy.level())"
        command = [sys.executable, "-B", "-I", "-c", program, str(site)]
        printed = subprocess.run(command, capture_output=True, check=True, text=True).stdout
        self.assertEqual(printed, f"True {hunkravy.level()}\n")

    def test_flags(self) -> None:
        """The module is optimized, and a warning of another compiler does not end a build."""
        self.pip("wheel", "-w", self.folder, SDIST, flags="-Wpadded '-DWORDS=two words'")
        for arguments in self.arguments.read_text().splitlines():
            words = arguments.split()
            if "-shared" not in words:
                self.assertIn([word for word in words if word.startswith("-O")][-1:], (["-O2"], ["-O3"]))
            self.assertIn("-Wpadded", words)
            self.assertNotIn("-Werror", words)


if __name__ == "__main__":
    unittest.main()
