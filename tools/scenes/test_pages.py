"""The commands of the pages, as they stand there."""

import os
import re

from scene import ROOT, TOOL, Scene, read, write


class Pages(Scene):
    def run_block(self, page):
        """Runs the commands of a page that begin with a key, on a file `backup.tar`. A package is not installed."""
        os.mkdir("bin")
        os.symlink(os.path.abspath(TOOL), "bin/hunkravy")
        write("backup.tar", read("text"))
        blocks = re.findall(r"^```sh\n(.*?)^```$", (ROOT / page).read_text("utf-8"), re.M | re.S)
        (block,) = [block for block in blocks if "hunkravy keygen backup.key" in block]
        commands = "\n".join(line for line in block.splitlines() if not line.startswith("dpkg "))
        self.shell(0, f"set -e; PATH=$PWD/bin:$PATH\n{commands}")
        self.assertEqual(read("restored.tar"), read("text"))

    def test_front_page(self):
        self.run_block("README.md")

    def test_sealed_files(self):
        self.run_block("docs/SEALED-FILES.md")
        self.assertEqual(read("part"), read("text")[1000:1050])
        self.tool(0, "open -k new.key backup.new again")
        self.assertEqual(read("again"), read("text"))
