"""The start of the program, which has a build for each processor level."""

import os
import pathlib
import re
import shutil
import subprocess

from scene import ROOT, TOOL, Scene, read

LEVELS = "x86-64-v2", "x86-64-v3"
# What x86-64-v3 adds to x86-64-v2, as /proc/cpuinfo and qemu name it.
FEATURES = re.findall(r"^ +FEATURE\(.*, (\w+)\)", ROOT.joinpath("c/levels/level.h").read_text("ascii"), re.M)


def level_here():
    flags = re.search("^flags.*", pathlib.Path("/proc/cpuinfo").read_text("ascii"), re.M)[0].split()
    return LEVELS[all(name in flags for name in FEATURES)]


def built_for(level):
    return rf"^hunkravy \S+\nbuilt for {level}\ncipher proved by "


class Start(Scene):
    def test_each_feature_is_needed(self):
        if not shutil.which("qemu-x86_64"):
            self.left_out("the start on older processors, since qemu-x86_64 is not installed")
        for processor, level in ("Haswell", 1), ("Nehalem", 0), *((f"Haswell,-{name}", 0) for name in FEATURES):
            self.tool(0, ["qemu-x86_64", "-cpu", processor, TOOL, "--version"], built_for(LEVELS[level]))
        older = ["qemu-x86_64", "-cpu", "Conroe", TOOL]
        self.tool(127, [*older, "seal", "-k", "key", "small", "out"], "^hunkravy: this processor is too old")
        self.nothing_left("out")

    # A copy, by a name that a program for a shell would take for an option, and through links.
    def test_names(self):
        os.mkdir("place")
        shutil.copy(TOOL, "place/-n")
        os.symlink("place/-n", "link")
        os.symlink("place", "folder")
        for name, folder in ("./link", "."), ("link", "."), ("folder/-n", "."), ("-n", "place"):
            # A name that has no folder is looked up in PATH.
            how = {"executable": name, "cwd": folder, "env": {"PATH": ""}, "stdout": subprocess.PIPE, "text": True}
            self.assertRegex(subprocess.run(["any", "--version"], check=False, **how).stdout, built_for(level_here()))

    # No shell, no /proc and no other program but its C library.
    def test_an_empty_root(self):
        os.mkdir("root")
        shutil.copy(TOOL, "root/hunkravy")
        libraries = subprocess.run(["ldd", TOOL], stdout=subprocess.PIPE, check=True, text=True).stdout
        for library in re.findall(r"(/\S+) \(", libraries):
            os.makedirs(f"root{os.path.dirname(library)}", exist_ok=True)
            shutil.copy(library, f"root{library}")
        changes = ["chroot"] if os.geteuid() == 0 else ["unshare", "--map-root-user", "chroot"]
        if subprocess.run([*changes, "/", "true"], check=False, stderr=subprocess.DEVNULL).returncode:
            self.left_out("an empty root, since there is no right to chroot")
        os.symlink("hunkravy", "root/link")
        for name in "/hunkravy", "./link":
            self.tool(0, [*changes, "root", name, "--version"], built_for(level_here()))
        for words in "keygen /key", "seal -k /key /hunkravy /sealed", "open -k /key /sealed /opened", "seal -k /key - /none":
            self.tool(0, [*changes, "root", "/hunkravy", *words.split()], lacks=".")
        self.is_same("root/opened", TOOL)
        # Nothing shows that standard input is not the output.
        seals, key = f"{' '.join(changes)} root /hunkravy seal --force", read("root/key")
        self.shell(3, f"{seals} -k - /sealed /key < root/key", "the key cannot be read from standard input: No such")
        self.shell(3, f"{seals} -k /key - /sealed < root/sealed", "standard input cannot be read: No such")
        self.is_same("root/key", key)
