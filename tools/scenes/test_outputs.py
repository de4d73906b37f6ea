"""Outputs that exist, that are the input or a key, that are links, devices and pipes."""

import os
import shutil
import socket
import stat

from scene import Scene, read, write

# The commands of bash that are rejected, by the reason. `same` is another name of `sealed`, `name` and `link` are of `key`.
REJECTED = {
    "is also the input": (
        "seal --force -k key sealed same",
        "seal -k key pipe pipe",
        "seal -k key small >> small",
        "check -k key sealed >> sealed",
        "info sealed >> sealed",
        "seal --force -k key - small < small",
        "seal -k key >> small < small",
        "open --force -k key /dev/stdin same < sealed",
        "rekey --force -k key -n other - same < sealed",
        "check -k key - >> same < sealed",
        # The input gets the descriptor that the output names.
        "open -k key --from 5 --force sealed /proc/self/fd/3 3>&-",
        "open -k key --force sealed /dev/fd/3 3>&-",
        "rekey -k key -n other --force sealed /dev/fd/3 3>&-",
    ),
    "would destroy the key": (
        "seal --force -k key small key",
        "open --force -k key sealed name",
        "open --force -k key --from 5 sealed link",
        "rekey --force -k other -n key sealed name",
        "rekey --force -k key -n other sealed key",
        "seal -k key small >> key",
        "check -k key sealed >> key",
        # The key comes from standard input, or from another descriptor.
        "seal --force -k - small key < key",
        "seal --force -k - small name < link",
        "seal --force -k /dev/stdin small key < name",
        "seal --force -k /proc/self/fd/7 small link 7< key",
        "open --force -k - --from 5 sealed name < key",
        "open -k - sealed >> key < name",
        "open -k - sealed 1<> name < key",
        "check -k - sealed >> key < key",
        "rekey --force -k - -n other sealed key < key",
        "rekey --force -k other -n - sealed name < key",
    ),
    "exists: use --force to replace it": ("seal -k key small sealed", "open -k other sealed link"),
    "dangling is a link to a missing file": ("seal --force -k key small dangling",),
    "is a folder or a block device": ("seal --force -k key small folder",),
    "socket cannot be written": ("seal --force -k key small socket",),
    "is a pipe that only this run reads": (
        "seal --force -k key small /dev/stdin <> pipe",
        "open -k key sealed --force pipe <> pipe",
        "open -k key sealed <> pipe >&0",
        "keygen /dev/stdin <> pipe",
        "seal -k key small <(:)",
        "open --force -k key sealed <(:)",
    ),
    "is where standard output or standard error leads": (
        "open --force -k key sealed /dev/stdout >> log",
        "seal -k key small log >> log",
        "rekey --force -k key -n other sealed /proc/self/fd/1 1<> log",
        "keygen /dev/stdout >> log",
        "seal --force -k key small /dev/stderr 2>> log; status=$?; tail -n 1 log >&2; sed -i \\$d log; exit $status",
    ),
    # Descriptors that the program opens itself.
    "appeared or was exchanged": ("seal -k key /dev/null /dev/fd/3 3>&-", "seal -k key /dev/null /dev/stdout >&-"),
    "/dev/stdout": ("open --force -k key --from 5 sealed /dev/stdout >&-",),
}
# The key comes through a pipe, or OUT is a copy of its file: only the contents of OUT show that it is the key.
PIPED_KEYS = (
    "cat key | $TOOL seal -k - --force small key",
    "cat key | $TOOL open -k - --force sealed link",
    "cat key | $TOOL seal -k - small >> key",
    "cat other | $TOOL rekey --force -k key -n - sealed other",
    "$TOOL seal -k key --force small copy",
)

# The key and the input are one file, or one pipe, of which nothing is left after the key.
KEYS_AS_INPUTS = (
    "cat key | $TOOL seal --force -k /dev/stdin - sealed",
    "cat key | $TOOL seal --force -k - /dev/stdin sealed",
    "cat key | $TOOL rekey --force -k key -n /dev/stdin - sealed",
    "$TOOL seal --force -k /dev/stdin /proc/self/fd/0 sealed < key",
    "$TOOL seal --force -k key name sealed",
)

# Standard error leads to what is read, where no message may go. Most of these would have one.
UNSAID = (
    "check -k key sealed &>> key",
    "seal -k key small sealed 2>> name",
    "seal -k other small sealed 2>> small",
    "open -k - sealed 2>> key < link",
    "open -k other - 2>> same < sealed",
    "check -k small sealed 2>> small",
    "rekey -k small -n key sealed out 2>> key",
    "rekey -k key -n - sealed out 2>> other < other",
    "info small 2>> small",
)


def snapshot():
    """The modes of all files, and the contents of the regular ones."""
    modes = {name: os.lstat(name).st_mode for name in os.listdir()}
    return modes, {name: read(name) for name, mode in modes.items() if stat.S_ISREG(mode)}


class Outputs(Scene):
    def test_outputs_that_are_rejected(self):
        os.link("sealed", "same")
        os.link("key", "name")
        os.symlink("key", "link")
        os.symlink("nowhere", "dangling")
        os.mkfifo("pipe")
        os.mkdir("folder")
        with socket.socket(socket.AF_UNIX) as one:
            one.bind("socket")
        shutil.copy("key", "copy")
        write("log", b"a line\n")
        before = snapshot()
        for reason, commands in REJECTED.items():
            for command in commands:
                with self.subTest(command):
                    self.shell(3, f"$TOOL {command}", reason)
                    self.assertTrue(snapshot() == before)
        for command in PIPED_KEYS:
            with self.subTest(command):
                self.shell(3, command, "is the key file")
                self.assertTrue(snapshot() == before)
        for command in KEYS_AS_INPUTS:
            with self.subTest(command):
                self.shell(3, command, "the input must be another file")
                self.assertTrue(snapshot() == before)
        for command in UNSAID:
            with self.subTest(command):
                self.shell(3, f"$TOOL {command}", lacks=".")
                self.assertTrue(snapshot() == before)
        # Without a message nothing is written, so the output may be the input.
        self.shell(0, "$TOOL check --quiet -k key sealed >> sealed && $TOOL info --quiet sealed >> sealed")
        self.assertTrue(snapshot() == before)

    # A block device keeps what is written to it, as a file does.
    def test_a_block_device_as_input_and_output(self):
        self.shell(0, "head -c 410 small | $TOOL seal -k key - disk; truncate -s 1024 disk")
        self.tool((0, 1), ["losetup", "-f", "--show", "disk"])
        if self.status:
            self.left_out("a block device as input and output, since there is no right to losetup")
        device = self.said.strip()
        self.addCleanup(self.tool, 0, ["losetup", "-d", device])
        os.mknod("node", 0o600 | stat.S_IFBLK, os.stat(device).st_rdev)
        for command in f"check -k key {device} > {device}", f"info {device} > {device}", f"seal -k key < {device} > {device}", \
                f"open -k key --length 1 {device} > node":
            self.shell(3, f"$TOOL {command}", "is also the input")
        # What is on it after the file's end is not of the file.
        self.tool(1, f"check -k key {device}")
        os.truncate("disk", 410 + 37 + 65)
        self.tool(0, "check -k key disk")

    def test_links(self):
        os.mkdir("far")
        write("far/target", "old")
        os.symlink("far/target", "link")
        self.tool(0, "seal --force -k key small link")
        self.assertTrue(os.path.islink("link") and not os.path.islink("far/target"))
        self.opens("far/target", read("small"))
        self.assertEqual(os.listdir("far"), ["target"])
        # A link of /proc to a file that is gone, whose name there is that of another file.
        shutil.copy("key", "gone (deleted)")
        for output in "/proc/self/fd/8", "/dev/fd/8":
            command = f"exec 8<> gone; rm gone; exec $TOOL seal --force -k other small {output}"
            self.shell(3, command, "a link to a file that has no path here")
        self.is_same("gone (deleted)", "key")

    # A name in the folder of a file system that is mounted twice.
    def test_a_mount_of_the_key(self):
        os.mkdir("mounted")
        mount = "mount --bind . mounted && exec $TOOL seal --force -k - small mounted/key < key"
        self.tool((3, 1), ["unshare", "--map-root-user", "--mount", "sh", "-c", mount])
        if "key file" not in self.said:
            self.left_out("a mount of the key's folder, since there is no right to mount")
        self.assertIn("mounted/key is the key file standard input", self.said)

    # A fault of the tool must not reach the system's own devices, so these are others. No driver has the block device.
    def test_devices_and_pipes(self):
        self.shell((0, 1), "mknod full c 1 7 && mknod empty c 1 3 && mknod block b 240 77 && echo > empty")
        if self.status:
            self.left_out("devices as outputs, since only root can make some, and not everywhere")
        os.mkfifo("pipe")
        before = snapshot()
        self.tool(3, "seal --force -k key small block", "is a folder or a block device")
        self.tool(3, "seal --force -k key small full", "o space left")
        for command in "seal -k key small empty", "seal --force -k key small empty", \
                "seal -k key small /dev/stdout | $TOOL check -k key", \
                "check -k key < pipe & $TOOL seal --force -k key small pipe && wait $!":
            self.shell(0, f"$TOOL {command}")
        self.assertTrue(snapshot() == before)

    # A run removes, opens and replaces no file that it did not create, whatever its name: as a file beside OUT, as the input,
    # as the key and as OUT itself.
    def test_files_of_others(self):
        key, sealed = read("key"), read("sealed")
        bad = read(write("cut", sealed[:1000]))
        for name in "out.part", "out.tmp", "out~", ".out.part", ".out.hunkravy-0123456789abcdef", ".out.hunkravy-":
            for contents, status, command in (key, 0, f"seal -k {name} small out"), (sealed, 1, "open -k key cut out"), \
                    (bad, 1, f"open -k key {name} out"), (bad, 3, f"seal -k {name} small out"), \
                    (bad, 3, f"seal -k key small {name}"), (bad, 3, f"rekey -k key -n {name} sealed out"), \
                    (sealed, 0, "seal -k key small out"), (sealed, 0, "seal --force -k key small out"):
                write(name, contents)
                before = snapshot()
                self.tool(status, command)
                if status == 0:
                    os.remove("out")
                self.assertTrue(snapshot() == before, command)
            os.remove(name)
