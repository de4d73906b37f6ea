"""The calls of the system that a run makes, each failing or killed in turn, and what happens between two of them, by the
library of system_calls.c."""

import errno
import os
import pathlib
import re

from scene import Scene, parts, read, write

# The least stack that a run may have in KB: 128, and what the environment and the command line take of it.
STACK = 132 + sum(len(name) + len(value) + 2 for name, value in os.environ.items()) // 1024
MOVED = "was renamed, removed or mounted over"
STAYS = "was not removed: delete it if it is there, since it may hold plaintext or a key"
EXISTS = "place/out exists: use --force to replace it"
# What happens in the folder `place` before an output in it gets its name: the command, what is said of it and what is not,
# and how many files are in the folder at the end.
CHANGES = (
    ("mv place aside", (MOVED, STAYS), None, 0),
    ("part=$(ls -A place); mv place aside; mkdir place; cp key place/$part", (MOVED, STAYS), None, 1),
    ("part=$(ls -A place); mv place/$part aside; cp key place/$part", (MOVED, STAYS), None, 1),
    ("rm place/.out*", MOVED, STAYS, 0),
    ("mkdir place/out", "^hunkravy: place/out ", STAYS, 1),
    ("cp key place/out", EXISTS, STAYS, 1),
    ("ln -s nowhere place/out", EXISTS, STAYS, 1),
    ("mkfifo place/out", EXISTS, STAYS, 1),
)
# The commands whose calls fail or are killed, in turn. With --force there is an output before.
COMMANDS = (
    "seal -k key text out",
    "seal --force -k key text out",
    "open -k key sealed out",
    "open --force -k key sealed out",
    "open --force -k key --from 0 sealed out",
    "rekey -k key -n other sealed out",
)


class Calls(Scene):
    def with_calls(self, status, settings, words, says=(), lacks=None):
        """Runs the program with these words of bash over the library with these settings of its, and returns the names of the
        calls that it notes."""
        with open("noted", "w+", encoding="ascii") as noted:
            number = noted.fileno()
            run = f"ulimit -s {STACK}; exec env {settings} LD_PRELOAD=$CALLS_LIBRARY CALLS={number} $TOOL {words}"
            self.tool(status, ["bash", "-c", run], says, lacks, pass_fds=(number,))
            noted.seek(0)
            return noted.read().split()

    def each(self, status, settings, words, least=15):
        """Runs the program with the first call failing, then the second, and so on, until it makes no more calls, which have to
        be more than `least`. Gives the calls that each run makes until one fails, and those after it."""
        for number in range(1, 1000):
            noted = self.with_calls(status, f"{settings}={number}", words)
            if "here" not in noted:
                self.assertGreater(number, least + 1, words)
                return
            place = noted.index("here")
            yield noted[:place], noted[place + 1 :]

    def test_order(self):
        for settings, words, order in (
            ("", "keygen out", "fsync_file link unlink fsync_folder"),
            ("", "seal -k key small out", "fsync_file link unlink fsync_folder"),
            (f"link={errno.EPERM}", "seal --quiet -k key small out", "fsync_file link rename fsync_folder"),
            ("", "seal --force -k key small out", "fsync_file rename fsync_folder"),
            (f"fsync_folder={errno.EINVAL}", "seal --force -k key small out", "fsync_file rename fsync_folder"),
        ):
            noted = self.with_calls(0, settings, words, lacks=".")
            self.assertEqual([call for call in noted if re.match("link|rename|unlink|fsync", call)], order.split(), words)
            os.remove("out")

    # Where there are no hard links the file is renamed. After any other error nothing has the output's name, since another run
    # may have no such error.
    def test_links_that_fail(self):
        for error in errno.EPERM, errno.EMLINK, errno.ENOSYS, errno.EOPNOTSUPP:
            self.with_calls(0, f"link={error}", "keygen out", "^hunkravy: out was renamed into place, since linking failed: ")
            os.remove("out")
        for error in errno.ENOSPC, errno.EDQUOT, errno.EACCES, errno.EROFS, errno.EIO, errno.ENOMEM, errno.EINVAL, errno.EXDEV:
            noted = self.with_calls(3, f"link={error}", "keygen out", "^hunkravy: out cannot be written: ", "renamed|exists")
            self.assertNotIn("rename", noted)
            self.nothing_left("out")

    # A call that did its work and returns an error, as on a network's file system.
    def test_names_that_were_given_with_an_error(self):
        for settings, words in (
            (f"BEFORE=link RUNS='ln .out* out' link={errno.EIO}", "seal -k key small out"),
            ("BEFORE=unlink RUNS='rm .out*'", "seal -k key small out"),
            (f"BEFORE=rename RUNS='mv .out* out' rename={errno.EIO}", "seal --force -k key small out"),
        ):
            self.with_calls(0, settings, words, lacks=".")
            self.opens("out", read("small"))
            os.remove("out")
            self.nothing_left()

    # The same, and no look at a file works after it. The output is complete, and its other name is found if it has one.
    def test_names_that_cannot_be_seen_again(self):
        for call, runs, words, count in (
            ("link", "ln .out* out", "seal -k key small out", 1),
            ("rename", "mv .out* out", "seal --force -k key small out", 0),
        ):
            settings = f"BLIND=1 BEFORE={call} RUNS='{runs}' {call}={errno.EIO}"
            self.with_calls(3, settings, words, ("cannot tell whether out was written, so check it", STAYS), MOVED)
            self.opens("out", read("small"))
            self.assertEqual(len(parts()), count)
            for name in *parts(), "out":
                os.remove(name)

    # As in a folder that was made read-only meanwhile.
    def test_names_that_cannot_be_given(self):
        for error in errno.EACCES, errno.EPERM:
            fails = f"link={error} rename={error} unlink={error}"
            self.with_calls(3, fails, "seal -k key small out", ("out cannot be written", STAYS))
        self.assertFalse(os.path.exists("out"))
        digits = [re.fullmatch(r"\.out\.hunkravy-([0-9a-f]{16})", name)[1] for name in parts()]
        self.differ(*digits, "0" * 16)

    # ---- What happens between two calls

    # A file that is created just before the link is not replaced, also if a look at it fails.
    def test_an_output_that_is_created_just_before(self):
        created = "BEFORE=link RUNS=': >> out'"
        self.with_calls(3, created, "keygen out", "out exists: keygen never replaces a file")
        os.remove("out")
        for _ in self.each(3, f"link={errno.EPERM} {created} AT", "seal -k key small out"):
            self.assertEqual(len(parts()), self.said.count(STAYS))
            self.assertTrue(not os.path.exists("out") or read("out") == b"")
            self.prepare("seal")

    # A pipe is exchanged for a file just before it is opened.
    def test_a_pipe_that_becomes_a_file(self):
        os.mkfifo("out")
        exchanges = "BEFORE=open RUNS='echo >> opened; [ $(wc -l < opened) != 3 ] || { rm out; cp key out; }'"
        self.with_calls(3, exchanges, "seal --force -k key small out", "^hunkravy: out appeared or was exchanged during the run")
        self.is_same("out", "key")

    # Just before a name is removed its folder is renamed.
    def test_a_folder_that_moves_at_the_end(self):
        write("cut", read("sealed")[:-1])
        for status, words in (1, "open -k key cut moving/out"), (3, "seal -k key small moving/out"):
            os.mkdir("moving")
            self.with_calls(status, f"BEFORE=unlink RUNS='mv moving moved-{status}'", words, STAYS)
        self.opens("moved-3/out", read("small"))

    # Just before the output is synced its folder or its file is renamed, removed, or exchanged for another that has a key of
    # the file's name, or a file of the output's name appears. What is in the folder then stays.
    def test_names_that_change(self):
        for runs, says, lacks, count in CHANGES:
            forced = ["seal --force -k key small place/out"] * (says != EXISTS)
            for words in "seal -k key small place/out", "open -k key sealed place/out", *forced:
                with self.subTest(words, runs=runs):
                    self.shell(0, "rm -rf place aside; mkdir place")
                    self.with_calls(3, f"BEFORE=fsync_file RUNS='{runs}'", words, says, lacks)
                    left = list(pathlib.Path(".").glob("place/*"))
                    self.assertEqual((len(left), os.path.exists("aside/out")), (count, False))
                    for path in left:
                        self.assertTrue(not path.is_file() or path.read_bytes() == read("key"))

    # An output without a folder is in the one that the run began in.
    def test_an_output_without_a_folder(self):
        os.mkdir("place")
        self.with_calls(0, "-C place BEFORE=fsync_file RUNS='mv ../place ../aside'", "seal -k ../key ../small out")
        self.opens("aside/out", read("small"))

    # A link is turned to the key while the input is opened, which may take long.
    def test_a_link_that_is_turned_to_the_key(self):
        os.symlink(write("aside", ""), "turned")
        turns = "BEFORE=open RUNS='[ ! -e key-is-open ] || ln -sfn key turned; touch key-is-open'"
        self.with_calls(3, turns, "seal --force -k key small turned", "would destroy the key")

    # The same before each look at a file: what the link then leads to, a key or the input, stays as it was.
    def test_a_link_that_is_turned_at_any_time(self):
        for command, name in (
            ("seal --force -k key small turned", "key"),
            ("seal --force -k key small turned", "small"),
            ("open --force -k key sealed turned", "sealed"),
            ("open --force -k key --from 0 sealed turned", "key"),
            ("rekey --force -k key -n other sealed turned", "other"),
        ):
            with self.subTest(command, name=name):
                self.turn_before_each_look(command, name)

    def turn_before_each_look(self, command, name):
        before = read(name)
        for number in range(1, 100):
            os.symlink(write("aside", "old"), "turned")
            turns = f"BEFORE=statx RUNS='echo >> looks; [ $(wc -l < looks) != {number} ] || ln -sfn {name} turned'"
            self.with_calls((0, 3), turns, command)
            self.is_same(name, before)
            self.nothing_left()
            is_turned = os.readlink("turned") == name
            os.remove("turned")
            os.remove("looks")
            if not is_turned:
                self.assertGreater(number, 8)
                return
        self.fail("the run has too many looks")

    # If the caller has closed standard error, the next file that is opened could get its descriptor, and a message.
    def test_no_message_in_an_output(self):
        for closed in "sealed out 2>&-", "sealed out >&- 2>&-", "sealed out <sealed >&- 2>&-", "- out <sealed 2>&-":
            self.with_calls(0, f"link={errno.EPERM}", f"open -k key {closed}")
            self.is_same("out", "text")
            os.remove("out")

    # ---- Each call fails, or is killed

    def test_each_allocation_fails(self):
        for _ in self.each((0, 3), "NO_MEMORY", "open -k key sealed out", least=50):
            if os.path.exists("out"):
                self.is_same("out", "text")
                os.remove("out")
            else:
                self.assertRegex(self.said, "memory")
            self.nothing_left()

    def test_each_call_fails(self):
        for command, before, after in self.each_of_commands((0, 3), "AT"):
            with self.subTest(command, call=len(before)):
                self.check_failed(before, after, self.is_complete(command))

    def test_killed_at_each_call(self):
        for command, before, _ in self.each_of_commands((0, -9), "KILLS=1 AT"):
            with self.subTest(command, call=len(before)):
                self.is_complete(command)
                self.assertIn([os.stat(part).st_mode & 0o777 for part in parts()], ([], [0o600]))

    def each_of_commands(self, status, settings):
        """Runs each command with each call failing. Gives the command, and the calls until that and after it."""
        key, sealed = read("key"), read("sealed")
        for command in COMMANDS:
            self.prepare(command)
            for before, after in self.each(status, settings, command):
                yield command, before, after
                self.prepare(command)
            self.assertTrue(read("key") == key and read("sealed") == sealed)

    def prepare(self, command):
        for name in *parts(), "out":
            pathlib.Path(name).unlink(missing_ok=True)
        if "--force" in command:
            write("out", "old")

    def is_complete(self, command):
        """Whether there is a new output, which is then complete; or it is as it was."""
        before = b"old" if "--force" in command else None
        if before == (read("out") if os.path.exists("out") else None):
            return False
        if command.startswith("open"):
            self.is_same("out", "text")
        else:
            self.opens("out", read("text"), key="other" if command.startswith("rekey") else "key")
        return True

    # A name that cannot be removed stays, and is said to. A run may succeed only after a look that failed, without progress or
    # a warning.
    def check_failed(self, before, after, is_complete):
        stays = re.findall("^hunkravy: (.*) was not removed", self.said, re.M)
        self.assertEqual([os.path.normpath(name) for name in stays], parts())
        if stays and is_complete:
            self.assertRegex(self.said, r"out is complete, but \.OUT\.hunkravy-\* beside it remains")
            self.assertIn("fsync_folder", after)
        self.assertEqual(is_complete, self.status == 0 or "out is complete, but" in self.said)
        if self.status == 0:
            self.assertEqual(before[-1], "statx")

    def test_each_call_fails_beside_the_key_and_the_input(self):
        for name in "key", "sealed":
            before = read(name)
            for _ in self.each(3, "AT", f"open --force -k key sealed {name}", least=4):
                self.is_same(name, before)

    def test_each_call_fails_on_standard_output(self):
        for _ in self.each((0, 3), "AT", "open -k key sealed > printed", least=8):
            self.assertTrue(read("text").startswith(read("printed")))
            self.assertTrue(self.status == 3 or read("printed") == read("text"))
            self.assertTrue(self.status == 0 or not read("printed") or "incomplete: discard it" in self.said)
        for _ in self.each((0, 3), "AT", "seal -k key text > printed", least=8):
            self.tool(0 if self.status == 0 else 1, "check -k key printed")
