"""Contents, whole and in parts. test_corpus.py has damaged files."""

import itertools
import os
import socket
import subprocess

from scene import TOOL, Scene, read, write

PIECE = 65_536


class Contents(Scene):
    def test_whole_files(self):
        for length, records in (200_000, "5 records"), (PIECE, "2 records"), (0, "1 record"):
            os.truncate("text", length)
            self.tool(0, "seal --force -k key text sealed")
            self.assertEqual(os.stat("sealed").st_mode & 0o777, 0o600)
            self.tool(0, "info sealed", rf"\A{records}, {length} bytes of contents, not verified\n\Z")
            self.tool(0, "check -k key sealed", rf"\A{length} bytes of contents, all verified\n\Z")
            self.shell(0, "$TOOL seal -k key - - < text | $TOOL open -k key | cmp - text")
        for command in "check -q -k key sealed", "info --quiet sealed":
            self.tool(0, command, lacks=".")
        # Each file has a prefix of its own.
        self.tool(0, "seal -k key text out")
        for name in "first", "second":
            self.tool(0, f"rekey -k key -n other out {name}")
        self.differ(*(read(name)[:24] for name in ("sealed", "out", "first", "second")), bytes(24))

    # Files of full records: a message names the bytes that the damaged record had, and what follows them opens.
    def test_a_damaged_record_is_named(self):
        text, sealed = read("text"), read("sealed")
        for at, record in (40, 0), (70_000, 1), (140_000, 2), (199_000, 3):
            write("flipped", sealed[:at] + bytes([sealed[at] ^ 1]) + sealed[at + 1 :])
            first, end = PIECE * record, min(PIECE * record + PIECE, 200_000)
            lost = rf"\(bytes {first} to {end - 1} of .*--from {end}\)"
            damaged = f"is damaged: record {record} does not open {lost}; the first {first} bytes of"
            # A wrong key looks like damage in the first record, and then no other byte opens.
            wrong = "^hunkravy: flipped: the key is probably wrong, or the file is damaged at its start$"
            says = damaged if record else wrong
            self.tool(1, "check -k key flipped", says)
            self.shell(1, "$TOOL open -k key flipped > started", (says, "incomplete: discard it\n\\Z" if record else says))
            self.is_same("started", text[:first])
            self.tool(0, f"open -k key --from {end} flipped -")
            self.assertTrue(self.printed == text[end:])
            if record:
                damaged = rf"^hunkravy: flipped is damaged: record {record} does not open {lost}$"
                self.shell(1, "$TOOL open -k key --from 5 flipped > part", damaged)
                # If the next record is damaged too, this gives the next place to go on at.
                wrong = f"^hunkravy: flipped: the key is wrong, or the file is damaged in or before record {record} {lost}$"
                self.tool(1, f"open -k key --from {first} flipped", wrong)

    def sends(self, words, ends, contents, size):
        """Runs the program with one end as standard input, sends the contents to the other in messages of a size, and returns
        the exit status and what was printed."""
        (reader, writer), how = ends, {"stdout": subprocess.PIPE, "stderr": subprocess.STDOUT}
        with subprocess.Popen([TOOL, *words.split()], stdin=reader, **how) as process:
            os.close(reader)
            try:
                for at in range(0, len(contents), size):
                    os.write(writer, contents[at : at + size])
            except ConnectionError:
                pass
            os.close(writer)
            printed = process.communicate(timeout=300)[0]
        return process.returncode, printed

    # A pipe may keep the boundaries of messages: what does not fit in a read would be lost.
    def test_pipes_with_messages(self):
        text, sealed = read("text"), read("sealed")
        for size in 4096, 4095, 3000, 1:
            contents = text[: min(40 * size, 200_000)]
            self.assertEqual(self.sends("seal --force -k key - out", os.pipe2(os.O_DIRECT), contents, size), (0, b""))
            self.opens("out", contents)
        for words in "open --force -k key - out", "rekey --force -k key -n key - out":
            self.assertEqual(self.sends(words, os.pipe2(os.O_DIRECT), sealed, 4000), (0, b""))
        self.opens("out", text)
        for words in "check -q -k key", "info -q":
            self.assertEqual(self.sends(words, os.pipe2(os.O_DIRECT), sealed, 4000), (0, b""))

    # Messages in sockets can be longer than any buffer. Streams have none.
    def test_sockets(self):
        text = read("text")
        stream, remote = socket.SOCK_STREAM, socket.create_server(("127.0.0.1", 0))
        pairs = [socket.socketpair(socket.AF_UNIX, stream)]
        # Other sockets may have names that are not UTF-8.
        for number in range(40):
            self.enterContext(socket.socket(socket.AF_UNIX)).bind(b"\xff%d" % number)
        with remote:
            sender = socket.create_connection(remote.getsockname())
            pairs.append((remote.accept()[0], sender))
        for pair in pairs:
            ends = [end.detach() for end in pair]
            self.assertEqual(self.sends("seal --force -k key - out", ends, text, 70_000), (0, b""))
            self.opens("out", text)
        for kind in socket.SOCK_SEQPACKET, socket.SOCK_DGRAM:
            ends = [end.detach() for end in socket.socketpair(socket.AF_UNIX, kind)]
            status, printed = self.sends("seal -k key - lost", ends, text, 70_000)
            self.assertEqual(status, 3)
            self.assertRegex(printed, rb"\Ahunkravy: standard input is not a stream socket, so a part of a message may be lost: ")
            self.nothing_left("lost")

    def test_truncated_pipes(self):
        self.shell(1, "timeout 20 $TOOL open -k key <(head -c 200175 sealed) out", "is truncated; the first 196608 bytes of")
        self.shell(1, "head -c 200175 sealed | $TOOL info", "at least 1 bytes are missing$")
        self.nothing_left("out")

    def test_parts(self):
        text = read("text")
        for first in 0, 1, PIECE - 1, PIECE, 2 * PIECE, 199_999, 200_000:
            for length in 0, 1, 70_000, 200_000:
                self.tool(0, f"open -k key --from {first} --length {length} sealed -")
                self.assertTrue(self.printed == text[first : first + length])

    def test_parts_that_are_rejected(self):
        past = [f"key --from {first}{length}" for first in (200_001, 300_000, 2**64 - 1) for length in ("", " --length 0")]
        others = [f"other --from {first}" for first in ("0 --length 0", "10", "199999", "200000", "300000")]
        for part, output in itertools.product(past + others, ("out", "-")):
            too_far = "sealed has only 200000 bytes of contents: --from is past their end"
            wrong = r"sealed: the key is (probably )?wrong, or the file is damaged (at its start|in or before record [34] \(.*200000\))"
            says = too_far if part in past else wrong
            self.tool(1, f"open -k {part} sealed {output}", rf"\Ahunkravy: {says}\n\Z")
            self.nothing_left("out")

    # Past 2^32 bytes, in less than 8 MB of memory, and a first record that says that it has 16 MiB and ends after its head.
    def test_little_memory(self):
        limited = "ulimit -v 8000; set -o pipefail;"
        try:
            self.shell(0, f"{limited} $TOOL --version")
        except AssertionError:
            self.left_out("a limit of 8 MB on memory, in which the program does not start")
        self.shell(0, f"""{limited} head -c 4296016897 /dev/zero | $TOOL seal -k key - - | $TOOL open -k key - - |
            cmp - <(head -c 4296016897 /dev/zero)""")
        self.shell(0, f"{limited} $TOOL seal -k key text - | $TOOL rekey -k key -n other - - | $TOOL open -k other - - | cmp - text")
        write("vast", bytes(24) + b"AGR2\x00\xff\xff\xff\x00")
        for command in "check -k key vast", "open -k key vast -", "open -k key --from 1 vast -", "rekey -k key -n other vast -":
            self.shell(1, f"{limited} $TOOL {command}", "cut off|truncated")
