"""The text of each message, as SEALED-FILES.md and the packages' users know it, and that each error of the program has a row here."""

import os
import re
from errno import EEXIST, EIO, ENOSPC, ENOSYS, EPERM

from scene import ROOT, Scene, read, write

MISSING = r"No such file or directory \(os error 2\)"
# What the shell runs, its status, and all that is printed, as an expression. CALLS is the library of system_calls.c with settings.
MESSAGES = (
    # Sealed files.
    ("$TOOL check -k key small", 1, r"hunkravy: small is not a sealed file: its bytes 24 to 27 are not AGR2"),
    ("$TOOL check -k other sealed", 1, r"hunkravy: sealed: the key is probably wrong, or the file is damaged at its start"),
    ("$TOOL check -k key flipped", 1,
     r"hunkravy: flipped is damaged: record 1 does not open \(bytes 65536 to 131071 of the contents, if the length of the record is "
     r"right; if anything follows, try --from 131072\); the first 65536 bytes of the contents are verified"),
    ("$TOOL check -k key emptied", 1,
     r"hunkravy: emptied is damaged: record 1 does not open \(no byte of the contents, if the length of the record is right; "
     r"if anything follows, try --from 65536\); the first 65536 bytes of the contents are verified"),
    ("$TOOL check -k key flagged", 1,
     r"hunkravy: flagged is damaged: the head of a record is invalid; the first 65536 bytes of the contents are verified"),
    ("$TOOL check -k key cut", 1, r"hunkravy: cut is truncated; the first 196608 bytes of the contents are verified"),
    ("$TOOL info cut", 1, r"hunkravy: cut is truncated, or a length in it is damaged: at least 29 bytes are missing"),
    ("$TOOL check -k key longer", 1, r"hunkravy: longer is damaged: bytes follow its last record"),
    ("$TOOL info longer", 1, r"hunkravy: longer is damaged: bytes follow its last record"),
    # Parts.
    ("$TOOL open -k other --from 70000 sealed -", 1,
     r"hunkravy: sealed: the key is wrong, or the file is damaged in or before record 1 \(bytes 65536 to 131071 of the contents, "
     r"if the length of the record is right; if anything follows, try --from 131072\)"),
    ("$TOOL open -k key --from 100000 flagged -", 1, r"hunkravy: flagged is damaged in or before the requested part"),
    ("$TOOL open -k key --from 199999 short -", 1, r"hunkravy: short is truncated in or before the requested part"),
    ("$TOOL open -k key --from 200001 sealed -", 1,
     r"hunkravy: sealed has only 200000 bytes of contents: --from is past their end"),
    # Keys, inputs and the command line.
    ("$TOOL check -k nowhere sealed", 3, rf"hunkravy: the key cannot be read from nowhere: {MISSING}"),
    ("$TOOL check -k small sealed", 3, r"hunkravy: small holds no key: expected 64 hexadecimal digits"),
    ("chmod 640 other; $TOOL keygen -- -; $TOOL check -q -k key sealed; $TOOL seal -k other small new", 0,
     r"[0-9a-f]{64}\nhunkravy: the mode of other lets others read or change the key: run chmod 600"),
    ("chmod 604 other; $TOOL seal -k - small new < other", 0,
     r"hunkravy: the mode of standard input lets others read or change the key: run chmod 600"),
    ("$TOOL check -k key nowhere", 3, rf"hunkravy: nowhere cannot be read: {MISSING}"),
    ("$TOOL check -k key ''", 3, rf"hunkravy: '' cannot be read: {MISSING}"),
    ("$TOOL seal -k key . out", 3, r"hunkravy: \. is a folder: give a file, or seal a folder with tar -cf - FOLDER \| hunkravy seal -k KEY - OUT"),
    ("$TOOL open -k key --from 1 - out", 2, r"hunkravy: --from and --length need a file as IN"),
    ("$TOOL seal -k - - out", 2,
     r"hunkravy: standard input can be used only once: give files for IN and for any second key"),
    ("$TOOL rekey -k - -n - sealed out", 2,
     r"hunkravy: standard input can be used only once: give files for IN and for any second key"),
    (r"$TOOL seal -k key $'small\377' out", 2,
     r"hunkravy: an argument, or the program's own name, is not UTF-8: rename the file"),
    # Outputs.
    ("$TOOL seal -k key small no/out", 3, rf"hunkravy: no/out cannot be written: {MISSING}"),
    ("$TOOL seal -k key small sealed", 3, r"hunkravy: sealed exists: use --force to replace it"),
    ("$TOOL keygen key", 3, r"hunkravy: key exists: keygen never replaces a file, so give another name"),
    ("ln -s nowhere link; $TOOL seal -k key small link", 3,
     r"hunkravy: link is a link to a missing file: give the path of that file"),
    ("exec 8> gone; rm gone; $TOOL seal --force -k key small /dev/fd/8", 3,
     r"hunkravy: /dev/fd/8 is a link to a file that has no path here: give another path"),
    ("$TOOL seal --force -k key small /", 3, r"hunkravy: / is a folder or a block device: give a file"),
    ("$TOOL seal -k key /dev/null /dev/fd/3 3>&-", 3,
     r"hunkravy: /dev/fd/3 appeared or was exchanged during the run: give another OUT"),
    ("$TOOL seal --force -k key small small", 3,
     r"hunkravy: small is also the input: input and output must be different files"),
    ("mkfifo pipe; $TOOL seal --force -k key small pipe <> pipe", 3,
     r"hunkravy: pipe is a pipe that only this run reads, so what is written would be lost: give another OUT"),
    ("$TOOL open -k key sealed > /dev/full", 3,
     r"hunkravy: standard output cannot be written: .+\nhunkravy: the output is incomplete: discard it"),
    ("$TOOL seal --force -k key small /dev/stdout > out", 3,
     r"hunkravy: /dev/stdout is where standard output or standard error leads: give another OUT, or - for standard output"),
    ("$TOOL seal --force -k key small key", 3, r"hunkravy: key is the key file key: writing it would destroy the key"),
    ("$TOOL seal -k key key out", 3, r"hunkravy: key is the key file key: the input must be another file"),
    ("$TOOL open -k key longer > new", 1,
     r"hunkravy: longer is damaged: bytes follow its last record\nhunkravy: the output is incomplete: discard it"),
    ("script -qec '$TOOL seal -k key small' /dev/null", 3,
     r"hunkravy: standard output is a terminal: give a file as OUT, redirect with >, or give - to print\r"),
    ("script -qec '$TOOL open -k key sealed' /dev/null", 3,
     r"hunkravy: the contents are not printable text: give a file as OUT, redirect with >, or give - to print\r"),
    # Calls of the system that fail.
    (f"CALLS getentropy={ENOSYS} $TOOL keygen out", 3, r"hunkravy: the system returned no random bytes: .+"),
    ("CALLS NO_MEMORY=100 $TOOL open -k key sealed out", 3, r"hunkravy: out of memory"),
    (f"CALLS link={EPERM} $TOOL seal -k key small out", 0, r"hunkravy: out was renamed into place, since linking failed: .+"),
    (f"CALLS link={ENOSPC} $TOOL seal -k key small out", 3, r"hunkravy: out cannot be written: No space left .+"),
    (f"CALLS rename={EEXIST} $TOOL seal --force -k key small out", 3, r"hunkravy: out cannot be written: File exists .+"),
    (f"CALLS unlink={EPERM} $TOOL seal -k key small out", 3,
     r"hunkravy: \./\.out\.hunkravy-[0-9a-f]{16} was not removed: delete it if it is there, since it may hold plaintext or a key\n"
     r"hunkravy: out is complete, but \.OUT\.hunkravy-\* beside it remains: delete that name"),
    ("CALLS BEFORE=fsync_file RUNS='rm .out*' $TOOL seal -k key small out", 3,
     r"hunkravy: out cannot be written: its folder, or its temporary file \.OUT\.hunkravy-\*, was renamed, removed or mounted over"),
    (f"CALLS BLIND=1 BEFORE=rename RUNS='mv .out* out' rename={EIO} $TOOL seal -q --force -k key small out", 3,
     r"hunkravy: \./\.out\.\S+ was not removed: .+\nhunkravy: cannot tell whether out was written, so check it: .+"),
    (f"CALLS fsync_folder={ENOSPC} $TOOL seal -k key small out", 3,
     r"hunkravy: out is complete, but a power loss may undo it, since its folder cannot be synced: No space left .+"),
)
# These need an input of 2^61 bytes, and a command line that is not understood and not rejected. The last is not printed.
UNREACHABLE = "is longer than a sealed file can be", "no command: see hunkravy --help", "standard error leads to what is read"
ELSEWHERE = ("is not a stream socket, so a part of a message may be lost: read from a pipe or a file",)


class Messages(Scene):
    def test_each_message(self):
        sealed = read("sealed")
        write("flipped", sealed[:70_000] + bytes([sealed[70_000] ^ 1]) + sealed[70_001:])
        write("flagged", sealed[:65_601] + b"\2" + sealed[65_602:])
        write("emptied", sealed[:65_601] + bytes(5 + 32) + sealed[65_601:])
        write("cut", sealed[:-66])
        write("short", sealed[:200_100])
        write("longer", sealed + b"x")
        for command, status, text in MESSAGES:
            with self.subTest(command):
                for name in "out", "new", "link", "pipe":
                    if os.path.lexists(name):
                        os.remove(name)
                self.shell(status, command.replace("CALLS", "exec env LD_PRELOAD=$CALLS_LIBRARY"), rf"\A(?s:{text})\n\Z")

    # A new error needs a row, and no text is in the table that the program does not have.
    def test_each_error_has_a_row(self):
        source = (ROOT / "crates/aegis_tool/src/failure.rt").read_text("utf-8")
        texts = re.findall(r'#\[error\("(.*)"\)\]', source)
        self.assertGreater(len(texts), 30)
        rows = " ".join(text.replace("\\", "") for _, _, text in MESSAGES)
        for text in texts:
            pieces = [piece for piece in re.split(r"\{\d\}", text) if piece.strip(" :;")]
            if any(piece.strip() in UNREACHABLE + ELSEWHERE for piece in pieces):
                continue
            for piece in pieces:
                self.assertIn(piece.strip(), rows, text)
