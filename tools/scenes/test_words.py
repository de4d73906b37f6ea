"""Help, the manual page, keys, names, standard files that are closed or full, and terminals."""

import os
import re
import shutil

from scene import ROOT, TOOL, Scene, read, write

VERSION = os.environ["VERSION"]
MANUAL = ROOT / "crates/hunkravy/manual"


class Words(Scene):
    def test_help_and_version(self):
        self.tool(0, "--version", [f"^hunkravy {re.escape(VERSION)}$", "cipher proved by rattle-kit"])
        if shutil.which("rt"):
            self.shell(0, '$TOOL --version | grep -xF "cipher proved by $(rt version)"')
        os.symlink(TOOL, "\033[31m")
        self.tool(0, ["./\033[31m", "--help"], "Exit status", "\033")

    def named_in_help(self, command, pattern):
        self.tool(0, command)
        return re.findall(pattern, self.said, re.M)

    # The completions of a command have the options of its help, and the manual page has all commands and options.
    def test_manual_page_and_completions(self):
        manual, *completions = [read(MANUAL / page).decode() for page in ("man", "bash", "zsh", "fish")]
        manual = manual.replace("\\-", "-")
        self.assertIn(f'"hunkravy {VERSION}"', manual)
        commands = self.named_in_help("--help", r"^  ([a-z]+)  ")
        self.assertIn("rekey", commands)
        option = r"^ +(?:-\w, |    )--([a-z-]+)"
        for name in {*self.named_in_help("--help", option), "version"}:
            self.assertIn(rf"\fB--{name}\fR", manual)
        for command in commands:
            self.assertIn(rf"\fB{command}\fR", manual)
            options = set(self.named_in_help(f"help {command}", option)) if command != "help" else set()
            for name in options:
                self.assertIn(rf"\fB--{name}\fR", manual)
            for page, own, typed in zip(completions, (rf" +{command}\)", rf"{command}\)", rf".*from {command}'"), ("--", "--", "-l ")):
                found = re.findall(rf"^{own} .*$", page, re.M)
                self.assertEqual(set(re.findall(rf"{typed}([a-z-]+)", "\n".join(found))), options - {"help"}, (command, found))

    # Commands, options where a dash is typed, files elsewhere, but none for a number.
    def test_completions_of_bash(self):
        script = 'compopt() { echo numbers; }; source "$0"; COMP_WORDS=(hunkravy "$@") COMP_CWORD=$#; _hunkravy; echo "${COMPREPLY[*]}"'
        for words, found in (["se"], "seal\n"), (["--"], "--help --version\n"), (["help", "re"], "rekey\n"), (["keygen", ""], "\n"), \
                (["open", "--f"], "--from --force\n"), (["open", "-k", ""], "\n"), (["open", "--from", ""], "numbers\n\n"), \
                (["seal", "-k", "key", "sm"], "\n"):
            self.tool(0, ["bash", "-c", script, MANUAL / "bash", *words])
            self.assertEqual(self.said, found, words)

    def test_misuse(self):
        for words in "seal small", "frobnicate", "open -k key --from x sealed out", "open -k key --records 1..2 sealed out":
            self.tool(2, words)
        for option in "from", "length":
            self.tool(2, f"open -k key --{option} -1 sealed out", f"^error: invalid value '-1' for '--{option} <", "tip")
        self.shell(2, r"exec -a $'\377' $TOOL info sealed", "or the program's own name, is not UTF-8")
        os.mkdir("$(touch pasted)")
        hint = r"^hunkravy: \$\(touch pasted\) is a folder: give a file, or seal a folder with tar -cf - FOLDER \|"
        self.tool(3, [TOOL, "seal", "-k", "key", "$(touch pasted)", "out"], hint)
        # The tests of the packages have the forms of a key.
        for wrong in "small", "/dev/null", "/dev/zero":
            self.tool(3, f"seal -k {wrong} small out", f"{wrong} holds no key", "chmod")
        self.nothing_left("out")

    def test_keygen(self):
        self.shell(0, "$TOOL keygen drawn && umask 0277 && $TOOL keygen masked")
        self.assertEqual([os.stat(name).st_mode & 0o777 for name in ("drawn", "masked")], [0o600, 0o400])
        before = read("drawn")
        self.assertRegex(before, rb"\A[0-9a-f]{64}\n\Z")
        self.differ(before.strip(), read("masked").strip(), b"0" * 64)
        self.shell(0, "$TOOL check -q -k <(cat key) sealed && $TOOL check -q -k - sealed < key")
        self.tool(3, "keygen drawn", "drawn exists: keygen never replaces a file")
        self.is_same("drawn", before)
        # A file system that is full takes a part of what is written.
        self.shell(3, "trap '' XFSZ; exec prlimit --fsize=32 $TOOL keygen full 2> /dev/null")
        self.nothing_left("full")

    def test_warning_on_the_mode_of_a_key(self):
        warning = "hunkravy: the mode of {} lets others read or change the key: run chmod 600\n"
        for mode in 0o640, 0o620, 0o604, 0o602, 0o666:
            os.chmod("key", mode)
            self.tool(0, "seal --force -k key small out", rf"\A{warning.format('key')}\Z")
            self.shell(0, "$TOOL check -k - sealed < key > /dev/null", rf"\A{warning.format('standard input')}\Z")
            self.tool(0, "seal --force -q -k key small out", lacks=".")
        # Standard error may lead to the same place as the output.
        for command in "> out 2>&1", "2>&1 | cat > out", "/dev/stdout 2>&1 | cat > out":
            self.shell(0, f"$TOOL seal -k key small {command}")
            self.assertTrue(read("out").startswith(warning.format("key").encode()))
        for mode in 0o600, 0o400, 0o711:
            os.chmod("key", mode)
            self.tool(0, "seal --force -k key small out", lacks=".")

    # Names that a terminal acts on are escaped in messages.
    def test_names(self):
        for name in "", "nothing/", "no/such/folder", ".", "n" * 256:
            self.tool(3, [TOOL, "seal", "-k", "key", "small", name], lacks="renamed into|--force")
        odd = "./line\nfeed", "./\ttab", "./-", "./--force", "./ ", "./*", "./\033[2J", "./\u009b2J", "./\r"
        for name in *odd, "n" * 255, "n" * 250, "\u00fc" * 120:
            self.tool(0, [TOOL, "seal", "-k", "key", "small", name])
            self.opens(name, read("small"))
            self.tool(3, [TOOL, "seal", "-k", "key", "small", name], r"\A[^\n]*\n\Z", "[\033\u009b\r\t]")
            self.tool(0, [TOOL, "seal", "--force", "-k", "key", "small", name])
        self.nothing_left()
        for words in "check -k key sealed {}", "open -k key --from {} sealed -", "{}":
            self.tool(2, words.format("one\u202etoo\nmany"), r"one\\u\{202e\}too\\nmany", "^many")
        name = "no\033[2J\u009b2Jsuch"
        self.tool(3, f"check -k key {name}", r"no\\u\{1b\}\[2J\\u\{9b\}2Jsuch cannot be read", "[\033\u009b]")
        self.tool(3, f"check -k {name} small", lacks="[\033\u009b]")
        self.tool(2, f"check -k key small {name}", lacks="[\033\u009b]")

    # The status is the same if a message cannot be printed, and 3 if the output cannot.
    def test_standard_files_that_are_closed_or_full(self):
        os.chmod("key", 0o644)
        for closed in "2> /dev/full", "2>&-":
            for status, words in (0, "seal --force -k key small out"), (0, "check -k key sealed"), (1, "check -k other sealed"), \
                    (2, "frobnicate"), (2, "check -k key $'x\\377'"), (3, "check -k nowhere sealed"):
                self.shell(status, f"$TOOL {words} {closed}")
        for output in "/dev/full", "&-":
            for words in "--help", "--version", "help seal", "keygen", "seal -k other small", "open -k key sealed", "info sealed", \
                    "open -k key --from 3 sealed", "rekey -k key -n other sealed", "check -k key sealed":
                self.shell(3, f"$TOOL {words} >{output}", "hunkravy: standard output cannot be written")
        self.shell(3, "$TOOL seal -k key - closed <&-")
        self.shell(3, "$TOOL seal -k key /dev/zero 2> said | head -c 1000 > started; exit ${PIPESTATUS[0]}")
        self.nothing_left("closed")

    # ---- Terminals

    def test_ciphertext_keys_and_progress(self):
        self.terminal(3, "$TOOL seal -k key small", "standard output is a terminal")
        self.terminal(3, "$TOOL keygen")
        self.terminal(0, "$TOOL seal -k key small -")
        os.truncate("small", 200_000_000)
        self.tool(0, "seal -k key small vast", lacks=".")
        # A line is written without wrapping, which is on again after it.
        self.terminal(0, "$TOOL check -k key vast", [r"\[#{10}\] 100% \d+ MiB/s", "^190 MiB in"])
        lines = re.findall("\033\\[\\?7l\r([^\r\033]*)\033\\[\\?7h", self.said)
        self.assertLessEqual(max(len(line) for line in lines), 30)
        self.assertNotIn("MiB/s", re.sub("\033\\[\\?7l\r[^\r\033]*\033\\[\\?7h", "", self.said))
        self.terminal(0, "$TOOL check -k key < vast", [r"\d+ MiB, \d+ MiB/s", "^190 MiB in"])
        self.terminal(0, "$TOOL check --quiet -k key vast", lacks=".")
        self.terminal(0, "TERM=dumb $TOOL check -k key vast", lacks="\033|MiB")

    # The first line shows the speed in the time that has passed, which is less than a second here, and not in a second.
    def test_speed(self):
        os.truncate("small", 70_000_000)
        self.tool(0, "seal -k key small vast", lacks=".")
        self.terminal(0, "$TOOL check -k key vast")
        speed, seconds = (int(re.search(words, self.said)[1]) for words in (r"(\d+) MiB/s", r"MiB in (\d+) s"))
        self.assertTrue(speed > 64 or seconds > 0, self.said)

    # A terminal has more after the end of an input.
    def test_an_input_that_is_typed(self):
        self.shell(0, r"printf 'typed\n\004more\n\004' | script -qec '$TOOL seal -k key - out' /dev/null")
        self.opens("out", b"typed\n")

    # Seals a letter, and opens it on a terminal.
    def opens_letter(self, status, letter, says=()):
        write("letter", letter)
        self.tool(0, "seal --force -k key letter letter.sealed", lacks=".")
        self.terminal(status, "$TOOL open -k key letter.sealed", says)

    # Characters of several bytes lie at the end of a piece.
    def test_texts(self):
        for before in 65_533, 65_534, 65_535:
            letter = b"x" * before + "\u00fc\u2603\U0001f600 end\n".encode()
            self.opens_letter(0, letter)
            self.assertTrue(self.printed.replace(b"\r", b"") == letter)
            self.opens_letter(3, letter[: before + 2] + b"\x9b2J")
        self.opens_letter(0, b"a letter\n")
        self.terminal(0, "chmod 644 key; $TOOL open -k key letter.sealed", ["a letter", "lets others read or change the key"])

    def test_bytes_that_a_terminal_acts_on(self):
        for direction in *range(0x202A, 0x202F), *range(0x2066, 0x206A), 0x200E, 0x200F, 0x61C:
            self.opens_letter(3, f"x{chr(direction)}y".encode(), "are not printable text")
            self.tool(3, f"info x{chr(direction)}y", rf"x\\u\{{{direction:x}\}}y cannot be read", chr(direction))
        for bad in b"\r", b"\r\n", b"\033[2J", b"\0", b"\x7f", b"\xc2\x9b2J", b"\xc2\x80", b"\x9b2J", b"\xff", b"\xc2", b"\xe2\x98", \
                b"\xed\xa0\x80", b"\xc0\xaf", b"\xf5\x80\x80\x80":
            self.opens_letter(3, b"x" + bad, "are not printable text")
            self.assertFalse(set(self.printed.replace(b"\r\n", b"")) & {0x0D, 0x1B, *range(0x7F, 0x100)}, self.printed)
            for output in "-", '"$(tty)"':
                self.terminal(0, f"$TOOL open -k key letter.sealed {output}")
