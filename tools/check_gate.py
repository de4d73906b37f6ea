"""Tests .ci/checks, the merge gate, over stand-ins for make, for the proofs and for the programs that it needs.

It has to run each check that a Makefile has a rule for, and to fail if one of them fails, hangs or has nothing to do.
"""

import os
import pathlib
import re
import shutil
import subprocess
import sys
import tempfile
import time

ROOT = pathlib.Path(__file__).resolve().parents[1]
GATE = ROOT / ".ci" / "checks"
# Those that a person calls: of the mutants that cost too much.
BY_HAND = {"check-mutants"}

# The stand-in for make notes its targets. FAILS is one that fails, HANGS one that does not end, IDLE one with nothing to do.
MAKE = """#!/bin/bash
for target in "$@"; do
    case $target in -* | *=*) continue ;; esac
    echo "$target" >> targets
    if [ "$target" = "${FAILS:-}" ]; then seq 5000; echo 'the reason'; exit 2; fi
    if [ "$target" = "${HANGS:-}" ]; then sleep 60; fi
    if [ "$target" = "${IDLE:-}" ]; then echo "make: Nothing to be done for '$target'."; fi
    if [ "$target" = "${LEAVES:-}" ]; then echo 'left out: a part'; fi
done
echo made
"""
PROVED = """
import os, sys, time
time.sleep(int(os.environ.get("PROVING", "0")))
print(f"5 passed, {os.environ.get('REFUSED', '0')} failed")
sys.exit(int(os.environ.get("STATUS", os.environ.get("REFUSED", "0"))))
"""


def run(folder, **variables):
    """Runs the gate, and returns its status, its last line and the targets that were made."""
    shutil.rmtree(folder / "out", ignore_errors=True)
    folder.joinpath("targets").write_text("")
    environment = {"PATH": f"{folder / 'bin'}:/usr/bin:/bin", "MAKE": str(folder / "make"), "LIMIT": "30", **variables}
    found = subprocess.run([GATE], cwd=folder, env=environment, stdout=subprocess.PIPE, stderr=subprocess.STDOUT, text=True)
    folder.joinpath("said").write_text(found.stdout)
    return found.returncode, found.stdout.splitlines()[-1], folder.joinpath("targets").read_text().split()


def prepare(folder):
    """Makes a folder with the stand-ins, and with each program that a check needs."""
    for place in ("bin", "tools", "crates"):
        (folder / place).mkdir()
    (folder / "tools" / "proved.py").write_text(PROVED)
    (folder / "make").write_text(MAKE)
    (folder / "make").chmod(0o755)
    needed = re.findall(r"^ *check '[^']+' (?:'([^']*)'|(\S+))", GATE.read_text(), re.M)
    for program in {program for either in needed for program in " ".join(either).split()}:
        path = sys.executable if program == "python3" else shutil.which("true")
        (folder / "bin" / program).symlink_to(path)


def rules():
    """Returns the prerequisites of each rule of the Makefiles."""
    text = "".join(path.read_text() for path in [ROOT / "Makefile", *sorted(ROOT.glob("*/rules.mk"))])
    text = text.replace("\\\n", " ")
    return re.findall(r"^([^\s#:=]+):(?![:=])([^\n]*(?:\n\t[^\n]*)*)", text, re.M)


def reached(targets):
    """Returns the targets of rules that are made for these, or that their rules name."""
    found, more = set(), set(targets)
    while more - found:
        found |= more
        for target, text in rules():
            if target in found:
                more |= set(re.findall(r"check-[a-z+]+(?:-[a-z+]+)*", text))
    return found


def check(fact, text):
    if not fact:
        raise SystemExit(f"check_gate.py: {text}")


with tempfile.TemporaryDirectory() as name:
    folder = pathlib.Path(name)
    prepare(folder)
    status, last, targets = run(folder)
    check(status == 0, f"it fails although nothing does: {last}")
    passed = len(re.findall("^ *check '", GATE.read_text(), re.M)) + 5
    check(last == f"{passed} passed, 0 failed, 0 left out", f"it counts otherwise: {last}")
    phony = re.findall(r"check-\S+", " ".join(text for target, text in rules() if target == ".PHONY"))
    missing = set(phony) - reached(targets) - BY_HAND
    check(not missing, f"it does not run {', '.join(sorted(missing))}")
    for target in dict.fromkeys(targets):
        status, last, _ = run(folder, FAILS=target)
        check(status == 1 and f", {targets.count(target)} failed, " in last, f"{target} fails: {status}, {last}")
    run(folder, FAILS="check-abi")
    said = folder.joinpath("said").read_text().splitlines()
    check("the reason" in said and len(said) < 300, f"it prints {len(said)} lines of a failed check, or not its reason")
    for variables, count in (
        ({"IDLE": "check-time"}, ", 1 failed, 0 left out"),
        ({"REFUSED": "1"}, ", 1 failed, 0 left out"),
        ({"REFUSED": "3"}, ", 3 failed, 0 left out"),
        ({"STATUS": "1"}, ", 1 failed, 0 left out"),
        ({"LEAVES": "check-time", "STRICT": "1"}, ", 0 failed, 1 left out"),
        ({"HANGS": "check-dist", "LIMIT": "5"}, ", 1 failed, 0 left out"),
        ({"PROVING": "60", "LIMIT": "5"}, ", 1 failed, 0 left out"),
    ):
        begun = time.monotonic()
        status, last, _ = run(folder, **variables)
        check(status == 1 and last.endswith(count), f"{variables}: {status}, {last}")
        check(time.monotonic() - begun < 30, f"{variables}: it takes {time.monotonic() - begun:.0f} s")
    check(run(folder, LEAVES="check-time")[0] == 0, "it fails if a part is left out")
    for lost in "6 the proofs", "1 the C library and time", "0 a check that is gone":
        (folder / ".ci").mkdir(exist_ok=True)
        (folder / ".ci" / "tests").write_text(f"{lost}\n")
        status, last, _ = run(folder)
        check(status == 1 and ", 1 failed, " in last, f"{lost}, and fewer ran: {status}, {last}")
print("the gate runs each check, and fails if one does")
