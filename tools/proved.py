#!/usr/bin/env python3
"""What crates.txt has of the crates, what `rt ci` has proved, and what is built over it.

proved.py sources CRATE: prints the files that a crate and those below it are built from.
proved.py check: passes if the sources and the libraries are still those of OUT/proved.
proved.py run: runs `rt ci`. If it passed, OUT/proved has the sums of the sources and of the libraries that it made.
proved.py build CRATE FILE [FLAG..]: proves a program or a static library, and builds it as FILE: the object of a program.
proved.py link FILE OBJECT..: links a program from its objects, as `rt run` does.

`build` calls rattle as `rt run` and `rt lib` do, with these flags, but over the libraries that `rt ci` has left in
crates/*/out/rlib, so that it proves that crate alone: these have no stamp, and rt would prove them once more. If a source
or a library has another sum than in OUT/proved, or if that file is not there, nothing is built. `run` writes it last, and
not at all if a library stood there before, which rt puts back, or if a source changed meanwhile. A second level of a crate
takes its proof from the folder OUT/proved-work, which only the first one has written.
"""
import hashlib
import os
import pathlib
import shutil
import subprocess
import sys

CRATES, OUT = pathlib.Path("crates"), pathlib.Path("out")
PROVED, WORK, LINE = OUT / "proved", OUT / "proved-work", OUT / "proved-line"
RT = shutil.which("rt") or ""
KIT = os.path.dirname(os.path.dirname(os.path.realpath(RT)))


# ---- The crates


def listed():
    """Returns the libraries that each crate names, and the crates that are static libraries."""
    rows, static = {}, set()
    for line in pathlib.Path("crates.txt").read_text("utf-8").splitlines():
        head, colon, libraries = line.partition("#")[0].partition(":")
        if colon:
            name, *kind = head.split()
            rows[name] = libraries.split()
            static |= {name} if "staticlib" in kind else set()
    return rows, static


def below(rows, name):
    """Returns the crates below a crate."""
    found = {library for library in rows[name] if library in rows}
    return found.union(*(below(rows, library) for library in found))


def print_sources(name):
    """Prints the files that a crate and those below it are built from."""
    rows, _ = listed()
    for crate in sorted(below(rows, name) | {name}):
        for part in ("src", "specs", "proofs"):
            print(*sorted(path for path in (CRATES / crate / part).glob("**/*") if path.is_file()))


# ---- What is proved


def sources():
    """Yields the files that `rt ci` reads."""
    yield from (path for path in CRATES.glob("**/*") if path.is_file() and "out" not in path.parts[2:3])
    yield from (pathlib.Path("crates.txt"), pathlib.Path("HANDLES"))


def libraries():
    """Returns the libraries that `rt ci` leaves."""
    return CRATES.glob("*/out/rlib/*.rlib/format")


def sums(paths):
    """Returns the sum of each file, as sha256sum prints them."""
    return "".join(f"{hashlib.sha256(path.read_bytes()).hexdigest()}  {path}\n" for path in sorted(paths))


def run():
    """Runs `rt ci`, writes what it proved, and returns its status."""
    OUT.mkdir(exist_ok=True)
    PROVED.unlink(missing_ok=True)
    LINE.unlink(missing_ok=True)
    shutil.rmtree(WORK, ignore_errors=True)
    # Libraries where rt writes its own, or where rt puts back some.
    others = [*CRATES.glob("*/out/rlib"), *pathlib.Path(".git").glob("rt-aside/*/rlib")]
    before, line = sums(sources()), ""
    with subprocess.Popen([RT, "ci"], stdout=subprocess.PIPE, stderr=subprocess.STDOUT, text=True) as process:
        for line in process.stdout:
            print(line, end="", flush=True)
    if process.returncode:
        return process.returncode
    if others or sums(sources()) != before:
        print("note: a library stood in crates/*/out, or a source was changed: what is built is proved once more", file=sys.stderr)
        return 0
    LINE.write_text(line, "utf-8")
    PROVED.write_text(before + sums(libraries()), "utf-8")
    return 0


def check():
    """Ends with a message unless the sources and the libraries are those that `run` has proved."""
    if not PROVED.is_file():
        sys.exit(f"{PROVED} is not there: nothing was proved")
    if sums(sources()) + sums(libraries()) != PROVED.read_text("utf-8"):
        sys.exit(f"a source or a library is not that of {PROVED}")


# ---- What is built


def words(name, root):
    """Returns rattle's words for a crate with this root, as rt passes them."""
    rows, own = listed()[0], CRATES.absolute()
    found = ["--crate-name", name, root, "-L", f"dependency={KIT}/rlibs"]
    found += ["--links", f"{name}=", "--antt-project", f"{KIT}/rattle/logic/antt-project.json"]
    found += ["--logic-built", f"{KIT}/logic_built"]
    for library in ["std", *rows[name]]:
        place = own / library / "out/rlib" if library in rows else f"{KIT}/rlibs"
        found += ["--extern", f"{library}={place}/{library}.rlib"]
    for library in sorted(below(rows, name)):
        found += ["-L", f"dependency={own / library / 'out/rlib'}"]
    return found


def build(name, file, *flags):
    """Proves a crate over what was proved, and builds it."""
    check()
    kind = ["src/lib.rt", "--crate-type", "staticlib"] if name in listed()[1] else ["src/main.rt"]
    found = [*words(name, kind[0]), *kind[1:], *flags, "--incremental", os.path.abspath(WORK / name)]
    found += ["--toolchain", f"{KIT}/toolchain", "--backend", "llvm", "-o", os.path.abspath(file)]
    subprocess.run([f"{KIT}/bin/rattle", "build", *found], check=True, stdin=subprocess.DEVNULL, cwd=CRATES / name)


def link(file, *objects):
    """Links a program with the C of Rattle's libraries."""
    found = ["--target", "x86_64-unknown-linux-gnu", "--toolchain", f"{KIT}/toolchain", "-o", file, *objects]
    subprocess.run([f"{KIT}/bin/rattle-link", *found, f"{KIT}/c/libos_c.a", f"{KIT}/c/liblibc_c.a"], check=True)


if __name__ == "__main__":
    command, *rest = sys.argv[1:]
    if command in ("run", "build", "link") and not RT:
        sys.exit("rt is not installed")
    try:
        result = {"sources": print_sources, "check": check, "run": run, "build": build, "link": link}[command](*rest)
    except subprocess.CalledProcessError as error:
        result = error.returncode if error.returncode > 0 else 1
    sys.exit(result)
