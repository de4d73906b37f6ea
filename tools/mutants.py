"""The mutants of the crates: those that `rt ci` tries, in must-fail/, the others, which mutants.txt lists, and the controls.

A mutant with a line `alone:` is tried in the gate too, on the function of that path alone. A control has the shape of a
mutant and the right meaning, so the prover has to prove it: controls.txt lists them, each with the name of the mutant that
it stands beside.

mutants.py check: each can be applied, since every text that it replaces stands in its file once, has a name of its own in its
crate, and names the clauses that refuse it. The function that it changes, or one that calls that, has a clause of each name.
mutants.py try-alone: the prover refuses each mutant with a line `alone:`, over the libraries that `rt ci` has proved.
mutants.py try [CRATE..]: it refuses each mutant that is listed, and proves each control.
"""

import functools
import pathlib
import re
import shutil
import subprocess
import sys
import tempfile
from typing import NamedTuple

import proved

CRATES = pathlib.Path("crates")
FUNCTION = re.compile(r'^( *)(?:pub(?:\(crate\))? |final |const |unsafe |extern "C" )*fn (\w+)', re.M)
ITEM = re.compile(r"\b(?:(?:const|static) (\w+):|macro_rules! (\w+))")
CLAUSE = re.compile(r"\b(requires|ensures)\*?(?: (\w+))? \{")
WORD = re.compile(r"`([^`]+)`")


class Edit(NamedTuple):
    """A mutant or a control: its crate, its name, its lines, what they say, by their first words, and what it replaces: the
    path below the crate, the old text and the new one."""

    crate: pathlib.Path
    name: str
    lines: list
    said: dict
    replacements: list


def edit_of(crate, name, lines):
    """Returns the edit of these lines."""
    said, replacements = {word: [] for word in ("clause:", "alone:", "beside:", "file:", "old:", "new:")}, []
    for line in lines:
        word, _, rest = line.partition(" ")
        if word not in said:
            sys.exit(f"{crate.name}: {name}: unknown line: {line}")
        said[word].append(rest)
        if word == "new:":
            replacements.append((said["file:"][-1], said["old:"][-1], rest))
    return Edit(crate, name, lines, said, replacements)


def listed(file):
    """Yields each mutant or control of the lists in files of this name."""
    for path in sorted(CRATES.glob(f"*/{file}")):
        for block in path.read_text("utf-8").split("\n\n")[1:]:
            first, *lines = block.strip().splitlines()
            if not first.startswith("name: "):
                sys.exit(f"{path}: a mutant begins with its name, and not with {first}")
            yield edit_of(path.parent, first.removeprefix("name: "), lines)


def fault(edit):
    """Returns why an edit cannot be applied, or None."""
    texts = {}
    for path, old, new in edit.replacements:
        if not (edit.crate / path).is_file():
            return f"there is no file {path}"
        text = texts.get(path) or (edit.crate / path).read_text("utf-8")
        if text.count(old) != 1:
            return f"{path} has {text.count(old)} times: {old}"
        for crate, module in re.findall(r"Rattle\.(aegis\w*)\.specs\.([A-Z]\w*)", new):
            if not (CRATES / crate / "specs" / f"{module}.antt").is_file():
                return f"{crate} has no definitions {module}"
        texts[path] = text.replace(old, new)
    return None if texts else "it replaces nothing"


# ---- The clauses that they name


class Function(NamedTuple):
    """A function of a source: its name, where its text begins and ends, its contract, and its body."""

    name: str
    start: int
    stop: int
    contract: str
    body: str


@functools.cache
def functions(path):
    """Returns the functions of a source, in order."""
    text, found = path.read_text("utf-8"), []
    for match in FUNCTION.finditer(text):
        indent, name = match.groups()
        # A field of a record in a contract ends with a semicolon too.
        body = re.compile(rf"^{indent}\{{$|^(?! +\w+ = ).*;$|\{{\}}$", re.M).search(text, match.end())
        same_line = re.compile(r"[^\n]*[{;]$", re.M).match(text, match.end())
        start = same_line.end() if same_line else body.end() if body else match.end()
        end = re.compile(rf"^{indent}\}}$", re.M).search(text, start)
        is_declared = text[start - 1] == ";"
        stop = start if is_declared or end is None else end.end()
        found.append(Function(name, match.start(), stop, text[match.end() : start], text[start:stop]))
    return found


def functions_of(crate):
    return [function for path in sorted(crate.glob("src/**/*.rt")) for function in functions(path)]


def words_of(text):
    return set(re.findall(r"\w+", text))


def changed(edit):
    """Returns the names of the functions that an edit changes or adds; of another item, those that name it."""
    names = set()
    for path, old, new in edit.replacements:
        text = (edit.crate / path).read_text("utf-8")
        start = text.find(old)
        end = start + len(old)
        inside = {function.name for function in functions(edit.crate / path) if function.start < end and start < function.stop}
        items = {constant or macro for constant, macro in ITEM.findall(text[:end])[-1:]}
        names |= (inside or callers(edit.crate, items)) | set(re.findall(r"\bfn (\w+)", new))
    return names


def callers(crate, names):
    """Returns the names of the functions of a crate whose bodies name one of these."""
    return {function.name for function in functions_of(crate) if names & words_of(function.body)}


def contracts(crate, name):
    """Returns the contracts of the functions of this name: of the crate, or of a trait of another crate."""
    own = [function.contract for function in functions_of(crate) if function.name == name]
    if any(map(CLAUSE.search, own)):
        return own
    every = [function for other in sorted(CRATES.iterdir()) for function in functions_of(other)]
    return [function.contract for function in every if function.name == name]


@functools.cache
def fields():
    """Returns the fields of each definition with named fields."""
    found = {}
    for path in CRATES.glob("*/specs/**/*.antt"):
        for match in re.finditer(r"^pub record (\w+)(.*?)(?=^\S|\Z)", path.read_text("utf-8"), re.M | re.S):
            found.setdefault(match[1], set()).update(re.findall(r"^  pub (\w+) :", match[2], re.M))
    return found


def clauses_of(text):
    return {name for _, name in CLAUSE.findall(text)}


@functools.cache
def names_in(contract):
    """Returns the names that the clauses of a contract have: their own, and those of the definitions and fields that they say."""
    words = words_of(contract)
    found = clauses_of(contract) | {word for word in words if word[0].isupper()}
    return found.union(*(fields().get(word, ()) for word in words))


def names_of(crate, function):
    """Returns the names that a function's clauses have."""
    return set().union(*map(names_in, contracts(crate, function)))


def part_fault(edit, part):
    """Returns why a part of the clauses that a mutant names is not so, or None.

    It has names, "the clause" or "a loop's invariant", and of which function; or "the condition", a name, and of which
    function that the changed one calls.
    """
    clauses, of, function = part.rpartition(" of ")
    function = WORD.fullmatch(function)[1].rpartition("::")[2] if WORD.fullmatch(function) else ""
    if not of or not function:
        return f"it does not say of which function: {part}"
    crate, inside, named = edit.crate, changed(edit), WORD.findall(clauses)
    if clauses.startswith("the condition "):
        is_called = any(function in other.body for other in functions_of(crate) if other.name in inside)
        has_it = is_called and named[0] in names_of(crate, function)
        return None if has_it else f"what it changes calls no {function} with such a condition"
    if function not in inside | callers(crate, inside):
        return f"{function} is not changed, and calls nothing that is: {', '.join(sorted(inside))}"
    if clauses == "a loop's invariant":
        has_invariant = any(path.parent.name == function for path in crate.glob("proofs/**/Invariants.antt"))
        return None if has_invariant else f"{function} has no invariant"
    if clauses == "the clause":
        return None if any(map(CLAUSE.search, contracts(crate, function))) else f"{function} has no clause"
    if not named or WORD.sub("", clauses).strip(", "):
        return f"its clauses are not names alone: {clauses}"
    # A function that the mutant adds may have clauses of its own.
    added = {name for _, _, new in edit.replacements if f"fn {function}(" in new for name in clauses_of(new)}
    missing = [name for name in named if name not in added | names_of(crate, function)]
    return f"{function} has no clause {missing[0]}" if missing else None


def clause_fault(edit):
    """Returns why the clauses that a mutant names, in parts between semicolons, are not those of what it changes, or None."""
    if len(edit.said["clause:"]) != 1:
        return "it names no clause, or has two lines of them"
    return next(filter(None, (part_fault(edit, part) for part in edit.said["clause:"][0].split("; "))), None)


def check():
    """Yields what is wrong with the mutants and the controls."""
    gate = sorted(CRATES.glob("*/must-fail/*.edit"))
    mutants = [edit_of(path.parent.parent, path.stem, path.read_text("utf-8").splitlines()) for path in gate]
    names = set()
    for edit in [*mutants, *listed("mutants.txt")]:
        twice = "its name stands twice" if (edit.crate, edit.name) in names else None
        names.add((edit.crate, edit.name))
        if why := twice or fault(edit) or clause_fault(edit):
            yield f"{edit.crate.name}: {edit.name}: {why}"
    for edit in listed("controls.txt"):
        beside = [(edit.crate, name) for name in edit.said["beside:"]]
        alone = None if len(beside) == 1 and beside[0] in names else "it stands beside no mutant"
        if why := fault(edit) or alone:
            yield f"{edit.crate.name}: control {edit.name}: {why}"
    for crate in sorted({crate for crate, _ in names}):
        of_gate = [edit for edit in listed("mutants.txt") if edit.crate == crate and edit.said["alone:"]]
        if len(of_gate) != (0 if any(edit.crate == crate for edit in mutants) else 1):
            yield f"{crate.name}: the gate tries none of its mutants, or too many"
    if not names:
        yield "there are no mutants"


# ---- The prover

# What rt prints of an edit that shows nothing of a contract: it does not compile, or a proof only misses a name.
SHOWS_NOTHING = re.compile(r"BAD EDIT|refused, as it must be \(only")


def tried(folder, edits):
    """Tries edits as the mutants of a copy of the crates, by `rt ci`, which takes the proofs of crates that an earlier run
    on this machine proved. Returns whether each is refused, and the edits of which rt does not say that they are not."""
    for path in folder.glob("crates/*/must-fail"):
        shutil.rmtree(path)
    if not edits:
        return True, []
    for edit in edits:
        path = folder / edit.crate / "must-fail" / f"{edit.name}.edit"
        path.parent.mkdir(exist_ok=True)
        path.write_text("\n".join(edit.lines) + "\n", "utf-8")
    shows_nothing, command = False, ["rt", "ci", *sorted({edit.crate.name for edit in edits})]
    with subprocess.Popen(command, cwd=folder, stdout=subprocess.PIPE, stderr=subprocess.STDOUT, text=True) as process:
        for line in process.stdout:
            print(line, end="", flush=True)
            shows_nothing = shows_nothing or SHOWS_NOTHING.search(line)
            edits = [edit for edit in edits if f"{edit.crate.name}/{edit.name}.edit: NOT REFUSED" not in line]
    return process.returncode == 0 and not shows_nothing, edits


# A goal that is left, or a stored answer to one that is wrong.
GOAL = re.compile(r"^(?:note: `[^`]+` of (?:\./)?proofs/\S+ must prove: |\./proofs/\S+ error: `).*", re.M)
# What the prover says where a proof only misses a name.
MISSES_A_NAME = re.compile(r"is not in scope|has no field|has no `|was not admitted")


def checked_alone(edit, replacements):
    """Checks the function that a mutant names, with what it calls. Returns the status, and what the prover prints."""
    with tempfile.TemporaryDirectory() as folder:
        for part in filter(pathlib.Path.is_dir, (edit.crate / name for name in ("src", "specs", "proofs"))):
            shutil.copytree(part, f"{folder}/{part.name}")
        for path, old, new in replacements:
            file = pathlib.Path(folder, path)
            file.write_text(file.read_text("utf-8").replace(old, new), "utf-8")
        command = [f"{proved.KIT}/bin/rattle", "check", *proved.words(edit.crate.name, "src/lib.rt"), "--only", *edit.said["alone:"]]
        found = subprocess.run(command, cwd=folder, stdin=subprocess.DEVNULL, stdout=subprocess.PIPE, stderr=subprocess.STDOUT, text=True)
    return found.returncode, found.stdout


def is_refused_alone(edit):
    """Returns whether the prover refuses a mutant on its function alone, and prints why, or what it says instead."""
    status, said = checked_alone(edit, edit.replacements)
    reasons = [goal for goal in GOAL.findall(said) if not MISSES_A_NAME.search(goal)]
    is_refused = status == 1 and bool(reasons) and re.search(r"^only=", said, re.M) is not None
    text = f"refused: {reasons[0][:160]}" if is_refused else f"NOT REFUSED, with status {status}:\n{said[-2000:]}"
    print(f"{edit.crate.name}: {edit.name}: {text}", flush=True)
    return is_refused


def try_alone():
    """Returns whether the prover fails to refuse a mutant of the gate on its function alone, or to prove the first of these
    functions as it stands. Without the libraries of `rt ci` it tries the mutants as all others."""
    edits = [edit for edit in listed("mutants.txt") if edit.said["alone:"]]
    print(f"Ran {len(edits)} tests of one function")
    if not proved.PROVED.is_file():
        return try_these(edits, [])
    proved.check()
    status, said = checked_alone(edits[0], [])
    if status != 0:
        sys.exit(f"{edits[0].crate.name}: its function is not proved as it stands:\n{said[-2000:]}")
    return not all([is_refused_alone(edit) for edit in edits])


def try_listed(crates):
    """Tries the mutants and the controls that are listed for these crates, or for all. Returns whether the prover fails to
    refuse a mutant, or to prove a control: not to refuse it."""
    if unknown := [crate for crate in crates if not (CRATES / crate).is_dir()]:
        sys.exit(f"there is no crate {unknown[0]}")
    files = ("mutants.txt", "controls.txt")
    mutants, controls = ([edit for edit in listed(file) if not crates or edit.crate.name in crates] for file in files)
    with tempfile.TemporaryDirectory() as folder:
        copy = pathlib.Path(folder)
        shutil.copytree(CRATES, copy / CRATES, ignore=shutil.ignore_patterns("out", "must-fail"))
        shutil.copy("crates.txt", copy)
        shutil.copy("HANDLES", copy)
        are_refused, _ = tried(copy, mutants)
        return not are_refused or bool(tried(copy, controls)[1])


if __name__ == "__main__":
    command, *words = sys.argv[1:]
    tries = {"try": lambda: try_listed(words), "try-alone": try_alone}
    if command in tries:
        sys.exit(tries[command]())
    sys.exit("\n".join(check()) or None)
