"""The tables of docs/PROOFS.md: each function of a row is there, in the type or module that the row names, and each clause of
the row is in the contract of each of its functions. check_promises.py list prints the promises with their files."""

import pathlib
import re
import sys

import check_pages
import mutants

PAGE = pathlib.Path("docs/PROOFS.md")
# The crates of the library, whose functions the page names.
SOURCES = [path for path in check_pages.SOURCES if re.match(r"aegis(_aes|_base|_128|_256|_engine)?$", path.parts[1])]
HOLDER = re.compile(r"^(?:pub )?(?:unsafe )?(?:trait (\w+)|impl(?:<.*?>)? (?:(\w+)(?:<.*>)? for )?(\w+))", re.M)


def holders(path, function):
    """Returns what a function may be named after: its module, and of a method its trait and its type."""
    text = path.read_text("utf-8")
    above = [match.groups() for match in HOLDER.finditer(text[: function.start])]
    return {path.stem, *(above[-1] if above and text[function.start] == " " else ())}


def found(holder, name):
    """Returns the functions of this name, as pairs of a source and a function; those of the holder, if one is named."""
    pairs = [(path, function) for path in SOURCES for function in mutants.functions(path) if function.name == name]
    return [(path, function) for path, function in pairs if not holder or holder in holders(path, function)]


def promises():
    """Yields the promise of each row, and its functions and clauses."""
    promise = ""
    for row in check_pages.rows(PAGE):
        promise = row.get("Promise") or promise
        functions = [re.fullmatch(r"(?:(\w+)::)?([a-z]\w*)", code) for code in check_pages.CODE.findall(row.get("Function", ""))]
        clauses = [code for code in check_pages.CODE.findall(row.get("Clause", "")) if re.fullmatch(r"[a-z]\w*", code)]
        yield promise, [match.groups() for match in functions if match and not match[2].startswith("aegis")], clauses


def lost():
    """Yields each function and clause that is not there, or prints the others."""
    for promise, functions, clauses in promises():
        holder = None
        for named, name in functions:
            holder = named or (holder if found(holder, name) else None)
            pairs = found(holder, name)
            if not pairs:
                yield f"{promise}: there is no function {name}" + (f" of {holder}" if holder else "")
            elif not clauses and not any("ensures" in function.contract for _, function in pairs):
                yield f"{promise}: {name} has no contract"
            for clause in clauses if pairs else ():
                where = [path for path, function in pairs if clause in {match[2] for match in mutants.CLAUSE.finditer(function.contract)}]
                if not where:
                    yield f"{promise}: {name} has no clause {clause}"
                elif sys.argv[1:] == ["list"]:
                    print(f"{promise} | {name} | {clause} | {where[0]}")


sys.exit("\n".join(f"{PAGE}: {fault}" for fault in lost()) or None)
