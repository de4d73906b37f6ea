"""The pages: their samples and quoted contracts stand in the sources, their links lead somewhere, and no line is too long.

- A sample in ```rust stands in a crate, one in ```c in an example of C, and one in ```rs in an example of Rust, line breaks
  aside. Those of the module docs of `aegis` stand in another crate. Samples in ```python are run (tools/check_python.sh).
- What a page calls is there: the commands of the tool and the targets of make in ```sh or between two `, the files of
  definitions, and the functions of docs/RANDOM-ACCESS.md.
- A function in a table of contracts is there, and so is each clause or definition that stands beside it: in the contract of
  one of the row's functions, if they are found. So are the definitions in a table of steps.
- The version of each file that has one is that of VERSION.
- The speeds of README.md are those of the tables of bench/, and the lengths of docs/FORMATS.md those of the headers.
- A link to a file of the repository leads to one, and its fragment to a heading.
- A source in Rattle or Rust is named by a `mod` item of the one above it, so no module of tests is left out.
- A line of a contract has at most 100 columns, one of a source or a page at most 120, but for imports, attributes, tables
  and links.

check_pages.py links: only the links, of the pages of a release.
"""

import pathlib
import re
import sys

import mutants

ROOT = pathlib.Path(".")
SKIPPED = {"out", ".git", "target"}
PAGES = [page for page in sorted(ROOT.glob("**/*.md")) if not SKIPPED & set(page.parts)]
SOURCES = sorted(ROOT.glob("crates/*/src/**/*.rt"))
HEADERS = [*sorted(ROOT.glob("c/include/*.h")), ROOT / "c/library/journal.h"]
# The pages that have to show something in a language.
SHOWN = {"README.md": "rs c python", "c/README.md": "c", "docs/RATTLE.md": "rust", "python/README.md": "python"}

CLAUSE = re.compile(r"\s*(requires|ensures)\b")
SAMPLE = re.compile(r"^```(\w*)\n(.*?)^```$", re.M | re.S)
LINK = re.compile(r"\[[^\]]*\]\(([^)\s]+)\)")
MAY_BE_LONG = re.compile(r'\s*(ghost use|use |#!?\[|\||[b*]*")|.*\]\(')


def read(path):
    return path.read_text("utf-8")


def joined(paths):
    """Returns the texts of files in one line."""
    return " ".join(word for path in paths for word in read(path).split())


def module_docs(path):
    """Returns the module docs of a source, whose samples are in Rattle, although no word says so."""
    return "".join(re.findall(r"^//! ?(.*\n)", read(path), re.M))


def strange_samples():
    """Yields each sample that stands in no source, and each page that lacks one."""
    known = {
        "rust": joined(SOURCES),
        "rs": joined(sorted(ROOT.glob("rust/examples/*.rs"))),
        "c": joined(sorted(ROOT.glob("c/examples/*.c"))),
    }
    crate_aegis = [path for path in SOURCES if path.parts[1] == "aegis"]
    outside = {"": joined([path for path in SOURCES if path.parts[1] != "aegis"])}
    pages = [(page, read(page), known) for page in PAGES if page.parts[0] not in ("rust", "python", "bench")]
    pages += [(path, module_docs(path), outside) for path in crate_aegis]
    for page, text, where in pages:
        for number, (language, sample) in enumerate(SAMPLE.findall(text), 1):
            if language in where and " ".join(sample.split()) not in where[language]:
                yield f"{page}: its sample number {number} stands in no source"
    for page, languages in SHOWN.items():
        shown = {language for language, _ in SAMPLE.findall(read(ROOT / page))}
        yield from (f"{page}: no sample in {language}" for language in languages.split() if language not in shown)


def make_targets():
    """Returns an expression for the targets of the Makefiles."""
    text = "".join(read(path) for path in [ROOT / "Makefile", *sorted(ROOT.glob("*/rules.mk"))])
    names = {name for line in re.findall(r"^([\w%+-][\w%+ -]*):(?!=)", text, re.M) for name in line.split()}
    return "|".join(re.escape(name).replace("%", ".+") for name in names)


# A run of make, and the words after it.
MAKE = r"(?:[A-Z_]+=\S+ )*make((?: -\w+| [A-Z_]+=[^\s`]+| [a-z][\w+/.-]*)+)"


def strange_words():
    """Yields each command, target and function that a page calls, and each file of definitions, that is not there."""
    commands = re.search("words='(keygen [a-z ]*)'", read(ROOT / "crates/hunkravy/manual/bash"))[1].replace(" ", "|")
    # `hunkravy v1` is the context of sealed files.
    known = (rf"hunkravy ({commands}|--\w+|v1)", rf"make ({make_targets()}|out/\S+)")
    for page in PAGES:
        shell = "".join(sample for language, sample in SAMPLE.findall(read(page)) if language == "sh")
        words = re.findall(r"^(?:\S*/)?(hunkravy \S+)", shell, re.M) + re.findall(r"`(hunkravy [\w-]+)(?: [^`]*)?`", read(page))
        made = re.findall(rf"(?:^|&& |; |\(){MAKE}", shell, re.M) + re.findall(rf"`{MAKE}", read(page))
        words += [f"make {word}" for targets in made for word in targets.split() if word[0].islower()]
        yield from (f"{page}: there is no {word}" for word in words if not any(re.fullmatch(each, word) for each in known))
        files = re.findall(r"\b(\w+\.antt)\b", read(page))
        yield from (f"{page}: there is no {file}" for file in files if not any(ROOT.glob(f"crates/*/specs/{file}")))
    raf = joined(ROOT.glob("rust/src/raf/*.rs"))
    for language, sample in SAMPLE.findall(read(ROOT / "docs/RANDOM-ACCESS.md")):
        called = re.findall(r"(?:Raf::<\w+>::|Raf::|file\.)(\w+)\(", sample) if language == "text" else []
        yield from (f"docs/RANDOM-ACCESS.md: there is no function {name}" for name in called if f"pub fn {name}" not in raf)


# ---- The tables of contracts

TABLE = re.compile(r"(?:^\|.*\n)+", re.M)
CODE = re.compile(r"`([^`]+)`")
DEFINED = re.compile(r"^(?:(?:pub|record|data|abbrev|unfoldable) )+(\w+)", re.M)
GHOST = re.compile(r"\bghost (\w+) =")


def rows(page):
    """Yields the rows of the tables of a page, each as its cells by their headings."""
    for table in TABLE.findall(read(page)):
        head, _, *lines = [[cell.strip() for cell in line.strip("|\n").split(" | ")] for line in table.splitlines(True)]
        yield from (dict(zip(map(str.strip, head), line)) for line in lines)


def words(cell):
    """Returns the names in the code of a cell: of a path the last one, and of a call the function."""
    names = (re.fullmatch(r"(?:\w+::)*(\w+)(?:\(.*\))?", code.strip()) for code in CODE.findall(cell))
    return [name[1] for name in names if name]


def definitions(file="*.antt"):
    """Returns the names of the definitions in files of this name, or in all."""
    return {name for path in ROOT.glob(f"crates/*/specs/**/{file}") for name in DEFINED.findall(read(path))}


def strange_contracts():
    """Yields each function, clause and definition of a table that is not there."""
    contracts = {}
    for function in (function for path in SOURCES for function in mutants.functions(path)):
        contracts.setdefault(function.name, set()).update(mutants.names_in(function.contract))
    in_c = set(re.findall(r"hunkravy(_\w+)\(", joined(HEADERS)))
    sources = joined(SOURCES)
    others = set(re.findall(r"\b(?:struct|enum|trait|type|mod|derive\() ?(\w+)|impl(?:<.*?>)? (\w+)", sources))
    named = in_c.union(contracts, {path.parts[1] for path in SOURCES}, *others)
    known = definitions().union(GHOST.findall(sources), *mutants.fields().values())
    clauses = {name for path in SOURCES for name in mutants.clauses_of(read(path))}
    for page in [page for page in PAGES if page.parts[0] in ("crates", "docs")]:
        for row in rows(page):
            clause = row.get("Clause", "")
            functions, laws = words(row.get("Function", row.get("Call", ""))), words(" ".join(re.findall(r"`\w+::\w+`", clause)))
            said = [] if clause.startswith("those of") else [name for name in words(clause) if name not in laws]
            yield from (f"{page}: there is no function {name}" for name in functions + laws if name not in named)
            there = set().union(*(contracts.get(name, ()) for name in functions))
            yield from (f"{page}: no contract of {functions} has {name}" for name in said if name not in (there or clauses) | known)
            there = {name for file in CODE.findall(row.get("File", "")) for name in definitions(file)}
            yield from (f"{page}: no definition {name} there" for name in words(row.get("Definition", "")) if name not in there)


# What pages state of the tables of bench/ and of the constants of the headers.
SPEED = (
    "libsodium's AEGIS is {slowest:.0f} to {fastest:.0f} times as fast",
    "AEGIS-256 encrypts 1 MiB at {speed:,} MB/s, and libsodium's AEGIS-256 without AES instructions at {software} MB/s",
)
STATED = {
    "README.md": SPEED,
    "rust/README.md": SPEED[:1],
    "python/README.md": SPEED[:1],
    "docs/FORMATS.md": (
        "nonce: {AEGIS128_NONCE_BYTES} for AEGIS-128L, 128X2 and 128X4, and {AEGIS256_NONCE_BYTES} for AEGIS-256, 256X2",
        "| 4 | the page size, from {PAGE_MIN_SIZE} to {PAGE_MAX_SIZE:,} bytes |",
        "| {PAGE_ID_BYTES} | the file's ID |",
        "| {PAGE_TAG_BYTES} | the tag |",
        "A file has at least its first {PAGE_HEADER_BLOCK_BYTES} bytes |",
        "| from {PAGE_FIRST:,} on | the pages: each a nonce, the ciphertext of the page size, and a tag of {PAGE_TAG_BYTES} bytes",
        "{most_contents:,} bytes of contents and a nonce of {AEGIS256_NONCE_BYTES}, or with {contents:,} and",
        "| {JOURNAL_NONCE_BYTES} | a nonce |",
        "| {JOURNAL_MAC_BYTES}, at the end | the MAC",
        "The first {JOURNAL_BEGINNING_BYTES} bytes are not authenticated",
    ),
}


def numbers():
    """Returns the numbers of the tables of bench/ and of the headers, by their names."""
    ratios, rows = [], {}
    for table in ("bench/PEERS.md", "bench/x86-64-v3/PEERS.md"):
        lines = re.findall(r"^\| ([^|]+) \| ([\d |]+\d) \|$", read(ROOT / table), re.M)
        rows = {name: list(map(int, numbers.split("|"))) for name, numbers in lines}
        for name in ("AEGIS-128L", "AEGIS-256"):
            ratios += [peer / own for peer, own in zip(rows[f"libsodium {name}, AES instructions"], rows[name])]
    text = "".join(map(read, HEADERS))
    found = {name: int(value) for name, value in re.findall(r"^#define HUNKRAVY_(\w+) (\d+)$", text, re.M)}
    block = found["PAGE_FIRST"] - found["PAGE_TAG_BYTES"]
    found |= {"most_contents": block - found["AEGIS256_NONCE_BYTES"], "contents": block - found["AEGIS128_NONCE_BYTES"]}
    software, speed = rows["libsodium AEGIS-256, software"][-1], rows["AEGIS-256"][-1]
    return found | {"slowest": min(ratios), "fastest": max(ratios), "software": software, "speed": speed}


def strange_numbers():
    """Yields each statement that a page does not have with the right numbers."""
    values = numbers()
    for page, statements in STATED.items():
        text = joined([ROOT / page])
        right = (statement.format(**values) for statement in statements)
        yield from (f"{page}: it does not have: {statement}" for statement in right if statement not in text)


def anchors(page):
    """Returns the fragments that lead to the headings of a page."""
    headings = re.findall(r"^#+ (.*)$", read(page), re.M)
    return {re.sub(r"[^\w\- ]", "", heading.lower()).replace(" ", "-") for heading in headings}


def dead_links():
    """Yields each link to a file or a heading that is not there."""
    for page in PAGES:
        for link in LINK.findall(read(page)):
            path, _, fragment = link.partition("#")
            if re.match(r"[a-z]+:", path):
                continue
            target = page.parent / path if path else page
            if not target.exists():
                yield f"{page}: it links to {link}, which is not there"
            elif fragment and target.suffix == ".md" and fragment not in anchors(target):
                yield f"{page}: it links to {link}, a heading that is not there"


def unnamed_modules():
    """Yields each source that no `mod` item names, which is then neither proved nor run."""
    rust = [path for folder in ("src", "tests/raf", "tests/sealed") for path in sorted(ROOT.glob(f"rust/{folder}/**/*.rs"))]
    for path in [*SOURCES, *rust]:
        roots = [path.with_name(f"{root}{path.suffix}") for root in ("lib", "main")]
        above = [root for root in roots if root.exists()] or [path.parent.with_suffix(path.suffix)]
        named = [re.search(rf"^(pub )?mod {path.stem};", read(source), re.M) for source in above]
        if path not in roots and not any(named):
            yield f"{path}: no `mod` item names it"


def long_lines(path):
    """Yields the place of each line that is too long."""
    inside = False
    for number, line in enumerate(read(path).splitlines(), 1):
        inside = path.suffix == ".rt" and (inside or CLAUSE.match(line) is not None)
        most = 100 if inside else 120
        if len(line) > most and not MAY_BE_LONG.match(line):
            yield f"{path}:{number}: {len(line)} columns"
        if line.rstrip().endswith(("}", "};", "{")):
            inside = False


# Each file that has the version, and how it has it.
VERSIONED = {
    "CHANGELOG.md": "## [{0}] - ",
    "c/include/hunkravy.h": '#define HUNKRAVY_VERSION "{0}"\n#define HUNKRAVY_VERSION_MAJOR {1}\n'
    "#define HUNKRAVY_VERSION_MINOR {2}\n#define HUNKRAVY_VERSION_PATCH {3}\n",
    "crates/aegis_tool/src/lib.rt": 'const VERSION: &str = "{0}";',
    "crates/hunkravy/manual/man": '"hunkravy {0}"',
    "rust/Cargo.toml": 'version = "{0}"\n',
    "rust/Cargo.lock": 'name = "hunkravy"\nversion = "{0}"\n',
    "README.md": "hunkravy-{0}-x86_64-linux",
    "c/README.md": "hunkravy-{0}-$(uname -m)-linux",
    "rust/README.md": "hunkravy-{0}-x86_64-linux",
    "python/README.md": "hunkravy-{0}.tar.gz",
    "CONTRIBUTING.md": "hunkravy-{0}.tar.gz",
}


def strange_versions():
    """Yields each file that has another version than VERSION."""
    version = read(ROOT / "VERSION").strip()
    for path, text in VERSIONED.items():
        if (wanted := text.format(version, *version.split("."))) not in read(ROOT / path):
            yield f"{path}: it does not have: {wanted}"


def faults():
    """Returns what is wrong with the pages."""
    found = list(dead_links())
    if sys.argv[1:] != ["links"]:
        found += [*strange_samples(), *strange_words(), *strange_contracts(), *strange_numbers(), *strange_versions(), *unnamed_modules()]
        found += [place for path in [*SOURCES, *PAGES] for place in long_lines(path)]
    return found


if __name__ == "__main__":
    sys.exit("\n".join(faults()) or None)
