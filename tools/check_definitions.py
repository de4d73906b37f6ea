"""docs/ARCHITECTURE.md lists each file with a definition that a public contract reaches, and no other, each after those that
it uses, with its number of lines; README.md has their sums. In these files a public contract reaches each definition: what
only bodies and proofs use is in `Private.antt`. No definition takes a number from the code: none imports a constant. A
number of the formats stands in the definition that names it, and nowhere else. No two files define one name, and no source
or proof imports a name that its file lacks."""

import pathlib
import re
import sys

CRATES = pathlib.Path("crates")
PAGE = pathlib.Path("docs/ARCHITECTURE.md")

# The sources whose public functions and types users name, by their folders.
PUBLIC = {
    "aegis/src": "laws",
    "aegis/src/record": "laws length migration open position seal version record_opener record_opener/in_place record_sealer "
    "record_sealer/in_place",
    "aegis_aes/src": "block block2 block4",
    "aegis_base/src": "chunks laws",
    "aegis_c/src": "journal message page record state steps",
    "aegis_engine/src": "cipher encryptor decryptor mac",
    "aegis_files/src": "laws open range reading rekey seal",
    "aegis_lines/src": "answer",
    "aegis_pages/src": "draws header laws layout opening page pages",
    "aegis_session/src": "session",
    "aegis_storage/src": "atomic laws recovery steps store",
    "aegis_variants/src": "cipher variant",
}

# The contracts of a public function or of a trait, and the views and laws of a type; `inverse_ok` is a proof.
CONTRACTS = re.compile(
    r"^ *pub (?:extern \"C\" )?fn .*?^(?![^\n]*(?:ensures|requires))[^\n]*\{\}?$|^pub trait .*?^\}|^ *ghost (?!inverse_ok)\w+ = \{.*?\};$",
    re.M | re.S,
)
DEFINITION = re.compile(r"^(?: *(?:abbrev|unfoldable) pub|pub(?: record| data)?) (\S+).*?(?=^\s*$|\Z)", re.M | re.S)
IMPORT = re.compile(r"^ *(?:ghost |pub )*use Rattle\.(\w+)\.specs\.(\w+)(?:\.\{([^}]*)\}| as (\w+)|);?$", re.M)
PATH = re.compile(r"\bcrate::specs::(\w+)::(\w+)")
CONSTANTS = re.compile(r"^ *(?:pub )?use Rattle\.[\w.]+\.specs\.declared\.(?:\w+\.)*TheConstants\b", re.M)
NUMBERS = re.compile(r"(?<![\w^])(?:24|32|33|37|512|528|560)(?!\w)")
ROW = re.compile(r"^\|[^|]*\| `(\w+)/specs/(\w+)\.antt` \| *(\d+) \|", re.M)


def without_comments(text):
    return re.sub(r"(?:^|(?<=\s))(?:--|///).*", "", text, flags=re.M)


def words(text):
    return set(re.split(r"[\s(){}\[\],;.]+", without_comments(text)))


class File:
    """A file of definitions."""

    def __init__(self, path):
        self.path, self.text = path, path.read_text("utf-8")
        self.definitions = {found[1]: found[0] for found in DEFINITION.finditer(self.text)}
        self.words = words(self.text)

    def __str__(self):
        return str(self.path)


FILES = {path: File(path) for path in sorted(CRATES.glob("*/specs/*.antt")) if path.name != "Lib.antt"}


def imports(text):
    """Yields each file of definitions that a text imports, with the names that it takes from there; none for all."""
    for crate, module, names, alias in IMPORT.findall(text):
        if file := FILES.get(CRATES / crate / "specs" / f"{module}.antt"):
            yield file, set(re.split(r",\s*", names)) if names else None, alias or module


def cited(source, text):
    """Yields each definition that a part of a source cites by its imports."""
    found = words(text)
    for file, names, alias in imports(source):
        if names is None:
            names = set(re.findall(rf"\b{alias}\.([^\s(){{}}\[\],;.]+)", text))
            yield from ((file, name) for name in names)
        else:
            yield from ((file, name) for name in names & found)


def reached():
    """Returns the definitions that the public contracts cite, and all that these use."""
    found, left = set(), []
    for source in (CRATES / folder / f"{name}.rt" for folder, names in PUBLIC.items() for name in names.split()):
        text = source.read_text("utf-8")
        left += cited(text, "\n".join(contract[0] for contract in CONTRACTS.finditer(text)))
    while left:
        if (cite := left.pop()) not in found:
            found.add(cite)
            file, name = cite
            text = file.definitions.get(name, "")
            left += cited(file.text, text)
            left += ((file, other) for other in file.definitions.keys() & words(text))
    return found


def sum_faults(page):
    """Yields each sum of lines that README.md lacks."""
    readme = " ".join(pathlib.Path("README.md").read_text("utf-8").split())
    for part, sentence in (page, "is {:,} lines"), (page.partition("**Chunks")[0], "in {:,} lines"):
        sentence = sentence.format(sum(int(lines) for _, _, lines in ROW.findall(part)))
        if sentence not in readme:
            yield f"README.md lacks: {sentence}"


def list_faults(page, wanted):
    """Yields what is wrong with the list of files."""
    listed = set()
    for crate, module, lines in ROW.findall(page):
        file = FILES.get(CRATES / crate / "specs" / f"{module}.antt")
        if file not in wanted:
            yield f"no public contract reaches {crate}/specs/{module}.antt"
            continue
        if later := {used for used, _, _ in imports(file.text)} & wanted - listed - {file}:
            yield f"{file} stands before {', '.join(sorted(map(str, later)))}, which it uses"
        if int(lines) != (found := file.text.count("\n")):
            yield f"{file} has {found} lines, not {lines}"
        listed.add(file)
    yield from (f"{file} is missing" for file in sorted(map(str, wanted - listed)))


def definition_faults(cites, wanted):
    """Yields each definition of the listed files that no public contract reaches, and each number without its name."""
    for file in wanted:
        yield from (f"{file}: no public contract reaches {name}" for name in file.definitions if (file, name) not in cites)
        for name, text in file.definitions.items():
            if NUMBERS.search(re.sub(rf"^ *{re.escape(name)}\b.* = [\d_]+$|\"\d+\"", "", without_comments(text), flags=re.M)):
                yield f"{file}: {name} has a number of the formats, which has a name"
    yield from (f"{file} imports a constant of the code" for file in FILES.values() if CONSTANTS.search(file.text))


def name_faults():
    """Yields each name that two files define. `lane` is one thing in both families."""
    places = {}
    for file in FILES.values():
        for name in file.definitions.keys() - {"lane"}:
            places.setdefault(name, []).append(str(file))
    yield from (f"{' and '.join(files)} define {name}" for name, files in places.items() if len(files) > 1)


def import_faults():
    """Yields each name that a source, a definition or a proof takes from a file of definitions that has no such word."""
    for path in sorted([*CRATES.glob("*/src/**/*.rt"), *CRATES.glob("*/specs/*.antt"), *CRATES.glob("*/proofs/**/*.antt")]):
        text, own = path.read_text("utf-8"), CRATES / path.parts[1] / "specs"
        taken = [(file, name.split()[0]) for file, names, _ in imports(text) for name in names or () if name.strip()]
        taken += [(FILES.get(own / f"{module}.antt"), name) for module, name in PATH.findall(text)]
        yield from (f"{path}: {file} has no {name}" for file, name in taken if file and name not in file.words)


def faults():
    page, cites = PAGE.read_text("utf-8"), reached()
    wanted = {file for file, _ in cites}
    yield from sum_faults(page)
    yield from list_faults(page, wanted)
    yield from definition_faults(cites, wanted)
    yield from name_faults()
    yield from import_faults()


sys.exit("\n".join(f"{PAGE}: {fault}" for fault in faults()) or None)
