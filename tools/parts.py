#!/usr/bin/env python3
"""What is linked into a file of a release: parts.py FOLDER CRATE.. writes it for builds of these crates.

FOLDER/NOTICES has the licences of Rattle's libraries below the crates, as they lie in the kit, with the comments of their
sources that name one. FOLDER/parts.spdx.json lists all parts, in SPDX 2.3.
"""
import datetime
import json
import os
import pathlib
import re
import sys
import uuid

from proved import KIT, below, listed

KIT_SOURCES, RLIBS = pathlib.Path(KIT, "rattle"), pathlib.Path(KIT, "rlibs")
VERSION = pathlib.Path("VERSION").read_text("ascii").strip()
# The licences that comments of Rattle's sources name, in SPDX's words.
NAMED = {"MIT licence": "MIT", "Unicode License": "Unicode-3.0", "Unlicense": "Unlicense"}
RATTLE = {"licenseId": "LicenseRef-Rattle", "extractedText": "Rattle's kit has no notice for its own libraries."}
# What the linker adds, whose licences allow it in any program.
LINKS = "The files that start and end a program or a shared library. A static library has none of them."
LINKED = {"glibc": "LGPL-2.1-or-later", "gcc": "GPL-3.0-or-later WITH GCC-exception-3.1"}


def kit_libraries(crates):
    """Returns the kit's libraries below crates, in order."""
    rows, found = listed()[0], set()
    own = set(crates).union(*(below(rows, crate) for crate in crates))
    more = {"std"}.union(*(rows[crate] for crate in own)) - set(rows)
    while more:
        found |= more
        texts = (RLIBS.joinpath(f"{name}.rlib/format").read_text("utf-8") for name in more)
        more = {name for text in texts for name in re.findall(r"^dep (\w+)$", text, re.M)} - found
    return sorted(found)


def comments(name):
    """Yields the comments of a library's sources that name a licence."""
    for path in sorted(KIT_SOURCES.glob(f"{name}/src/**/*.rt")):
        for block in re.findall(r"(?:^ *//.*\n)+", path.read_text("utf-8"), re.M):
            if re.search(r"\blicen[cs]e|copyright|unlicense", block, re.I):
                yield re.sub(r"^ *//[/!]? ?", "", block, flags=re.M) + "\n"


def licences(name):
    """Returns the texts of a library's licences. Of two that one may choose from, that of MIT is taken."""
    files = sorted(KIT_SOURCES.glob(f"{name}/LICENSE*"))
    named = "".join(comments(name))
    if "Unicode License" in named:
        files.append(KIT_SOURCES / "unicode/LICENSE-UNICODE")
    texts = [path.read_text("utf-8") for path in files if path.name != "LICENSE-APACHE"]
    return [text for text in [named, *texts] if text]


def notices(libraries):
    """Returns the text of NOTICES."""
    texts = {name: "\n".join(licences(name)) for name in libraries}
    plain = ", ".join(name for name, text in texts.items() if not text)
    head = f"Hunkravy {VERSION} is under the MIT licence, and contains these libraries of {kit_version()}.\n"
    parts = "".join(f"\n==== {name}\n\n{text}" for name, text in texts.items() if text)
    return f"{head}\nThe kit has no notice for {plain}. That of core covers only the parts that it names, by files of the kit.\n{parts}"


def kit_version():
    """Returns the name of the kit."""
    return pathlib.Path(KIT, "KIT-ID").read_text("ascii").split()[0]


def package(name, version, licence):
    """Returns the entry of a part."""
    fixed = {"downloadLocation": "NOASSERTION", "filesAnalyzed": False, "copyrightText": "NOASSERTION", "licenseConcluded": licence}
    return {"SPDXID": f"SPDXRef-{name.replace('_', '-')}", "name": name, "versionInfo": version, "licenseDeclared": licence, **fixed}


def declared(name):
    """Returns a library's licences: that of its file, or Rattle's own and those that its comments name."""
    if any(KIT_SOURCES.glob(f"{name}/LICENSE*")):
        return "MIT"
    named = "".join(comments(name))
    return " AND ".join([RATTLE["licenseId"], *(licence for words, licence in NAMED.items() if words in named)])


def document(crates, libraries):
    """Returns the list of parts."""
    moment = datetime.datetime.fromtimestamp(int(os.environ.get("SOURCE_DATE_EPOCH", "315532800")), datetime.timezone.utc)
    parts = [package("hunkravy", VERSION, "MIT"), *(package(name, kit_version(), declared(name)) for name in libraries)]
    parts += [package(name, "NOASSERTION", licence) | {"comment": LINKS} for name, licence in LINKED.items()]
    root, *others = [part["SPDXID"] for part in parts]
    links = [("SPDXRef-DOCUMENT", "DESCRIBES", root), *((root, "CONTAINS", other) for other in others)]
    name = f"hunkravy-{VERSION}-{'-'.join(crates)}"
    return {
        "spdxVersion": "SPDX-2.3",
        "dataLicense": "CC0-1.0",
        "SPDXID": "SPDXRef-DOCUMENT",
        "name": name,
        "documentNamespace": f"urn:uuid:{uuid.uuid5(uuid.NAMESPACE_OID, f'{name} {moment} {kit_version()}')}",
        "creationInfo": {"created": f"{moment:%Y-%m-%dT%H:%M:%SZ}", "creators": ["Tool: hunkravy-parts.py"]},
        "packages": parts,
        "hasExtractedLicensingInfos": [RATTLE],
        "relationships": [dict(zip(("spdxElementId", "relationshipType", "relatedSpdxElement"), link)) for link in links],
    }


if __name__ == "__main__":
    folder, crates = pathlib.Path(sys.argv[1]), sys.argv[2:]
    libraries = kit_libraries(crates)
    folder.mkdir(parents=True, exist_ok=True)
    folder.joinpath("NOTICES").write_text(notices(libraries), "utf-8")
    folder.joinpath("parts.spdx.json").write_text(json.dumps(document(crates, libraries), indent=1) + "\n", "utf-8")
