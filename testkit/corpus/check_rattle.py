#!/usr/bin/env python3
"""check_rattle.py PAGES LINES: reads the corpus with the programs of crates/aegis_corpus and crates/aegis_vectors."""

import pathlib
import re
import subprocess
import sys
from typing import Callable

CORPUS = pathlib.Path(__file__).parent
Case = dict[str, str]
# What an answer begins with, for each error.
PAGES = {
    "header": "no header for this variant and key",
    "journal": "the journal does not belong to this file",
    "damaged": "page {} is damaged",
    "missing": "reading: unexpected end of file",
}
RECORDS = {"damaged": "refused damaged {}"}


def digits(field: str) -> str:
    """The digits of a field. A run of zeros is its length in parentheses."""
    return re.sub(r"\((\d+)\)", lambda run: "00" * int(run[1]), field)


def cases(name: str) -> list[Case]:
    texts = (CORPUS / f"{name}.txt").read_text().split("\n\n")
    return [dict(line.split(": ", 1) for line in text.splitlines()) for text in texts]


def line_of_pages(case: Case) -> str:
    fields = [case["variant"], *(digits(case[name]).replace("-", "") for name in ("key", "file", "journal"))]
    return " ".join(fields)


def answer_of_pages(case: Case) -> str:
    word, rest = case["result"].split()[0], case["result"].split()[-1]
    if word == "ok":
        return f"ok {digits(rest).replace('-', '')} {case['commitment']}"
    return PAGES[word].format(rest)


def line_of_records(case: Case) -> str:
    return " ".join(["openrec", *(digits(case[name]) for name in ("key", "prefix", "context", "stream"))])


def answer_of_records(case: Case) -> str:
    word, *rest = case["result"].split()
    if word == "ok":
        return f"ok {','.join(map(digits, rest))}"
    return RECORDS.get(word, f"refused {word.replace('-', ' ')}").format(*rest)


def check(program: str, found: list[Case], line: Callable[[Case], str], expected: Callable[[Case], str]) -> int:
    """Gives the program a line for each case, and compares its answers. Returns how many differ."""
    text = "\n".join(map(line, found))
    run = subprocess.run([program], input=text, stdout=subprocess.PIPE, text=True, check=False)
    answers = run.stdout.splitlines()
    is_right = [re.fullmatch(f"{re.escape(expected(case))}([ :].*)?", answer) for case, answer in zip(found, answers)]
    wrong = [case["case"] for case, right in zip(found, is_right) if not right]
    print(f"{program}: {len(answers)} of {len(found)} cases, {len(wrong)} differ", *wrong, sep="\n  ")
    return len(wrong) + abs(len(found) - len(answers))


def main(pages: str, lines: str) -> int:
    wrong = check(pages, cases("random-access"), line_of_pages, answer_of_pages)
    wrong += check(lines, cases("records"), line_of_records, answer_of_records)
    return 1 if wrong else 0


sys.exit(main(*sys.argv[1:]))
