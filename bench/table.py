"""Writes the table of a page in bench/: PROGRAM | table.py PAGE

PROGRAM writes a line for each turn, with tabs between: the row, the column, seconds, and bytes. A cell has the shortest
time of its turns: as MB/s, or in seconds if there are no bytes. A line without tabs comes after the table. The text of
the page, up to the line on the processor, stays.
"""

import re
import sys
import textwrap
from datetime import date
from pathlib import Path

# The flags of instructions on vectors or for ciphers.
FLAGS = re.compile(r"v?aes|avx.*|s?sse.*|v?pclmul.*|bmi.*|sha_ni|gfni")


def processor() -> str:
    """The line on the processor and the day."""
    fields = dict(re.findall(r"^(model name|cpu MHz|flags)\s*: (.*)$", Path("/proc/cpuinfo").read_text(), re.M))
    flags = " ".join(filter(FLAGS.fullmatch, fields["flags"].split()))
    line = f"Processor: {fields['model name']}, {float(fields['cpu MHz']):.0f} MHz, with {flags}."
    return textwrap.fill(f"{line} Measured on {date.today()}.", 120, break_on_hyphens=False)


def cell(turns: list[tuple[float, int]]) -> str:
    """What the shortest of some turns shows."""
    seconds, size = min(turns, default=(0.0, 0))
    return f"{size / seconds / 1e6:.0f}" if size else f"{seconds:.2f}" if turns else ""


def table(lines: list[str], title: str) -> str:
    """The table of all turns, under the titles of its columns."""
    cells: dict[str, dict[str, list[tuple[float, int]]]] = {}
    for row, column, seconds, size in (line.split("\t") for line in lines):
        cells.setdefault(row, {}).setdefault(column, []).append((float(seconds), int(size)))
    columns = list(dict.fromkeys(column for row in cells.values() for column in row))
    rows = [[row, *(cell(turns.get(column, [])) for column in columns)] for row, turns in cells.items()]
    width = title.count("|") + 1
    rule = "|" + "---|" * width + "---:|" * len(columns)
    return "\n".join([f"| {' | '.join([title, *columns])} |", rule, *(f"| {' | '.join(row)} |" for row in rows)])


def main(page: str) -> None:
    """Writes the page, with the titles of the rows that its table has."""
    beginning, _, old = Path(page).read_text().partition("\nProcessor: ")
    lines = sys.stdin.read().splitlines()
    turns, notes = [line for line in lines if "\t" in line], [line for line in lines if line and "\t" not in line]
    width = turns[0].split("\t")[0].count("|") + 1
    title = " | ".join(old.partition("\n| ")[2].split(" | ")[:width])
    Path(page).write_text("\n\n".join([beginning + "\n" + processor(), table(turns, title), *notes]) + "\n")


if __name__ == "__main__":
    main(*sys.argv[1:])
