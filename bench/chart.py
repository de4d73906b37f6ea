"""Draws the 1 MiB column of bench/x86-64-v3/PEERS.md as bars: chart.py PAGE PICTURE. It needs Debian's python3-matplotlib."""

import re
import sys
from pathlib import Path

import matplotlib
from matplotlib import pyplot

OURS, OTHERS = "#3b7dd8", "#8a8f98"
# A grey that can be read on white and on black, and the right end of the axis. A longer bar is broken there.
WORDS, END = "#808080", 2600
# The rows of the table, from the top, and what each is called in the picture.
ROWS = {
    "AEGIS-128L": "Hunkravy AEGIS-128L",
    "AEGIS-256": "Hunkravy AEGIS-256",
    "libsodium ChaCha20-Poly1305": "libsodium ChaCha20-Poly1305",
    "libsodium AEGIS-256, software": "libsodium AEGIS-256, no AES instructions",
    "libsodium AES-256-GCM, AES instructions": "libsodium AES-256-GCM, AES instructions",
    "libsodium AEGIS-256, AES instructions": "libsodium AEGIS-256, AES instructions",
}


def speeds(page: str) -> dict[str, int]:
    """The last number of each row of the table."""
    found = re.findall(r"^\| ([^|]+) \|[\d |]*\| (\d+) \|$", Path(page).read_text(), re.M)
    return {name: int(speed) for name, speed in found}


def draw(page: str, picture: str) -> None:
    found = speeds(page)
    figure, axes = pyplot.subplots(figsize=(8.4, 2.9))
    for place, (row, name) in enumerate(ROWS.items()):
        speed = found[row]
        bars = axes.barh(place, min(speed, END), height=0.62, color=OURS if name.startswith("Hunkravy") else OTHERS)
        label = f" {speed:,} MB/s" if speed <= END else f" // {speed:,} MB/s"
        axes.bar_label(bars, labels=[label], color=WORDS, fontsize=10)
    axes.set_yticks(range(len(ROWS)), ROWS.values(), color=WORDS, fontsize=10)
    axes.set_title("Encrypting 1 MiB on one core at x86-64-v3. Hunkravy uses no AES instructions", color=WORDS, fontsize=11, loc="right")
    axes.set_xlim(0, END * 1.2)
    axes.xaxis.set_visible(False)
    axes.invert_yaxis()
    axes.spines[:].set_visible(False)
    axes.tick_params(length=0)
    figure.savefig(picture, transparent=True, bbox_inches="tight", metadata={"Date": None, "Title": "Encryption speed"})


matplotlib.rcParams["svg.hashsalt"] = "hunkravy"
matplotlib.rcParams["svg.fonttype"] = "none"
matplotlib.rcParams["font.family"] = "sans-serif"
draw(*sys.argv[1:])
