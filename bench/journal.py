#!/usr/bin/env python3
"""Measures how fast frames are appended to a journal in memory, and how fast it is opened again.

    bench/journal.py

Three journals of bodies of 100 bytes, the last one with as many as an office has receipts, and
three of bodies of 1,024 bytes, the last one nearly the longest file. The times grow with the
journal where both are linear.
"""

import pathlib
import subprocess

ROOT = pathlib.Path(__file__).resolve().parent.parent
PROGRAM = ROOT / "crates" / "fill_journal" / "out" / "fill_journal"

JOURNALS = [(50_000, 100), (100_000, 100), (200_000, 100), (32_500, 1024), (65_000, 1024), (130_000, 1024)]


def main():
    if not PROGRAM.exists():
        subprocess.run(["rt", "run", "--", "1", "1"], cwd=ROOT / "crates" / "fill_journal", check=True)
    for count, size in JOURNALS:
        subprocess.run([str(PROGRAM), str(count), str(size), "time"], check=True)


if __name__ == "__main__":
    main()
