#!/usr/bin/env python3
"""Measures how fast requests are read of a link in memory, beside the time that reading and keeping
their bytes alone takes.

    bench/requests.py

Heads and bodies come one byte a read, the longest that are taken last; many requests come in one
link, 4,096 bytes a read. The times grow with the bytes where reading is linear.
"""

import pathlib
import subprocess

ROOT = pathlib.Path(__file__).resolve().parent.parent
PROGRAM = ROOT / "crates" / "read_requests" / "out" / "read_requests"

LINKS = [
    ("head", (2048, 4096, 8192)),
    ("body", (16_384, 32_768, 65_536)),
    ("requests", (2500, 5000, 10_000)),
]


def main():
    if not PROGRAM.exists():
        subprocess.run(["rt", "run", "--", "requests", "1"], cwd=ROOT / "crates" / "read_requests", check=True)
    for kind, numbers in LINKS:
        for number in numbers:
            print(kind, number, flush=True)
            subprocess.run([str(PROGRAM), kind, str(number), "time"], check=True)


if __name__ == "__main__":
    main()
