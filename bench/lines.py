#!/usr/bin/env python3
"""Measures how fast stamped lines are read, beside the time of serde_json alone, and how fast
receipts are read and spelled as bytes.

    bench/lines.py [COUNT ..]      COUNT lines each time; 50000, 100000 and 200000 where none is given

The lines take turns through all kinds of items. The times grow with the number of lines where
reading is linear.
"""

import pathlib
import subprocess
import sys

ROOT = pathlib.Path(__file__).resolve().parent.parent
sys.path.insert(0, str(ROOT / "scripts"))

import wrong_lines  # noqa: E402

PROGRAM = ROOT / "crates" / "read_lines" / "out" / "read_lines"


def lines(count):
    kinds = list(wrong_lines.stamped_lines())
    for number in range(count):
        yield wrong_lines.compact({**kinds[number % len(kinds)], "reference": number})


def main():
    counts = [int(word) for word in sys.argv[1:]] or [50000, 100000, 200000]
    if not PROGRAM.exists():
        subprocess.run(["rt", "run"], cwd=ROOT / "crates" / "read_lines", input=b"", check=True)
    for count in counts:
        text = "".join(line + "\n" for line in lines(count))
        subprocess.run([str(PROGRAM), "time"], input=text.encode(), check=True)


if __name__ == "__main__":
    main()
