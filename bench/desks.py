#!/usr/bin/env python3
"""Measures `settle` from a journal's file at several desks: seconds and greatest memory.

desks.py [--peer PEER] [--lines FILE] [--desks N,N,..] [--times N] [--longest SECONDS] [SHAPE=N ..]

The journal is that of the lines of FILE, or of each shape of generate.py with so many lines. PEER is
another program that takes `settle --desks 1` in the journal's folder; it is measured in the same run.
Each is run so many times, and the fastest counts. What all write is compared.
"""

import argparse
import hashlib
import pathlib
import shutil
import subprocess
import sys
import tempfile

import hostile

DESKS = "1,2,4"
TIMES = 3


def fastest(program, desks, folder, times, longest):
    """The fastest of so many runs, and the sum of what it wrote."""
    best = None
    text = folder / "text"
    for _ in range(times):
        with text.open("wb") as sink:
            said = hostile.run(program, desks, [], longest, cwd=folder, stdin=subprocess.DEVNULL, stdout=sink)
        if said is None:
            return None, None
        best = min(best or said, said)
    with text.open("rb") as file:
        return best, hashlib.file_digest(file, "sha256").hexdigest()


def measure(name, given, folder):
    hostile.make_journal(folder / "lines", folder)
    runs = [(f"{desks} desks", hostile.PROGRAM, desks) for desks in given.desks.split(",")]
    if given.peer:
        runs.append(("the peer", given.peer, 1))
    wrote = []
    for what, program, desks in runs:
        said, text = fastest(program, desks, folder, given.times, given.longest)
        wrote.append(text)
        print(f"{name}: {what}: {hostile.shown(said, given.longest)}", flush=True)
    print(f"{name}: " + ("all wrote the same text" if len(set(wrote)) == 1 and None not in wrote else "NOT the same text"), flush=True)


def main():
    words = argparse.ArgumentParser(description=__doc__, formatter_class=argparse.RawDescriptionHelpFormatter)
    words.add_argument("--peer")
    words.add_argument("--lines")
    words.add_argument("--desks", default=DESKS)
    words.add_argument("--times", type=int, default=TIMES)
    words.add_argument("--longest", type=int, default=hostile.LONGEST)
    words.add_argument("shapes", nargs="*")
    given = words.parse_args()
    with tempfile.TemporaryDirectory() as place:
        folder = pathlib.Path(place)
        if given.lines:
            shutil.copy(given.lines, folder / "lines")
            measure(given.lines, given, folder)
        for wanted in given.shapes:
            shape, size = wanted.split("=")
            with (folder / "lines").open("wb") as file:
                subprocess.run([sys.executable, hostile.GENERATOR, shape, size], stdout=file, check=True)
            measure(wanted, given, folder)


if __name__ == "__main__":
    main()
