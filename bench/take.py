#!/usr/bin/env python3
"""Measures `take` of the built program over the real file, beside SQLite on the same disk.

take.py [N ..]     N lines each time (1,000 and 10,000 where none is given)

SQLite, by the library that python has, gets one row in one transaction a receipt, in WAL mode with
`synchronous=FULL`: one sync a transaction, where the journal's file has two a receipt. The ratio is
the program's time by SQLite's. The last line takes as many lines in a folder in memory, where
syncs cost nothing, so that what grows with the journal would be seen.
"""

import json
import pathlib
import sqlite3
import subprocess
import sys
import tempfile
import time

ROOT = pathlib.Path(__file__).resolve().parent.parent
PROGRAM = ROOT / "crates" / "grundbuch" / "out" / "grundbuch"


def line(number):
    act = {"act": "open", "folio": number, "district": 1, "parcel": number, "sub": 0, "area": 500, "owners": [10]}
    consent = {"doc": "consent", "act": 1, "person": 10, "form": "certified"}
    item = {"kind": "filing", "applicant": 10, "conditional": False, "acts": [act], "docs": [consent]}
    return json.dumps({"sender": 1, "reference": number, "item": item}, separators=(",", ":"))


def take(lines, folder):
    """Seconds that the program takes to receive these lines."""
    start = time.monotonic()
    ran = subprocess.run([PROGRAM, "take"], cwd=folder, input=lines, stdout=subprocess.PIPE, check=True)
    if ran.stdout.count(b"accepted") != lines.count(b"\n"):
        sys.exit("a line was not accepted")
    return time.monotonic() - start


def sqlite(lines, folder):
    """Seconds that SQLite takes to keep them, one transaction each."""
    base = sqlite3.connect(f"{folder}/receipts.db", isolation_level=None)
    base.execute("pragma journal_mode=wal")
    base.execute("pragma synchronous=full")
    base.execute("create table receipts (number integer primary key, sender, reference, item, unique (sender, reference))")
    start = time.monotonic()
    for text in lines.splitlines():
        said = json.loads(text)
        base.execute("insert into receipts (sender, reference, item) values (?, ?, ?)", (said["sender"], said["reference"], text))
    return time.monotonic() - start


def main():
    for count in [int(word) for word in sys.argv[1:]] or [1_000, 10_000]:
        lines = "".join(line(number) + "\n" for number in range(1, count + 1)).encode()
        with tempfile.TemporaryDirectory(dir=ROOT) as folder:
            ours, theirs = take(lines, folder), sqlite(lines, folder)
        print(f"{count} receipts: take {ours:.2f} s, {count / ours:.0f} a second; SQLite {theirs:.2f} s; ratio {ours / theirs:.2f}")
        if pathlib.Path("/dev/shm").is_dir():
            with tempfile.TemporaryDirectory(dir="/dev/shm") as folder:
                ours = take(lines, folder)
            print(f"{count} receipts in memory: take {ours:.2f} s, {count / ours:.0f} a second")


if __name__ == "__main__":
    main()
