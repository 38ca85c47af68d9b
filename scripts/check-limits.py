#!/usr/bin/env python3
"""Tries at its full size what may run out of memory: a line of 65,536 bytes, 200,000 lines, 200,000 rows, a folio of 256 rights, and 20,000 receipts at several desks."""

import pathlib
import tempfile

import checks
from plain_lines import LONGEST_LINE, MOST_RECEIPTS

LINES = ["settle", "--desks", "1", "--lines"]
MOST_RIGHTS = 256
MANY_RECEIPTS = 20_000


def replies(word, count):
    return [f"{word} {number}" for number in range(1, count + 1)]


def check_line(look):
    """A line may have 65,536 bytes and no byte more."""
    for size, wanted in ((LONGEST_LINE, "accepted 1"), (LONGEST_LINE + 1, "malformed length")):
        line = checks.stamped(1).encode().ljust(size)
        status, said, _ = checks.run(LINES, input=line + b"\n")
        look.same(f"a line of {size} bytes", (status, said.split(b"\n")[0].decode()), (0, wanted))


def check_lines(look):
    """The journal in memory takes 200,000 receipts; a known number is answered also when it is full."""
    lapse = {"kind": "lapse", "filing": 1}
    numbers = [*range(1, MOST_RECEIPTS + 2), 7]
    line = {"day": "2024-03-01", "minute": 540, "sender": 1}
    lines = checks.text_of({**line, "reference": number, "item": lapse} for number in numbers)
    status, said, _ = checks.run(LINES, input=lines)
    text = said.decode().splitlines()
    look.same("200,001 lines: the status", status, 0)
    look.same("200,001 lines: the replies", text[: len(numbers)], [*replies("accepted", MOST_RECEIPTS), "full", "repeated 7"])
    look.same("200,001 lines: the end", text[-1], f"end receipts {MOST_RECEIPTS} folios 0")


def check_rows(look):
    """A list of 200,001 rows is read whole; its first 200,000 stand in the file already."""
    file, _ = checks.journal_of_openings(MOST_RECEIPTS)
    rows = "".join(f"{folio},1,{folio},0,500,10\n" for folio in range(1, MOST_RECEIPTS + 2))
    with tempfile.TemporaryDirectory() as folder:
        (pathlib.Path(folder) / checks.JOURNAL).write_bytes(file)
        opening = ["opening", "--sender", "1"]
        status, said, _ = checks.run(opening, folder, input=f"folio,district,parcel,sub,area,owner\n{rows}".encode())
        look.same("200,001 rows: the status", status, 0)
        look.same("200,001 rows: the replies", said.decode().splitlines(), [*replies("repeated", MOST_RECEIPTS), "full"])


def check_rights(look):
    """A folio takes 256 rights; each stands in its extract, its ranks and its cents."""
    acts = [checks.opening(7), *(checks.land_charge(7, 100_000 + number) for number in range(2, MOST_RIGHTS + 3))]
    lines = checks.text_of(checks.filing(number, act) for number, act in enumerate(acts, 1))
    status, said, _ = checks.run(LINES, input=lines)
    text = said.decode().splitlines()
    look.same("257 rights of a folio: the status", status, 0)
    for word, wanted in (("right ", MOST_RIGHTS), ("rank ", MOST_RIGHTS), ("cents ", MOST_RIGHTS)):
        look.same(f"257 rights of a folio: lines of {word.strip()}", sum(line.startswith(word) for line in text), wanted)
    verdicts = [line.split(" ", 2)[2] for line in text if line.startswith("receipt ")]
    look.same("257 rights of a folio: the last is beyond the limit", (verdicts.count("entered"), verdicts[-1][:8]), (MOST_RIGHTS + 1, "rejected"))


def check_desks(look):
    """A generated journal of 20,000 receipts is summed up alike at any number of desks."""
    sample = ["sample", "--seed", "7", "--size", str(MANY_RECEIPTS), "--desks"]
    status, alone, _ = checks.run([*sample, "1"])
    look.same("20,000 receipts at 1 desk", (status, alone.split(b"\n")[0]), (0, b"receipts %d" % MANY_RECEIPTS))
    for desks in ("2", "8"):
        status, said, _ = checks.run([*sample, desks])
        look.same(f"20,000 receipts at {desks} desks", (status, said), (0, alone))


def main():
    checks.build()
    look = checks.Checks()
    check_line(look)
    check_lines(look)
    check_rows(look)
    check_rights(look)
    check_desks(look)
    look.end()


if __name__ == "__main__":
    main()
