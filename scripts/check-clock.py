#!/usr/bin/env python3
"""Receives lines with the built program at chosen moments of its clock, and compares what stands in the
journal's file with the stamps of these moments, in UTC, byte for byte.

A small library takes the place of the clock (set_clock.c); without a C compiler nothing is checked.
"""

import os
import pathlib
import tempfile

import checks
import spelling

SOURCE = pathlib.Path(__file__).resolve().parent / "set_clock.c"
FIRST = ("2000-01-01", 0)

# Moments in seconds since 1970, and the stamps of receipts that come in then: the first stamp where none is of that day.
STAMPS = [
    ("none", FIRST),
    ("-1", FIRST),
    ("0", FIRST),
    ("946684799", FIRST),
    ("946684800", FIRST),
    ("946684860", ("2000-01-01", 1)),
    ("1709164799", ("2024-02-28", 1439)),
    ("1709164800", ("2024-02-29", 0)),
    ("1709164860", ("2024-02-29", 1)),
    ("5680281599", ("2149-12-31", 1439)),
    ("5680281600", FIRST),
    ("9223372036854775807", FIRST),
]


def receipt(number, stamp):
    day, minute = stamp
    return spelling.receipt({**checks.filing(number, checks.opening(number)), "day": day, "minute": minute})


def taken(library, words, text, moments):
    """The replies to an input at these moments, and the file that it leaves."""
    with tempfile.TemporaryDirectory() as folder:
        env = {**os.environ, "LD_PRELOAD": library, "MOMENTS": moments}
        ran = checks.run(words, folder, input=text, env=env)
        file = pathlib.Path(folder) / checks.JOURNAL
        return ran, file.read_bytes() if file.exists() else None


def main():
    checks.build()
    look = checks.Checks()
    with tempfile.TemporaryDirectory() as folder:
        library = checks.library_of(SOURCE, folder)
        if not library:
            look.skip("the clock", "there is no C compiler")
            look.end()
        line = (checks.plain(1) + "\n").encode()
        for moment, stamp in STAMPS:
            left = taken(library, ["take"], line, moment)
            look.same(f"a line at the moment {moment}", left, ((0, b"accepted 1\n", b""), checks.journal([receipt(1, stamp)])))
        # The clock is asked once for each item, and for no line that is none; a stamp never falls.
        lines = "".join(text + "\n" for text in (checks.plain(1), "{}", checks.plain(2), "", checks.plain(3))).encode()
        left = taken(library, ["take"], lines, "1709164860,1709164799,1709251200,none")
        stamps = [("2024-02-29", 1), ("2024-02-29", 1), ("2024-03-01", 0)]
        file = checks.journal([receipt(number, stamp) for number, stamp in enumerate(stamps, 1)])
        look.same("three lines and three moments", left, ((0, b"accepted 1\nmalformed sender\naccepted 2\naccepted 3\n", b""), file))
        rows = b"folio,district,parcel,sub,area,owner\n1,1,1,0,500,10\n1\n2,1,2,0,500,10\n"
        left = taken(library, ["opening", "--sender", "1"], rows, "1709164860,1709251200,none")
        file = checks.journal([receipt(1, stamps[0]), receipt(2, stamps[2])])
        look.same("two rows and two moments", left, ((0, b"accepted 1\nmalformed row\naccepted 2\n", b""), file))
    look.end()


if __name__ == "__main__":
    main()
