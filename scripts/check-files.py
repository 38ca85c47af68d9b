#!/usr/bin/env python3
"""Opens a copy of each journal's file of cases/files with the built program, and compares what `settle` prints
with the text beside it.

They were written by the program of their day (cases/files/README.md), and every later one is to print the same of
them. A file that is made stays as it is, and a journal takes one more line behind what it has.
"""

import pathlib
import re
import tempfile

import checks
import frames

FILES = checks.ROOT / "cases" / "files"
LINE = (checks.plain(4_000_000_000) + "\n").encode()


def ended(ran):
    """What a run printed, and its status."""
    status, output, errors = ran
    return output + errors + b"status %d\n" % status


def frames_in(file):
    """What a file has ahead of the gate that ends its frames; nothing where it is not made."""
    return file[: frames.frames_of(file)[0][-1]] if file[:1] > b"\0" and len(file) > len(frames.HEAD) else b""


def check_file(look, file):
    content, wanted = file.read_bytes(), file.with_suffix(".txt").read_bytes()
    with tempfile.TemporaryDirectory(dir=checks.QUICK) as folder:
        copy = pathlib.Path(folder) / checks.JOURNAL
        copy.write_bytes(content)
        look.same(f"{file.stem}: what settle prints", ended(checks.run(["settle", "--desks", "1"], folder)), wanted)
        if frames_in(content):
            look.same(f"{file.stem}: it stays as it is", copy.read_bytes() == content, True)
        if count := re.search(rb"^end receipts (\d+) ", wanted, re.M):
            told = b"accepted %d\n" % (int(count[1]) + 1)
            look.same(f"{file.stem}: it takes a line", checks.run(["take"], folder, input=LINE), (0, told, b""))
            look.same(f"{file.stem}: behind what it has", copy.read_bytes().startswith(frames_in(content) or frames.HEAD), True)


def main():
    checks.build()
    look = checks.Checks()
    files = sorted(FILES.glob("*.journal"))
    look.same("cases/files has journals", bool(files), True)
    look.same("texts of no file", [text.stem for text in sorted(FILES.glob("*.txt")) if not text.with_suffix(".journal").exists()], [])
    for file in files:
        check_file(look, file)
    look.end()


if __name__ == "__main__":
    main()
