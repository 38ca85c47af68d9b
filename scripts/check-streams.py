#!/usr/bin/env python3
"""Runs the built program with standard streams that are closed, full, broken or interrupted.

A closed stream is a fault of that stream and of no other, whatever its number is given to next:
the journal's file stays as it was, and its report stands in standard output or nowhere. A reader
that goes away ends the program with status 4 and not by a signal. A call that a signal interrupts
is made again; strace interrupts it here.
"""

import itertools
import os
import subprocess
import tempfile

import checks

EXAMPLE = checks.ROOT / "examples" / "two-lines.jsonl"
ANSWERS = EXAMPLE.with_suffix(".txt").read_bytes()
SETTLE = ["settle", "--desks", "1"]
LINES = [*SETTLE, "--lines"]
STREAMS = ["input", "output", "errors"]


def closing(numbers):
    """What closes these descriptors in the program that is started."""

    def close():
        for number in numbers:
            os.close(number)

    return close


def names(numbers):
    return " and ".join(STREAMS[number] for number in numbers)


def some_closed():
    return itertools.chain.from_iterable(itertools.combinations(range(3), count) for count in (1, 2, 3))


def wanted(numbers, faults, output):
    """How a run ends: by the first fault of a stream that is closed, else with its output."""
    for number, status, line in faults:
        if number in numbers:
            return status, b"", b"" if 2 in numbers else line
    return 0, output, b""


def check_closed_over_file(look, before, bytes_after, output):
    """Settles a journal's file with each choice of streams closed."""
    for numbers in some_closed():
        with tempfile.TemporaryDirectory() as folder:
            path = os.path.join(folder, checks.JOURNAL)
            if before is not None:
                with open(path, "wb") as file:
                    file.write(before)
            ran = checks.run(SETTLE, folder, preexec_fn=closing(numbers))
            what = f"settle with {names(numbers)} closed, over " + ("a journal" if before else "no file")
            look.same(what, ran, wanted(numbers, [(1, 4, b"write fault\n")], output))
            with open(path, "rb") as file:
                look.same(what + ": the file", file.read(), bytes_after)


def check_closed_over_lines(look):
    for numbers in some_closed():
        with EXAMPLE.open("rb") as source:
            ran = checks.run(LINES, stdin=source, preexec_fn=closing(numbers))
        faults = [(0, 3, b"read fault\n"), (1, 4, b"write fault\n")]
        look.same(f"lines with {names(numbers)} closed", ran, wanted(numbers, faults, ANSWERS))


def check_broken(look):
    """Outputs that take nothing, and an input that gives nothing."""
    if os.path.exists("/dev/full"):
        with open("/dev/full", "wb") as full, EXAMPLE.open("rb") as source:
            look.same("lines into a full device", checks.run(LINES, stdin=source, stdout=full)[::2], (4, b"write fault\n"))
        with open("/dev/full", "wb") as full:
            sample = ["sample", "--seed", "7", "--size", "1", "--desks", "1"]
            look.same("a summary into a full device", checks.run(sample, stdout=full)[::2], (4, b"write fault\n"))
    else:
        look.skip("lines into a full device", "there is no /dev/full here")
    for what, words in (("settle", SETTLE), ("lines", LINES)):
        reads, writes = os.pipe()
        os.close(reads)
        with tempfile.TemporaryDirectory() as folder, EXAMPLE.open("rb") as source:
            ran = checks.run(words, folder, stdin=source, stdout=writes)
        os.close(writes)
        look.same(f"{what} into a pipe that nobody reads", ran[::2], (4, b"write fault\n"))
    folder = os.open(checks.ROOT, os.O_RDONLY)
    look.same("lines out of a folder", checks.run(LINES, stdin=folder), (3, b"", b"read fault\n"))
    os.close(folder)


def check_slow(look):
    """An input that comes byte by byte, and an output that takes a little at a time."""
    child = subprocess.Popen([checks.PROGRAM, *LINES], stdin=subprocess.PIPE, stdout=subprocess.PIPE, bufsize=0)
    for byte in EXAMPLE.read_bytes():
        child.stdin.write(bytes([byte]))
    child.stdin.close()
    got = b"".join(iter(lambda: child.stdout.read(3), b""))
    look.same("lines that come byte by byte", (child.wait(checks.LIMIT), got), (0, ANSWERS))
    before, report = checks.journal_of_openings(2000)
    with tempfile.TemporaryDirectory() as folder:
        with open(os.path.join(folder, checks.JOURNAL), "wb") as file:
            file.write(before)
        child = subprocess.Popen([checks.PROGRAM, *SETTLE], cwd=folder, stdout=subprocess.PIPE, bufsize=0)
        got = b"".join(iter(lambda: child.stdout.read(997), b""))
        look.same("a report longer than a pipe holds", (child.wait(checks.LIMIT), got), (0, report))


def check_interrupted(look):
    """Reads and writes that fail as a signal makes them fail, or for good."""
    cases = [
        ("read", "EINTR", (0, ANSWERS, b"")),
        ("read", "EIO", (3, b"", b"read fault\n")),
        ("write", "EINTR", (0, ANSWERS, b"")),
        ("write", "EIO", (4, b"", b"write fault\n")),
    ]
    for call, error, ends in cases:
        what = f"lines where the first {call} answers {error}"
        if not checks.has_strace():
            look.skip(what, "there is no strace that works here")
            continue
        with tempfile.TemporaryDirectory() as folder:
            paths = [os.path.join(folder, name) for name in ("input", "output")]
            with open(paths[0], "wb") as file:
                file.write(EXAMPLE.read_bytes())
            tracer = ["strace", "-o", os.devnull, "-P", paths[0 if call == "read" else 1]]
            tracer += ["-e", f"trace={call}", "-e", f"inject={call}:error={error}:when=1"]
            with open(paths[0], "rb") as source, open(paths[1], "wb") as sink:
                status, _, errors = checks.run(LINES, before=tracer, stdin=source, stdout=sink)
            with open(paths[1], "rb") as file:
                look.same(what, (status, file.read(), errors), ends)


def main():
    checks.build()
    look = checks.Checks()
    before, report = checks.journal_of_openings(3)
    check_closed_over_file(look, before, before, report)
    check_closed_over_file(look, None, checks.journal([]), b"end receipts 0 folios 0\n")
    check_closed_over_lines(look)
    check_broken(look)
    check_slow(look)
    check_interrupted(look)
    look.end()


if __name__ == "__main__":
    main()
