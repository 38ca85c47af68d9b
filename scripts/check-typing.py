#!/usr/bin/env python3
"""Types lines at the built program one by one: each has its reply before the next one is typed."""

import os
import select
import subprocess
import tempfile

import checks

# How long a reply is waited for, in seconds.
PATIENCE = 10


def typed(child, line):
    """What comes out once this line was typed, up to its line feed; what came where none did."""
    child.stdin.write(line + b"\n")
    got = b""
    while not got.endswith(b"\n") and select.select([child.stdout], [], [], PATIENCE)[0]:
        byte = child.stdout.read(1)
        if not byte:
            break
        got += byte
    return got


def check(look, words, line):
    """Lines that `line` spells by their number, and one that is no JSON."""
    typing = [
        ("an item", line(1), b"accepted 1\n"),
        ("a second item", line(2), b"accepted 2\n"),
        ("no JSON", b"{", b"malformed json\n"),
        ("an item behind a blank line", b"\n" + line(3), b"accepted 3\n"),
        ("an item again", line(2), b"repeated 2\n"),
    ]
    with tempfile.TemporaryDirectory() as folder:
        child = subprocess.Popen(
            [checks.PROGRAM, *words], cwd=folder, stdin=subprocess.PIPE, stdout=subprocess.PIPE, bufsize=0
        )
        for what, text, wanted in typing:
            look.same(f"{words[0]}: {what} is answered before the next line", typed(child, text), wanted)
        child.stdin.close()
        child.stdout.read()
        look.same(f"{words[0]}: the end", child.wait(checks.LIMIT), 0)


def main():
    checks.build()
    look = checks.Checks()
    check(look, ["take"], lambda number: checks.plain(number).encode())
    check(look, ["settle", "--desks", "1", "--lines"], lambda number: checks.stamped(number).encode())
    look.end()


if __name__ == "__main__":
    main()
