#!/usr/bin/env python3
"""Settles journals' files with the built program: each front of one, each of its bytes changed, the files of
cases/opened-files.list, and the lines of each example as a file.

What a file stands for is worked out here and in frames.py, by a reader of the layout of
docs/formats/journal-file.md; nothing of it is taken from a program.
"""

import itertools
import json
import re
import tempfile

import checks
import spelling
from frames import frames_of, number_in
from plain_lines import MOST_RECEIPTS

SETTLE = ["settle", "--desks", "1"]

# Three lapses of filings that there are not; the body of each has 23 bytes.
LINES = [
    {"day": "2024-02-29", "minute": 540 + number, "sender": 1, "reference": number, "item": {"kind": "lapse", "filing": number}}
    for number in (5, 6, 7)
]
BODIES = [spelling.receipt(line) for line in LINES]

# Files that are written by hand, with their answers; and a word of them.
OPENED = checks.ROOT / "cases" / "opened-files.list"
WORD = re.compile(r'"([^"]*)"|lapses (\d+)|([0-9a-f]{2})\*(\d+)|([0-9a-f]+)')

# What a byte is changed to, besides its neighbours.
VALUES = (0, 1, 2, 3, 4, 8, 9, 23, 24, 71, 255)

FIRST_DAY, LAST_DAY = 10_957, 65_743

# By the kind byte, how long the receipts of some items are, and what becomes of them where nothing waits and no folio is open.
SHORT_ITEMS = {b"\x03": (23, "not pending"), b"\x08": (23, "rejected ZVG 15"), b"\x09": (25, "not pending")}


def verdict_of(number, body):
    """The line of a receipt that is a lapse, a distribution or an extension; None where its bytes spell none of these."""
    day, minute = checks.number_in(body, 0, 4), checks.number_in(body, 4, 6)
    is_stamp = FIRST_DAY <= day <= LAST_DAY and minute < 1440
    length, verdict = SHORT_ITEMS.get(body[18:19], (0, ""))
    if len(body) != length or not is_stamp or checks.number_in(body, 19, 23) == 0:
        return None
    if length == 25 and not 1 <= checks.number_in(body, 23, 25) <= 90:
        return None
    return f"receipt {number} {verdict}"


def verdicts_of(bodies):
    """The lines of these receipts, up to the first that is no record of the journal before it."""
    lines, known, last = [], set(), 0
    for number, body in enumerate(bodies[:MOST_RECEIPTS], 1):
        line, stamp, name = verdict_of(number, body), checks.number_in(body, 0, 6), body[6:18]
        if line is None or name in known or stamp < last:
            break
        lines.append(line)
        known.add(name)
        last = stamp
    return lines


def settled(file):
    """How a run over this file ends, and the file that it leaves."""
    if len(file) <= 1 or file[0] == 0:
        return (0, b"end receipts 0 folios 0\n", b""), b"GGBJOURN1\0" + file[10:]
    if len(file) < 10 or file[1:9] != b"GBJOURN1":
        return (7, b"", b"not a journal\n"), file
    gates, bodies, is_cut = checks.frames_of(file)
    lines = verdicts_of(bodies)
    if is_cut or len(lines) < len(bodies):
        return (8, b"", f"bad record at {gates[len(lines)]}\n".encode()), file
    report = "".join(line + "\n" for line in lines) + f"end receipts {len(lines)} folios 0\n"
    return (0, report.encode(), b""), file


def over(file, run=checks.run):
    """How a run over this file ended, the file that it left, and what else is told of the run."""
    with tempfile.TemporaryDirectory(dir=checks.QUICK) as folder:
        path = f"{folder}/{checks.JOURNAL}"
        with open(path, "wb") as journal:
            journal.write(file)
        status, output, errors, *used = run(SETTLE, folder)
        with open(path, "rb") as journal:
            return (status, output, errors), journal.read(), *used


def check_fronts(look):
    whole = checks.journal(BODIES)
    look.same("the whole file is one of three lapses", settled(whole)[0][1].count(b"not pending"), 3)
    differ = [size for size in range(len(whole) + 1) if over(whole[:size]) != settled(whole[:size])]
    look.same(f"the fronts of a file of {len(whole)} bytes: those that differ", differ, [])


def check_changes(look):
    whole = checks.journal(BODIES)
    ends, differ = set(), []
    for index, byte in enumerate(whole):
        for value in {*VALUES, byte ^ 1, byte ^ 128} - {byte}:
            file = whole[:index] + bytes([value]) + whole[index + 1 :]
            ends.add(settled(file)[0][0])
            if over(file) != settled(file):
                differ.append((index, value))
    look.same("a byte changed: those that differ", differ, [])
    look.same("a byte changed: the statuses that came", ends, {0, 7, 8})


def bytes_of(words):
    """The bytes of a file that a row of cases/opened-files.list writes."""
    if WORD.sub("", words).strip():
        raise ValueError(words)
    file = b""
    for text, lapses, byte, times, digits in WORD.findall(words):
        file += text.encode() + bytes.fromhex(digits) + bytes.fromhex(byte) * int(times or 0)
        file += b"".join(lapse_of(reference) for reference in range(1, int(lapses or 0) + 1))
    return file


def lapse_of(reference):
    """An open gate and a lapse with this reference behind it."""
    body = spelling.receipt({**LINES[0], "minute": 540, "reference": reference, "item": {"kind": "lapse", "filing": 2}})
    return b"\x01" + spelling.u32(len(body)) + body


def ended(answer):
    """How a run ends by its answer in a row: its status, its last line, and what it says on standard error."""
    word, *numbers = answer.replace("at ", "").split()
    if word == "receipts":
        return 0, f"end receipts {numbers[0]} folios 0\n".encode(), b""
    return int(numbers[0]), b"", b"not a journal\n" if numbers[0] == "7" else f"bad record at {numbers[1]}\n".encode()


def check_by_hand(look):
    """Files of the format's page and of its edges, whose answers are written by hand too."""
    rows = [line.split(" | ") for line in OPENED.read_text().splitlines() if line and line[0] != "#"]
    for what, words, answer in rows:
        file = bytes_of(words)
        (status, output, errors), left, used = over(file, checks.measured)
        last = output[output.rfind(b"\n", 0, -1) + 1 :]
        took = f", {len(file)} bytes in {used[0]:.2f} s and {used[1]} MiB" if len(file) > 1_000_000 else ""
        look.same(f"a file of {what}{took}", (status, last, errors), ended(answer))
        look.same(f"a file of {what}, by the reader", ((status, output, errors), left) == settled(file), True)
    look.same(f"{len(rows)} files of cases/opened-files.list: their names differ", len({row[0] for row in rows}), len(rows))


def check_examples(look):
    """The items of an example that are accepted, spelled into a file, have the example's report."""
    for lines in sorted([*(checks.ROOT / "examples").glob("*.jsonl"), *(checks.ROOT / "cases").glob("*.jsonl")]):
        told = lines.with_suffix(".txt").read_text().splitlines()
        asked = [text for text in lines.read_text().splitlines() if text.strip()]
        replies = list(itertools.takewhile(lambda text: not text.startswith(("receipt ", "end ")), told))
        if len(replies) != len(asked):
            look.differs(f"{lines.parent.name}/{lines.stem}", f"{len(replies)} replies to {len(asked)} lines")
        received = [json.loads(text) for text, reply in zip(asked, replies) if reply.startswith("accepted ")]
        for before, line in zip(received, received[1:]):
            line["day"], line["minute"] = max((before["day"], before["minute"]), (line["day"], line["minute"]))
        ran, _ = over(checks.journal([spelling.receipt(line) for line in received]))
        report = "".join(text + "\n" for text in told[len(replies) :]).encode()
        look.same(f"{lines.parent.name}/{lines.stem} as a file", ran, (0, report, b""))


def main():
    checks.build()
    look = checks.Checks()
    check_fronts(look)
    check_changes(look)
    check_by_hand(look)
    check_examples(look)
    look.end()


if __name__ == "__main__":
    main()
