#!/usr/bin/env python3
"""Compares what lines are with what plain programs say that were written from the formats' pages.

The lines and answers of crates/read_lines, and the replies of the built program to them, as they come stamped and
as they are handed in, with what wrong_lines.py makes of the tables. The replies to lines that are drawn
(drawn_lines.py), and what the journal's file has of them, with what plain_lines.py tells of their bytes.

    scripts/check-lines.py [--seed S] [--lines N] [--beside P]

Of N drawn lines, 10,000 where none is said, half are taken and half are settled as stamped lines; P programs run
beside one another.
"""

import argparse
import collections
import itertools
import multiprocessing
import os
import random
import re
import tempfile

import checks
import plain_lines
import wrong_lines
from drawn_lines import DrawnLines

FOLDER = checks.ROOT / "crates" / "read_lines"
TAKE, SETTLE = ["take"], ["settle", "--desks", "1", "--lines"]

# What is replied to an item.
RECEIVED = ("accepted", "repeated", "differs")

# How a report begins, which no reply does.
REPORT = ("receipt ", "end ")

# Lines that are drawn together, and that `take` is handed at once.
ROUND = 5_000
TAKEN = 2_000

# No more differences are shown.
SHOWN = 20


def check_replies(look, words, lines, wanted):
    """Each line that is not blank has a reply of the program, which says what it is."""
    with tempfile.TemporaryDirectory() as folder:
        status, said, errors = checks.run(words, folder, input="".join(text + "\n" for text in lines).encode())
    look.same(f"{words[0]}: the status", (status, errors), (0, b""))
    replies = list(itertools.takewhile(lambda text: not text.startswith(REPORT), said.decode().splitlines()))
    look.same(f"{words[0]}: the number of replies", len(replies), len(lines))
    is_item = ["item" if reply.split(" ")[0] in RECEIVED else reply for reply in replies]
    differ = [(text, got, what) for text, got, what in zip(lines, is_item, wanted) if got != what.split(" ")[0] and got != what]
    look.same(f"{words[0]}: of {len(lines)} lines those that are replied otherwise", differ, [])


def check_tables(look):
    answers = list(wrong_lines.answers())
    lines = "".join(text + "\n" for text, _, _ in answers)
    look.same("the lines of read_lines", (FOLDER / "stdin").read_text() == lines, True)
    said = "".join(f"{handed_in}\t{stamped}\n" for _, handed_in, stamped in answers)
    look.same("the answers of read_lines", (FOLDER / "stdout").read_text() == said, True)
    told = [(text, handed_in, stamped) for text, handed_in, stamped in answers if text.strip(" \t\r")]
    texts, handed_in, stamped = zip(*told)
    check_replies(look, TAKE, texts, handed_in)
    check_replies(look, SETTLE, texts, stamped)


# ---- drawn lines


def is_right(ran, wanted, after):
    """Whether a run ended well, with these replies and then such a text."""
    status, said, errors = ran
    replies = "".join(reply + "\n" for reply in wanted).encode()
    is_told = said.startswith(replies) and re.fullmatch(after, said[len(replies) :], re.S)
    return (status, errors) == (0, b"") and bool(is_told)


def first_difference(lines, ran, wanted):
    """The first line that is replied otherwise, what is replied and what was wanted; else how the run ended."""
    status, said, errors = ran
    for line, got, reply in zip(lines, said.decode(errors="replace").splitlines(), wanted):
        if got != reply:
            return line, got, reply
    return "all lines", status, said[-200:], errors, len(wanted)


class Round:
    """Lines that are drawn together: what is replied to them, how often, and what differs."""

    def __init__(self, seed, number, size):
        self.chance, self.size = random.Random(f"{seed} {number}"), size
        self.is_taken = number % 2 == 0
        self.form = plain_lines.UNSTAMPED_LINE if self.is_taken else plain_lines.STAMPED_LINE
        self.journal, self.draws = plain_lines.Journal(), DrawnLines(self.chance, self.form)
        self.replies, self.differences = collections.Counter(), []

    def run(self, words, folder, size):
        """Draws so many lines and hands them to the program; the last may end without a line feed."""
        lines = [self.draws.line() for _ in range(size)]
        told = [(line, reply) for line in lines if (reply := self.journal.reply_to(line, self.form))]
        self.replies.update(kind_of(reply) for _, reply in told)
        self.replies["blank"] += size - len(told)
        ran = checks.run(words, folder, input=b"\n".join(lines) + self.chance.choice([b"", b"\n"]))
        wanted = [reply for _, reply in told]
        report = rb"(?:receipt 1 .*)?end receipts %d folios \d+\n" % len(self.journal.items)
        if not is_right(ran, wanted, b"" if self.is_taken else report):
            self.differences.append(first_difference([line for line, _ in told], ran, wanted))

    def check_file(self, folder):
        """Each receipt of the file is the item that came, whatever its stamp."""
        with open(os.path.join(folder, checks.JOURNAL), "rb") as file:
            kept = checks.receipts_without_stamps(file.read())
        if kept != self.journal.receipts():
            self.differences.append(("the file", len(kept or []), len(self.journal.items)))


def round_of(of):
    """What a round of drawn lines brings: how often each reply came, and what differs."""
    one = Round(*of)
    with tempfile.TemporaryDirectory(dir=checks.QUICK) as folder:
        if one.is_taken:
            for size in sizes(one.size, TAKEN):
                one.run(TAKE, folder, size)
            one.check_file(folder)
        else:
            one.run(SETTLE, folder, one.size)
    return one.replies, one.differences


def kind_of(reply):
    """The reply without numbers."""
    return re.sub(r"\d+", "n", reply)


def sizes(count, most):
    """A count in parts."""
    return [min(most, count - at) for at in range(0, count, most)]


def paths_of(kind, path):
    """The paths that a value of this kind may be wrong at, an index in them as n."""
    match kind:
        case plain_lines.Array():
            return {path} | paths_of(kind.kind, f"{path}.n")
        case plain_lines.Object():
            inner = [paths_of(of, plain_lines.joined(path, name)) for name, of in kind.members.items()]
            return {path or "line", plain_lines.joined(path, "*")}.union(*inner)
        case plain_lines.OneOf():
            return {path}.union(*(paths_of(one, path) for one in kind.objects.values()))
    return {path}


def check_drawn(look, seed, lines, beside):
    rounds = [(seed, number, size) for number, size in enumerate(sizes(lines, ROUND))]
    replies, differences = collections.Counter(), []
    with multiprocessing.Pool(beside) as pool:
        for told, differ in pool.imap_unordered(round_of, rounds):
            replies.update(told)
            differences += differ
    for differ in differences[:SHOWN]:
        look.differs("a drawn line", checks.shortened(differ, 2_000))
    words = ", ".join(f"{count} {word}" for word, count in sorted(counted(replies).items()))
    paths = paths_of(plain_lines.STAMPED_LINE, "")
    came = sum(f"malformed {path}" in replies for path in paths)
    look.same(f"{lines} drawn lines ({words}; {came} of {len(paths)} paths): rounds that differ", len(differences), 0)


def counted(replies):
    """How often each first word of a reply came."""
    words = collections.Counter()
    for reply, count in replies.items():
        words[reply.split(" ")[0]] += count
    return words


def main():
    asked = argparse.ArgumentParser(description=__doc__, formatter_class=argparse.RawDescriptionHelpFormatter)
    asked.add_argument("--seed", type=int, default=20240301)
    asked.add_argument("--lines", type=int, default=10_000)
    asked.add_argument("--beside", type=int, default=1)
    words = asked.parse_args()
    checks.build()
    look = checks.Checks()
    check_tables(look)
    check_drawn(look, words.seed, words.lines, words.beside)
    look.end()


if __name__ == "__main__":
    main()
