#!/usr/bin/env python3
"""Kills the built program at random moments while it receives lines, over one journal that grows.

    scripts/check-kills.py                       50 kills of `take` and 50 of `serve`
    scripts/check-kills.py --kills N --seed S    so many of each, their moments drawn from another seed

After each kill the file is read beside the program: what stood there stands there, each receipt whose reply
came out has its number and its own content, and of the other lines that were sent each is there whole and
once, or not at all. Then the same lines are sent again, to a run that is killed too or to one that ends.
The latter answers all of them: `repeated` where the file had the line, else `accepted`. Where a C compiler is
found, the disk is slow in most of the runs that are killed (fail_disk.c).
"""

import argparse
import collections
import contextlib
import os
import pathlib
import random
import signal
import socket
import subprocess
import tempfile
import time

import asking
import checks
import kept_lines

SOURCE = pathlib.Path(__file__).resolve().parent / "fail_disk.c"

# Lines that are sent until a run has ended with all of them, and then others are.
WINDOW = 40

# Each of so many kills the journal is settled too.
SETTLED = 10

# How many connections are open at once, and more replies than any run writes.
CONNECTIONS = 3
MANY = 1_000_000

# The time of some receipts, in seconds. With a slow disk each of their four calls takes some tenths of a millisecond, so
# that many kills come between two of them.
SOON = 0.0003
SLOW = {"FAIL_SLOW": "100"}
SOON_IF_SLOW = 0.004

SETTLE = ["settle", "--desks", "1"]


class Killer:
    """Kills a run while it opens its journal, or soon after some replies, while it has other lines in hand."""

    def __init__(self, chance, library):
        self.chance, self.opening = chance, 0.01
        self.slow = {**os.environ, "LD_PRELOAD": library, **SLOW} if library else None
        self.draw()

    def draw(self):
        self.is_early, self.is_killing = self.chance.random() < 0.2, True
        self.environment = self.slow if self.chance.random() < 0.6 else None
        self.replies = self.chance.randrange(WINDOW) if not self.is_early else 0
        self.seconds = self.chance.random() * (self.opening if self.is_early else SOON_IF_SLOW if self.environment else SOON)

    def spare(self):
        """Lets the next run end by itself, and learns how long its opening takes."""
        self.is_early = self.is_killing = False
        self.environment, self.replies, self.begun = None, 1, time.perf_counter()

    def opened(self):
        if not self.is_killing:
            self.opening = time.perf_counter() - self.begun

    def strike(self, child):
        if self.is_killing:
            until = time.perf_counter() + self.seconds
            time.sleep(max(0.0, self.seconds - 0.001))
            while time.perf_counter() < until:
                # A sleep would last longer than a receipt takes.
                pass
            child.send_signal(signal.SIGKILL)


def taken(folder, references, killer):
    """How a `take` ends that is sent these lines, and its replies by their references."""
    texts = [kept_lines.text_of(reference) + b"\n" for reference in references]
    child = subprocess.Popen([checks.PROGRAM, "take"], cwd=folder, env=killer.environment, stdin=subprocess.PIPE, stdout=subprocess.PIPE)
    with child, checks.ended_late(child):
        child.stdin.write(b"".join(texts[: killer.replies]))
        child.stdin.flush()
        replies = b"".join(child.stdout.readline() for _ in range(killer.replies))
        killer.opened()
        child.stdin.write(b"".join(texts[killer.replies :]))
        child.stdin.flush()
        killer.strike(child)
        child.stdin.close()
        replies += child.stdout.read()
    return child.returncode, kept_lines.told_by(replies, references)


def served(folder, references, killer):
    """The same of a `serve`, to which lines are posted over one connection, and then others over several at once.
    One that is spared ends after so many replies."""
    told = {}
    with asking.serving(folder, MANY if killer.is_killing else len(references), env=killer.environment) as child:
        if not killer.is_early and asking.opens_port(child):
            killer.opened()
            before, others = references[: killer.replies], references[killer.replies :]
            told.update(posted([before], lambda: None) if before else {})
            told.update(posted([others[at::CONNECTIONS] for at in range(CONNECTIONS)], lambda: killer.strike(child)))
        elif killer.is_early:
            killer.strike(child)
        return child.wait(checks.LIMIT), told


def posted(shares, meanwhile):
    """The replies to lines of which each connection posts a share, all at once."""
    told = {}
    with contextlib.ExitStack() as opened:
        links = [opened.enter_context(asking.connected(0)) for _ in shares]
        for link, share in zip(links, shares):
            link.sendall(b"".join(kept_lines.post_of(reference) for reference in share))
            # Nothing more comes over it.
            link.shutdown(socket.SHUT_WR)
        meanwhile()
        for link, share in zip(links, shares):
            told.update(zip(share, kept_lines.replies_in(asking.what_came(link))))
    return told


class Growing:
    """A journal that grows while the program is killed, and what was found of it."""

    def __init__(self, folder, receive, killer):
        self.folder, self.receive, self.killer = folder, receive, killer
        self.kept, self.first = kept_lines.Kept(folder), 1
        self.kills, self.seen, self.wrong = 0, collections.Counter(), []

    def receives(self):
        """A run over the lines of now; how it ends, its replies, and what is wrong with them or with the file."""
        references = range(self.first, self.first + WINDOW)
        status, told = self.receive(self.folder, references, self.killer)
        return status, told, self.kept.wrong_after(told, range(1, self.first + WINDOW), 1)

    def kill(self):
        self.kills += 1
        self.killer.draw()
        _, told, wrong = self.receives()
        self.seen.update(unsaid=self.kept.unsaid, behind=self.kept.behind > 0, early=not told, amid=0 < len(told) < WINDOW)
        if not wrong and self.kills % SETTLED == 0:
            wrong = self.unsettled()
        self.note(wrong)

    def end_window(self):
        """Sends the same lines once more, to a run that is spared, and then goes on with others."""
        self.killer.spare()
        status, told, wrong = self.receives()
        if (status, len(told)) != (0, WINDOW):
            wrong = wrong or f"{len(told)} replies to {WINDOW} lines, and status {status}"
        self.note(wrong)
        self.first += WINDOW

    def note(self, wrong):
        if wrong:
            self.wrong.append((f"after kill {self.kills}", wrong))

    def unsettled(self):
        """What is wrong with the end of the report."""
        count = len(self.kept.references)
        status, output, errors = checks.run(SETTLE, self.folder)
        is_right = (status, errors, output[output.rfind(b"\n", 0, -1) + 1 :]) == (0, b"", b"end receipts %d folios %d\n" % (count, count))
        return "" if is_right else f"settle ends with {status} {errors} {output[-80:]}"


def check_kills(look, what, kills, killer, receive):
    begun = time.monotonic()
    with tempfile.TemporaryDirectory(dir=checks.QUICK) as folder:
        growing = Growing(folder, receive, killer)
        while growing.kills < kills:
            growing.kill()
            if killer.chance.random() < 0.5:
                growing.end_window()
        growing.end_window()
        count, seen = len(growing.kept.references), growing.seen
        look.same(f"{kills} kills of {what}, over a journal of {count} receipts: what was found wrong", growing.wrong[:5], [])
        look.same(f"{what}: {told_of(seen)}, in {time.monotonic() - begun:.1f} s; some amid the lines", seen["amid"] > 0, True)
        look.same(f"{what}: the report in the end", checks.run(SETTLE, folder), (0, checks.report_of_openings(count), b""))
        look.same(f"{what}: all lines are there, each once", sorted(growing.kept.references), list(range(1, growing.first)))


def told_of(seen):
    """How many kills came where, and what they left."""
    return (
        f"{seen['early']} kills before a reply, {seen['amid']} amid the lines, {seen['behind']} left bytes behind the closed gate, "
        f"{seen['unsaid']} a receipt without a reply"
    )


def main():
    words = argparse.ArgumentParser(description=__doc__.splitlines()[0])
    words.add_argument("--kills", type=int, default=50)
    words.add_argument("--seed", type=int, default=20240301)
    asked = words.parse_args()
    checks.build()
    look = checks.Checks()
    with tempfile.TemporaryDirectory() as folder:
        killer = Killer(random.Random(asked.seed), checks.library_of(SOURCE, folder))
        if not killer.slow:
            look.skip("kills where the disk is slow", "there is no C compiler")
        check_kills(look, "take", asked.kills, killer, taken)
        if asking.is_free():
            check_kills(look, "serve", asked.kills, killer, served)
        else:
            look.skip("kills while it serves", "another program has the port")
    look.end()


if __name__ == "__main__":
    main()
