#!/usr/bin/env python3
"""Has calls on the journal's file fail at random points while the built program receives, and fills the disk.

    scripts/check-disks.py                        50 points of `take` and 50 of `serve`, the same each time
    scripts/check-disks.py --points N --seed S    so many of each, drawn otherwise

From a point on one call of the file fails, or some, or all, or the program is killed there; before that a write
may be cut short (fail_disk.c). Just where a call failed `take` ends with status 5, and `serve` answers 503 to that
request and goes on; after a failed sync it answers so to all. What was acknowledged is in the file then, and a
program without failures receives the same lines again and ends with each of them once. A tenth as many times a
small file system fills up while lines are received, and is given room again.

Without a C compiler the points are skipped, and without the right to mount a file system of its own the rest.
"""

import argparse
import collections
import contextlib
import errno
import os
import random
import subprocess
import tempfile
import time

import asking
import checks
import kept_lines
from failing_disk import DISK_FAULT, Disk, Point, checked_at, client_of, repeated, served, taken

# How many points are drawn at most for one at which a call fails.
DRAWN = 10

# A small file system, and how much of it is free at most when lines come.
KIBIBYTES = 320
MOST_FREE = {"take": 200, "serve": 32}

# No line's record has fewer bytes.
LEAST = 60


def drawn(chance):
    """A point that is drawn, over a file that is."""
    stood, lines = chance.choice((0, 0, 1, 3)), chance.randint(1, 6)
    file = kept_lines.journal_of(range(1, stood + 1)) if stood else chance.choice((b"", bytes(300), checks.journal([])))
    # An opening makes up to ten calls, and a receipt four.
    at, short = chance.randint(1, 10 + 4 * lines), chance.choice((0, 0, chance.randint(1, 90)))
    failing = chance.choice((1, 1, 2, 3, 1_000_000, 0 if short else 1))
    # With no error the program is killed there.
    error = chance.choice((errno.EIO, errno.ENOSPC, 0))
    return Point({"FAIL_AT": at, "FAIL_CALLS": failing, "FAIL_SHORT": short, "FAIL_WITH": error}, file, stood, lines)


def check_points(look, disk, what, points, chance, over):
    begun, wrong, seen, done = time.monotonic(), [], collections.Counter(), 0
    for _ in range(points * DRAWN):
        if done == points:
            break
        point = drawn(chance)
        why = checked_at(disk, point, over)
        if why:
            wrong.append(f"{point}: {why}")
        # A point after the last call is none.
        done += bool(disk.noted())
        seen.update(set(disk.noted()))
    calls = ", ".join(f"{call} {times}" for call, times in sorted(seen.items()))
    look.same(f"{what}: points with {calls}, in {time.monotonic() - begun:.1f} s", done, points)
    look.same(f"{points} points of {what}: what was found wrong", wrong[:5], [])


@contextlib.contextmanager
def small_disk():
    """The folder of a small file system in memory, which no other program sees and which ends with this; None where none can be made."""
    script = f'mount -t tmpfs -o size={KIBIBYTES}k none "$0" && cd "$0" && echo made && exec cat'
    with tempfile.TemporaryDirectory() as folder:
        try:
            child = subprocess.Popen(
                ["unshare", "-m", "sh", "-c", script, folder], stdin=subprocess.PIPE, stdout=subprocess.PIPE, stderr=subprocess.DEVNULL
            )
        except OSError:
            yield None
            return
        with child:
            yield f"/proc/{child.pid}/cwd" if child.stdout.readline() else None
            child.stdin.close()


def is_full(folder):
    return os.statvfs(folder).f_bavail == 0


def fill(folder, left):
    """Another file that leaves so many bytes free, and the name of it."""
    room = os.statvfs(folder)
    name = os.path.join(folder, "other")
    with open(name, "wb") as file:
        os.posix_fallocate(file.fileno(), 0, room.f_bavail * room.f_bsize - left)
    return name


def set_aside(folder, size):
    with open(os.path.join(folder, checks.JOURNAL), "wb") as file:
        os.posix_fallocate(file.fileno(), 0, size)


def filled_by_take(folder, other, references):
    """What is wrong where `take` fills the disk, and goes on once another file leaves it room."""
    kept = kept_lines.Kept(folder)
    status, output, errors = checks.run(["take"], folder, input=kept_lines.texts_of(references))
    told = kept_lines.told_by(output, references)
    if (status, errors) != DISK_FAULT or not is_full(folder):
        return f"status {status} {errors} after {len(told)} of {len(references)} lines"
    if wrong := kept.wrong_after(told, references, 1):
        return wrong
    os.unlink(other)
    return repeated(folder, kept, references)


def filled_by_serve(folder, other, references):
    """What is wrong where `serve` fills the disk, and goes on as soon as another file leaves it room."""
    kept, told, references = kept_lines.Kept(folder), {}, iter(references)
    with asking.serving(folder) as child:
        if not asking.opens_port(child):
            return f"it ends with {child.returncode}"
        with client_of() as client:
            for reference in references:
                status, said = kept_lines.posted(client, reference)
                if status != 201:
                    break
                told[reference] = said
            again = kept_lines.posted(client, reference)[0]
            if (status, again, is_full(folder)) != (503, 503, True):
                return f"line {reference} is answered {status} and then {again}"
            os.unlink(other)
            for reference in (reference, *references):
                told[reference] = kept_lines.posted(client, reference)[1]
    return kept.wrong_after(told, list(told), 0)


def check_full_disks(look, what, times, chance, over):
    begun, wrong = time.monotonic(), []
    for _ in range(times):
        with small_disk() as folder:
            if folder is None:
                look.skip(f"a disk that {what} fills", "no file system can be mounted here")
                return
            left = chance.randint(4, MOST_FREE[what]) << 10
            is_aside = chance.random() < 0.3
            if is_aside:
                set_aside(folder, left)
            other = fill(folder, 0 if is_aside else left)
            if why := over(folder, other, range(1, left // LEAST + 50)):
                wrong.append(f"{left} bytes {'set aside' if is_aside else 'free'}: {why}")
    look.same(f"{times} disks that {what} fills, in {time.monotonic() - begun:.1f} s: what was found wrong", wrong[:5], [])


def main():
    words = argparse.ArgumentParser(description=__doc__.splitlines()[0])
    words.add_argument("--points", type=int, default=50)
    words.add_argument("--seed", type=int, default=20240301)
    asked = words.parse_args()
    checks.build()
    look = checks.Checks()
    chance = random.Random(asked.seed)
    with tempfile.TemporaryDirectory() as folder:
        disk = Disk(folder)
        kinds = [("take", taken, filled_by_take), ("serve", served, filled_by_serve)]
        if not asking.is_free():
            look.skip("a disk that fails while the program serves", "another program has the port")
            kinds.pop()
        for what, at_point, filled in kinds:
            if disk.library:
                check_points(look, disk, what, asked.points, chance, at_point)
            else:
                look.skip(f"points of {what}", "there is no C compiler")
            check_full_disks(look, what, max(1, asked.points // 10), chance, filled)
    look.end()


if __name__ == "__main__":
    main()
