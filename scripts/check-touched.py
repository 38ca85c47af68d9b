#!/usr/bin/env python3
"""Deletes, renames, replaces, cuts and lengthens the journal's file while the built program receives.

    scripts/check-touched.py                   each by hand, also within a record, and those that move the file five times under load
    scripts/check-touched.py --times N --seed S    so many times under load, at moments drawn otherwise
    scripts/check-touched.py --program PATH    another program than the built one

From then on nothing is received: `take` ends with status 5, `serve` answers 503. The program leaves what is there
then as it is. All that was acknowledged is in the file that the program has open, also where that was deleted; where
it is put back under its name `serve` goes on. Nothing is acknowledged either whose file was touched while it was
written: calls of the file are slow then (fail_disk.c), which wants a C compiler. What else happens in the folder does
not matter, and the name may be a link to the file.
"""

import argparse
import concurrent.futures
import contextlib
import glob
import os
import pathlib
import random
import subprocess
import tempfile
import threading
import time

import asking
import checks
import kept_lines
from asking import NOT_FOUND, UNAVAILABLE, connected, head, is_free, said, serving

SOURCE = pathlib.Path(__file__).resolve().parent / "fail_disk.c"
DISK_FAULT = (5, b"disk fault\n")

# How many receipts stand before, and how many lines come under load at most.
STANDING, MOST = 3, 4000

# How many lines come before and after the file is touched by hand, and how such a `take` ends.
LINES = 5
STOPPED = (5, b"".join(b"accepted %d\n" % (STANDING + number) for number in range(1, LINES + 1)), b"disk fault\n")

# The moments under load, in seconds after the first line.
LATEST = 0.1

# A receipt is two writes, each of them synced. Before each of these calls the file may be touched.
CALLS = 4

# How many microseconds pass before a call, in how many seconds it is surely waited for, and how often that is tried.
SLOW, SOON, TRIES = 100_000, 0.02, 20


def delete(path):
    os.unlink(path)


def rename(path):
    os.rename(path, f"{path}.away")


def replace(path):
    """Puts a copy in the file's place, as an editor or a restored copy does."""
    pathlib.Path(f"{path}.new").write_bytes(path.read_bytes())
    os.replace(f"{path}.new", path)


def replace_by_none(path):
    pathlib.Path(f"{path}.new").write_bytes(checks.journal([]))
    os.replace(f"{path}.new", path)


def cut(path):
    os.truncate(path, os.path.getsize(path) - 1)


def cut_to_nothing(path):
    os.truncate(path, 0)


def lengthen(path):
    with open(path, "ab") as file:
        file.write(b"\0")


WAYS = (delete, rename, replace, replace_by_none, cut, cut_to_nothing, lengthen)

# Those after which the program's own file is no longer the one under the name, and is whole.
MOVING = (delete, rename, replace, replace_by_none)


def named(way):
    return f"a file that somebody touches ({way.__name__.replace('_', ' ')})"


def journal_in(folder):
    path = pathlib.Path(os.path.realpath(folder)) / checks.JOURNAL
    path.write_bytes(kept_lines.journal_of(range(1, STANDING + 1)))
    return path


def found_at(path):
    return path.read_bytes() if path.exists() else None


def open_file_of(child, path):
    """The bytes of the journal's file that a program has open, whatever its name is by now."""
    for link in glob.glob(f"/proc/{child.pid}/fd/*"):
        with contextlib.suppress(OSError):
            if os.readlink(link).startswith(str(path)):
                return pathlib.Path(link).read_bytes()
    return b""


def references_in(file):
    _, bodies, _ = checks.frames_of(file)
    return [int.from_bytes(body[kept_lines.REFERENCE], "big") for body in bodies]


def taken_around(folder, touch):
    """A `take` of some lines, and of as many once this is done: its status, its output and its errors."""
    first = range(STANDING + 1, STANDING + LINES + 1)
    child = subprocess.Popen([checks.PROGRAM, "take"], cwd=folder, stdin=subprocess.PIPE, stdout=subprocess.PIPE, stderr=subprocess.PIPE)
    with child, checks.ended_late(child):
        child.stdin.write(kept_lines.texts_of(first))
        child.stdin.flush()
        before = b"".join(child.stdout.readline() for _ in first)
        touch()
        rest, errors = child.communicate(kept_lines.texts_of(range(first.stop, first.stop + LINES)))
    return child.returncode, before + rest, errors


def check_take(look, way):
    """Lines before, and lines after the file was touched."""
    with tempfile.TemporaryDirectory(dir=checks.QUICK) as folder:
        path, left = journal_in(folder), []

        def touch():
            way(path)
            left.append(found_at(path))

        look.same(f"take, {named(way)}", taken_around(folder, touch), STOPPED)
        look.same(f"take, {named(way)}: what is there stays", [found_at(path)] == left, True)


def check_link(look, way):
    """The name is a link to a file in another folder, which is touched there."""
    with tempfile.TemporaryDirectory(dir=checks.QUICK) as folder, tempfile.TemporaryDirectory(dir=checks.QUICK) as other:
        path = journal_in(other)
        os.symlink(path, f"{folder}/{checks.JOURNAL}")
        look.same(f"take over a link to {named(way)}", taken_around(folder, lambda: way(path)), STOPPED)


def check_beside(look):
    """Other files come and go in the folder."""
    with tempfile.TemporaryDirectory(dir=checks.QUICK) as folder:
        journal_in(folder)

        def come_and_go():
            beside = pathlib.Path(folder) / "beside"
            beside.write_bytes(b"x")
            beside.rename(f"{beside}.away").unlink()

        status, output, errors = taken_around(folder, come_and_go)
        look.same("take, another file comes and goes", (status, output.count(b"accepted "), errors), (0, 2 * LINES, b""))


def made_in(log):
    """How many calls of the journal's file are noted."""
    return len(log.read_bytes().splitlines())


def touched_within(library, way, calls, room):
    """How a `take` ends whose file is touched once so many calls of a record are made; None where the next was made by then.
    Behind its frames the file has so much room."""
    with tempfile.TemporaryDirectory(dir=checks.QUICK) as folder, tempfile.TemporaryDirectory(dir=checks.QUICK) as other:
        path, log = journal_in(folder), pathlib.Path(other) / "calls"
        with open(path, "ab") as file:
            file.write(bytes(room))
        slow = {**os.environ, "LD_PRELOAD": library, "FAIL_LOG": str(log), "FAIL_SLOW": str(SLOW)}
        child = subprocess.Popen([checks.PROGRAM, "take"], cwd=folder, env=slow, stdin=subprocess.PIPE, stdout=subprocess.PIPE, stderr=subprocess.PIPE)
        with child, checks.ended_late(child):
            child.stdin.write(kept_lines.texts_of([STANDING + 1]))
            child.stdin.flush()
            before = child.stdout.readline()
            made = made_in(log) + calls
            child.stdin.write(kept_lines.texts_of([STANDING + 2]))
            child.stdin.flush()
            while made_in(log) < made and child.poll() is None:
                time.sleep(0.001)
            time.sleep(SOON)
            way(path)
            in_time = made_in(log) == made
            rest, errors = child.communicate()
        return (child.returncode, before + rest, errors) if in_time else None


def touched_in_time(library, *case):
    """The same, tried until it was touched in time."""
    return next(filter(None, (touched_within(library, *case) for _ in range(TRIES))), None)


def check_within(look):
    """The file is touched while a record is written: nothing is acknowledged of it."""
    with tempfile.TemporaryDirectory(dir=checks.QUICK) as folder:
        library = checks.library_of(SOURCE, folder)
        if library is None:
            look.skip("a file that is touched while a record is written", "no C compiler is found")
            return
        # One that is cut just before a write that makes it longer ends as it should: docs/operating.md.
        cases = [(way, calls, room) for way in WAYS for calls in range(CALLS) for room in (0, 4096) if calls or room or way in MOVING]
        with concurrent.futures.ThreadPoolExecutor(16) as pool:
            ended = list(pool.map(lambda case: touched_in_time(library, *case), cases))
        refused = (5, b"accepted %d\n" % (STANDING + 1), b"disk fault\n")
        wrong = [(way.__name__, calls, room, end) for (way, calls, room), end in zip(cases, ended) if end != refused]
        look.same(f"take, a file that somebody touches while a record is written, {len(cases)} times: those that went wrong", wrong[:3], [])


def check_serve(look, way):
    """A request before, and requests after the file was touched."""
    post = kept_lines.post_of
    with tempfile.TemporaryDirectory(dir=checks.QUICK) as folder:
        path = journal_in(folder)
        with serving(folder) as child:
            before = kept_lines.replies_in(said(post(STANDING + 1)))
            way(path)
            left = found_at(path)
            told = [said(sent) for sent in (post(STANDING + 2), post(STANDING + 2), head("GET", "/receipts/1"), head("GET", "/x"))]
            look.same(f"serve, {named(way)}", (before, told), ([("accepted", STANDING + 1)], [UNAVAILABLE] * 3 + [NOT_FOUND]))
            look.same(f"serve, {named(way)}: what is there stays", found_at(path) == left, True)
            if way in MOVING:
                look.same(f"serve, {named(way)}: what it has open", references_in(open_file_of(child, path)), list(range(1, STANDING + 2)))
            if way is rename:
                os.rename(f"{path}.away", path)
                look.same("serve, once the file has its name again", kept_lines.replies_in(said(post(STANDING + 2))), [("accepted", STANDING + 2)])
            look.same(f"serve, {named(way)}: it serves on", child.poll(), None)


def check_opening(look, way):
    """The file is touched after the opening, and before the first line."""
    with tempfile.TemporaryDirectory(dir=checks.QUICK) as folder:
        path = journal_in(folder)
        with serving(folder):
            connected().close()
            way(path)
            look.same(f"serve, {named(way)} before the first request", said(kept_lines.post_of(STANDING + 1)), UNAVAILABLE)


class Posting(threading.Thread):
    """Posts lines one after another, until one is not acknowledged, and then some more."""

    def __init__(self):
        super().__init__()
        self.link, self.begun, self.acknowledged, self.refused = connected(), [], [], []

    def run(self):
        for reference in range(STANDING + 1, STANDING + MOST):
            self.begun.append(time.perf_counter())
            told = self.answer(kept_lines.post_of(reference))
            (self.refused if told == UNAVAILABLE else self.acknowledged).append(reference)
            if len(self.refused) > 5:
                return

    def answer(self, sent):
        self.link.sendall(sent)
        told = b""
        while not (b"\r\n\r\n" in told and told.endswith(b"\n")):
            told += self.link.recv(4096)
        return told


def touched_under_load(way, seconds):
    """What is wrong where the file is touched at such a moment, while lines are posted."""
    with tempfile.TemporaryDirectory(dir=checks.QUICK) as folder:
        path = journal_in(folder)
        with serving(folder) as child:
            posting = Posting()
            posting.start()
            time.sleep(seconds)
            way(path)
            touched = time.perf_counter()
            posting.join(checks.LIMIT)
            kept = references_in(open_file_of(child, path)) if way in MOVING else None
        late = [one for one in posting.acknowledged if posting.begun[one - STANDING - 1] > touched]
        if late:
            return f"{late[:3]} are acknowledged, and came after it"
        if len(posting.refused) < 5 or max(posting.acknowledged, default=0) > min(posting.refused):
            return f"not all is refused after the first that is: {posting.refused[:3]}"
        if kept is not None and kept[: STANDING + len(posting.acknowledged)] != list(range(1, STANDING + 1)) + posting.acknowledged:
            return f"{len(posting.acknowledged)} are acknowledged, and the open file has {len(kept)}"
        return ""


def taken_under_load(way, seconds):
    """The same of `take`, which is sent all lines at once."""
    with tempfile.TemporaryDirectory(dir=checks.QUICK) as folder:
        path = journal_in(folder)
        references = range(STANDING + 1, STANDING + 20 * MOST)
        child = subprocess.Popen([checks.PROGRAM, "take"], cwd=folder, stdin=subprocess.PIPE, stdout=subprocess.PIPE, stderr=subprocess.PIPE)
        with child, checks.ended_late(child):
            toucher = threading.Timer(seconds, way, [path])
            toucher.start()
            output, errors = child.communicate(kept_lines.texts_of(references))
            toucher.join()
        if (child.returncode, errors) != DISK_FAULT:
            return f"it ends with {child.returncode} {errors}"
        acknowledged = output.count(b"accepted ")
        if way is rename and not 0 <= len(references_in(pathlib.Path(f"{path}.away").read_bytes())) - STANDING - acknowledged <= 1:
            return f"{acknowledged} are acknowledged, and the renamed file has others"
        return ""


def check_under_load(look, times, seed):
    chance = random.Random(seed)
    for what, try_one in (("serve", touched_under_load), ("take", taken_under_load)):
        # A file that is cut just before a write that makes it longer ends as it should: docs/operating.md.
        for way in MOVING:
            found = [(seconds, try_one(way, seconds)) for seconds in (chance.random() * LATEST for _ in range(times))]
            wrong = [one for one in found if one[1]]
            look.same(f"{what}, {named(way)} under load, {times} times: those that went wrong", wrong[:3], [])


def main():
    words = argparse.ArgumentParser(description=__doc__, formatter_class=argparse.RawDescriptionHelpFormatter)
    words.add_argument("--times", type=int, default=5)
    words.add_argument("--seed", type=int, default=20240301)
    words.add_argument("--program")
    given = words.parse_args()
    if given.program:
        checks.PROGRAM = pathlib.Path(os.path.abspath(given.program))
    else:
        checks.build()
    look = checks.Checks()
    for way in WAYS:
        check_take(look, way)
        check_link(look, way)
    check_beside(look)
    check_within(look)
    if is_free():
        for way in WAYS:
            check_serve(look, way)
            check_opening(look, way)
        check_under_load(look, given.times, given.seed)
    else:
        look.skip("a file that somebody touches while it serves", f"another program has port {asking.PORT}")
    look.end()


if __name__ == "__main__":
    main()
