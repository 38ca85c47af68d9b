#!/usr/bin/env python3
"""Has the calls of the built program move few bytes each, at each length, and cuts the write of a record at each.

Of a run of each command, and of a session over connections, each read and write of whatever device moves one byte at
most, then two, and so on up to the longest (device_calls.c): all ends as it does else. The first write of a record, or
of a new file's heading, moves each number of bytes below its length, and then the next call on the file fails, or the
program is killed there (fail_disk.c): what was acknowledged is in the file, and the same lines again end with all.
"""

import errno
import tempfile

import asking
import checks
import kept_lines
from device_calls import RUNS, Devices, Sessions, folder_of, ran_in, told_by
from failing_disk import Disk, Point, checked_at, served, taken

# The bytes of the longest piece that a new file is made by: its heading with its first gate.
HEADING = 9


def check_runs(look, devices):
    """Each run is whole however few bytes a call moves."""
    for words, text, file in RUNS:
        devices.move()
        with folder_of(file) as folder:
            whole = ran_in(devices, words, text, folder)
        longest, differ = max(len(text), len(whole[0][1]), len(file)), []
        for most in range(1, longest + 1):
            devices.move(most)
            with folder_of(file) as folder:
                ran = ran_in(devices, words, text, folder)
            if ran != whole:
                differ.append((most, ran))
        look.same(f"{' '.join(words)}: the run", (whole[0][0], whole[0][2], longest > HEADING), (0, b"", True))
        look.same(f"{' '.join(words)}, calls that move at most 1 to {longest} bytes: those that end otherwise", differ[:3], [])
    devices.move()


def check_sessions(look, devices):
    """Each connection is told all, and each line that it posts is kept, however few bytes a call moves."""
    devices.move()
    with folder_of(b"") as folder, asking.serving(folder, env=devices.environment) as child:
        asking.opens_port(child)
        sessions, differ, longest, most = Sessions(folder), [], 1, 0
        while most < longest:
            most += 1
            devices.move(most)
            sent, whole = sessions.next()
            longest = len(sent)
            told = told_by(sent)
            if why := sessions.wrong_after(told, whole) or (told != whole and f"it is told {told}"):
                differ.append((most, why))
        devices.move()
        look.same(f"serve, calls that move at most 1 to {most} bytes: connections that are told otherwise", differ[:3], [])
        look.same("the program serves on", child.poll(), None)


def cut(look, disk, what, over, file, longest, lines, errors):
    """The first write of more bytes moves each number of them in turn; the next call fails, or ends the program."""
    wrong, done = [], 0
    for short in range(1, longest):
        for error in errors:
            point = Point({"FAIL_AT": 1, "FAIL_CALLS": 1, "FAIL_SHORT": short, "FAIL_WITH": error}, file, 0, lines)
            why = checked_at(disk, point, over)
            cuts = [call for call in disk.noted() if call.endswith("short")]
            done += bool(cuts)
            if why or not cuts:
                wrong.append((short, error, why or "no write was cut"))
    look.same(f"{what}, cut at 1 to {longest - 1} bytes, {done} times: what was found wrong", wrong[:3], [])


def main():
    checks.build()
    look = checks.Checks()
    with tempfile.TemporaryDirectory() as folder:
        devices, disk = Devices(folder), Disk(folder)
        if not devices.environment:
            look.skip("calls that move few bytes", "there is no C compiler")
            look.end()
        made = checks.journal([])
        record = len(kept_lines.journal_of([1])) - len(made)
        check_runs(look, devices)
        cut(look, disk, "take, the heading of a new file", taken, b"", HEADING, 1, (errno.EIO, 0))
        cut(look, disk, "take, a record", taken, made, record, 1, (errno.ENOSPC, 0))
        if asking.is_free():
            check_sessions(look, devices)
            cut(look, disk, "serve, a record", served, made, record, 1, (errno.ENOSPC,))
        else:
            look.skip("calls that move few bytes while it serves", "another program has the port")
    look.end()


if __name__ == "__main__":
    main()
