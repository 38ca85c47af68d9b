#!/usr/bin/env python3
"""Has each call of the built program on a device fail in turn (device_calls.c), and ends it at each call on the file.

Each call on the journal's file and its folder, while `take` receives and while lines are posted to `serve`: just there
`take` ends with status 5 and a request is answered 503. Each read of the input and each write of the output of a
command: status 3 or 4, with a front of what it writes else. Each call on a connection: that one ends, with a front of
its replies, and the next has all. Each call on the port: status 10, or others are served. Each look at the clock:
nothing else is written. What was acknowledged is in the file each time, and what comes again is received once.
"""

import errno
import itertools
import tempfile

import asking
import checks
import kept_lines
from asking import NOT_FOUND, head
from device_calls import CLOCK, FILES, INPUT, LINKS, OUTPUT, PORT, RUNS, Devices, Sessions, folder_of, ran_in, told_by
from failing_disk import Disk, Point, checked_at, served, taken
from refused_memory import is_front

# How a run ends where its input or its output fails.
FAULTS = {INPUT: (3, b"read fault\n"), OUTPUT: (4, b"write fault\n")}

# How many bytes a read or a write of these moves, so that there are several.
FEW = 50

# How a program ends whose port fails.
DOOR_FAULT = (10, b"door fault\n")


class Turns:
    """The calls that failed in turn, and what was wrong after one."""

    def __init__(self):
        self.calls, self.wrong = [], []

    def note(self, call, why):
        """Notes a call that failed, or that no call did, and what was found wrong then; whether one failed."""
        if call:
            self.calls.append(call)
        if why:
            self.wrong.append((len(self.calls), call, why))
        return bool(call)

    def look(self, look, what):
        each = ", ".join(f"{self.calls.count(call)} of {call}" for call in sorted(set(self.calls)))
        look.same(f"{what}: {len(self.calls)} in turn, {each}", bool(self.calls), True)
        look.same(f"{what}: what was found wrong", self.wrong[:3], [])


# ---- the file


# What stands there, and how many lines that has. Two lines come then.
FILES_BEFORE = ((b"", 0), (checks.journal([]), 0), (kept_lines.journal_of([1]), 1))


def check_file(look, disk, what, over, how):
    """Each call on the file that is told of fails, over each file."""
    turns = Turns()
    for file, stood in FILES_BEFORE:
        for number in itertools.count(1):
            why = checked_at(disk, Point(how(number), file, stood, 2), over)
            if not turns.note(" ".join(disk.noted()), why):
                break
    turns.look(look, what)


def failing(number):
    return {"device": FILES, "number": number}


def killing(number):
    return {"FAIL_AT": number, "FAIL_CALLS": 1, "FAIL_WITH": 0}


# ---- input and output


def check_stream(look, devices, device, words, text, file):
    """Each call on the input, or on the output, of a run fails in turn. Then the run is whole."""
    turns = Turns()
    with folder_of(file) as folder:
        whole, kept = ran_in(devices, words, text, folder)
    devices.move(FEW)
    for number in itertools.count(1):
        with folder_of(file) as folder:
            devices.fail(device, number)
            ran, found = ran_in(devices, words, text, folder)
            devices.stop()
            again = ran_in(devices, words, text, folder)
        is_right = ran == whole
        if devices.failed():
            status, output, errors = ran
            told = len(kept) if file or not kept else output[: output.rfind(b"\n") + 1].count(b"accepted")
            is_right = (status, errors) == FAULTS[device] and whole[1].startswith(output) and is_front(found, kept, told)
        is_again = again == ((0, whole[1].replace(b"accepted", b"repeated", len(found)), b""), kept)
        if not turns.note(devices.failed(), "" if is_right and is_again else (ran, again)):
            break
    devices.move()
    turns.look(look, f"{' '.join(words)}, calls on its {'input' if device == INPUT else 'output'}")


# ---- connections, the port, the clock


def check_sessions(look, devices, device, errors):
    """Each call on connections, or each look at the clock, fails in turn; the next connection has all."""
    devices.stop()
    with folder_of(b"") as folder, asking.serving(folder, env=devices.environment) as child:
        asking.opens_port(child)
        sessions = Sessions(folder)
        for error in errors:
            turns = Turns()
            for number in itertools.count(1):
                sent, whole = sessions.next()
                devices.fail(device, number, error)
                told = told_by(sent)
                devices.stop()
                is_whole = error == errno.EINTR or devices.failed() not in ("recv", "send")
                why = sessions.wrong_after(told, whole) or (f"it is told {told}" if is_whole and told != whole else "")
                if not turns.note(devices.failed(), why):
                    break
            turns.look(look, f"serve, calls on {'a connection' if device == LINKS else 'the clock'} that answer {errno.errorcode[error]}")
        look.same("the program serves on", child.poll(), None)


def wrong_at_port(devices, number, error, folder):
    """What is wrong with a program of which a call on the port fails: it ends so, or serves the next connection."""
    sessions = Sessions(folder)
    sent, whole = sessions.next()
    devices.fail(PORT, number, error)
    with asking.serving(folder, env=devices.environment) as child:
        told = told_by(sent) if asking.opens_port(child) else b""
        devices.stop()
        if asking.opens_port(child) and told_by(head("GET", "/x")) == NOT_FOUND:
            is_whole = told == whole or devices.failed()
            return sessions.wrong_after(told, whole) if is_whole else f"it is told {told}"
        ended = child.wait(checks.LIMIT), child.stderr.read()
    if ended != DOOR_FAULT or not devices.failed():
        return f"it ends with {ended}"
    with asking.serving(folder) as child:
        return sessions.wrong_after(told, whole) if asking.opens_port(child) else "the next one does not serve"


def check_port(look, devices):
    """Each call on the port fails in turn, as where there is no room for it, and as a signal interrupts it."""
    for error in (errno.EMFILE, errno.EINTR):
        turns = Turns()
        for number in itertools.count(1):
            with folder_of(b"") as folder:
                why = wrong_at_port(devices, number, error, folder)
            if not turns.note(devices.failed(), why):
                break
        turns.look(look, f"serve, calls on the port that answer {errno.errorcode[error]}")


def check_clock(look, devices):
    """Each look at the clock fails in turn: all is received."""
    words, text, file = RUNS[0]
    turns = Turns()
    with folder_of(file) as folder:
        whole = ran_in(devices, words, text, folder)
    for number in itertools.count(1):
        with folder_of(file) as folder:
            devices.fail(CLOCK, number)
            ran = ran_in(devices, words, text, folder)
            devices.stop()
        if not turns.note(devices.failed(), "" if ran == whole else ran):
            break
    turns.look(look, "take, calls on the clock")


def main():
    checks.build()
    look = checks.Checks()
    with tempfile.TemporaryDirectory() as folder:
        devices = Devices(folder)
        if not devices.environment:
            look.skip("calls that fail", "there is no C compiler")
            look.end()
        disk = Disk(folder)
        for words, text, file in RUNS:
            for device in (INPUT, OUTPUT) if text else (OUTPUT,):
                check_stream(look, devices, device, words, text, file)
        check_clock(look, devices)
        check_file(look, devices, "take, calls on the file", taken, failing)
        check_file(look, disk, "take, calls on the file at which it is killed", taken, killing)
        if asking.is_free():
            check_file(look, devices, "serve, calls on the file", served, failing)
            check_file(look, disk, "serve, calls on the file at which it is killed", served, killing)
            check_sessions(look, devices, LINKS, (errno.ECONNRESET, errno.EIO, errno.EINTR))
            check_sessions(look, devices, CLOCK, (errno.EIO,))
            check_port(look, devices)
        else:
            look.skip("calls that fail while it serves", "another program has the port")
    look.end()


if __name__ == "__main__":
    main()
