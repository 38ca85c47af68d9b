"""The built program of whose calls on devices one fails, or all move few bytes (device_calls.c); and runs and sessions
for it."""

import contextlib
import errno
import mmap
import os
import pathlib
import socket
import tempfile

import asking
import checks
import kept_lines
import wrong_lines
from asking import NOT_FOUND, head, reply
from failing_disk import DISK_FAULT
from refused_memory import receipts_in

SOURCE = pathlib.Path(__file__).resolve().parent / "device_calls.c"

# The devices, and the places of the numbers that say of which each call is counted, which one fails and how.
INPUT, OUTPUT, FILES, LINKS, PORT, CLOCK = range(1, 7)
DEVICE, MADE, AT, ERROR, FAILED, MOST = range(6)
NUMBERS, BYTES, NAME = 6, 8, 16


class Devices:
    """The library, what it is told, and what it tells."""

    def __init__(self, folder):
        library, told = checks.library_of(SOURCE, folder), os.path.join(folder, "devices")
        with open(told, "wb+") as file:
            file.write(bytes(NUMBERS * BYTES + NAME))
            file.flush()
            mapped = memoryview(mmap.mmap(file.fileno(), 0))
        self.numbers, self.name = mapped[: NUMBERS * BYTES].cast("q"), mapped[NUMBERS * BYTES :]
        self.environment = {**os.environ, "LD_PRELOAD": library, "DEVICES": told} if library else None

    def fail(self, device, number, error=errno.EIO):
        """Has the call of this number on a device fail from now on."""
        self.stop()
        self.name[:] = bytes(NAME)
        self.numbers[MADE] = self.numbers[FAILED] = 0
        self.numbers[AT], self.numbers[ERROR], self.numbers[DEVICE] = number, error, device

    def stop(self):
        """Has no call fail any more. Which one did stays told."""
        self.numbers[DEVICE] = 0

    def move(self, most=0):
        """Has each call move so many bytes at most; as many as it is asked to where that is 0."""
        self.numbers[MOST] = most

    def failed(self):
        """The name of the call that failed; nothing where none did."""
        return bytes(self.name).rstrip(b"\0").decode() if self.numbers[FAILED] else ""

    # What failing_disk.py asks of a disk.

    def failing_at(self, point):
        self.fail(**point.how)
        return self.environment

    def failures(self):
        return [self.failed()] if self.failed() else []

    noted = failures

    def is_killed(self):
        return False

    def ends(self):
        return DISK_FAULT if self.failed() else (0, b"")


# ---- runs


def lapse(number, stamp={}):
    """A short line, of the lapse of no filing."""
    return (wrong_lines.compact({**stamp, "sender": 1, "reference": number, "item": {"kind": "lapse", "filing": 9}}) + "\n").encode()


STAMP = {"day": "2024-03-01", "minute": 540}
LAPSES, STAMPED = (b"".join(lapse(number, stamp) for number in (1, 2, 3)) for stamp in ({}, STAMP))
ROWS = b"folio,district,parcel,sub,area,owner\n7,1,7,0,500,10\n8,1,8,0,500,10\n"
TWO = checks.journal_of_lines((checks.ROOT / "examples" / "two-lines.jsonl").read_text())

# Runs of each command that reads or writes a stream: the words, the input, and the file that stands there.
RUNS = (
    (["take"], LAPSES, b""),
    (["opening", "--sender", "9"], ROWS, b""),
    (["settle", "--desks", "2", "--lines"], STAMPED, b""),
    (["settle", "--desks", "2"], b"", TWO),
    (["sample", "--seed", "7", "--size", "20", "--desks", "2"], b"", b""),
)


@contextlib.contextmanager
def folder_of(file):
    """A folder with this journal's file, if there is one."""
    with tempfile.TemporaryDirectory(dir=checks.QUICK) as folder:
        if file:
            (pathlib.Path(folder) / checks.JOURNAL).write_bytes(file)
        yield folder


def ran_in(devices, words, text, folder):
    """How a run in a folder ends, and the receipts that it leaves there."""
    return checks.run(words, folder, input=text, env=devices.environment), receipts_in(folder)


# ---- sessions


def told_by(sent):
    """What is written to a connection that sends this, whatever becomes of it; nothing where there is none."""
    told = b""
    with contextlib.suppress(OSError), asking.connected(0) as link:
        asking.send(link, sent)
        link.shutdown(socket.SHUT_WR)
        while piece := link.recv(65536):
            told += piece
    return told


class Sessions:
    """Connections over one journal, of which each posts a line of its own twice and then asks for nothing."""

    def __init__(self, folder):
        self.kept, self.reference = kept_lines.Kept(folder), 0

    def next(self):
        """The bytes of the next one, and what it is told."""
        self.reference += 1
        number = len(self.kept.references) + 1
        accepted, repeated = reply(201, "Created", b"accepted %d\n" % number), reply(200, "OK", b"repeated %d\n" % number)
        return kept_lines.post_of(self.reference) * 2 + head("GET", "/x"), accepted + repeated + NOT_FOUND

    def wrong_after(self, told, whole):
        """What is wrong where the last one was told this: it is a front, and the file has what was acknowledged. Then
        its line comes again."""
        if not whole.startswith(told):
            return f"it is told {told}"
        if wrong := self.wrong_by(told, 1):
            return wrong
        again = told_by(kept_lines.post_of(self.reference))
        return self.wrong_by(again, 0) if kept_lines.replies_in(again) else f"asked again it is told {again}"

    def wrong_by(self, told, most_in_hand):
        """What is wrong with the first reply to the line, or with the file."""
        replies = kept_lines.replies_in(told)[:1]
        return self.kept.wrong_after({self.reference: reply for reply in replies}, range(1, self.reference + 1), most_in_hand)
