#!/usr/bin/env python3
"""Gives the built program sources that have no end: inputs of each command that reads one, and heads, bodies, chunks
and requests over a connection.

An input ends the run with status 9 once it gave more than 64 MiB: the lines in the first 64 MiB that a line feed ends
are answered, and of a list nothing is received. A head is refused at 8,192 bytes and a body at its length, and the
connection is closed, though its peer sends on; others are answered meanwhile. Lines and connections take no more
memory for that: where it has less than was sent, the program answers the same.

Where another program has the port, no connection is tried.
"""

import contextlib
import fcntl
import os
import resource
import select
import socket
import subprocess
import tempfile
import threading
import time

import asking
import checks
from asking import BAD_REQUEST, NOT_FOUND, NOT_JSON, TOO_LONG, head

MOST = 64 * 2**20
TOO_LONG_INPUT = b"input too long\n"

# How many bytes the program reads at once at most, and a pipe holds.
BLOCK = 65_536

# Less memory than an input has that is too long.
ROOM = 48 * 2**20
LITTLE = ("sh", "-c", f'ulimit -v {ROOM >> 10} && exec "$@"', "sh")

TAKE = ["take"]
LINES = ["settle", "--desks", "1", "--lines"]
OPENING = ["opening", "--sender", "9"]
SETTLE = ["settle", "--desks", "1"]

# A line of so many bytes with its line feed comes again and again in a few thousand times.
LONG = 8192

ROWS = b"folio,district,parcel,sub,area,owner\n7,12,345,6,800,10\n"

# Seconds after which a peer that sends without an end is closed, and milliseconds of the slowest request beside one.
CLOSED, SLOWEST = 2, 200

# Replies to a peer that asks without an end, and requests of others beside it.
REPLIES, BESIDE = 3000, 50


class RepeatSource:
    """Gives what stands ahead, and then the same bytes again and again."""

    def __init__(self, ahead, again):
        self.ahead, self.block, self.given = ahead, again * max(1, BLOCK // len(again)), 0

    def give(self, take):
        """Gives its bytes to one who says how many of them it took, for as long as it takes some."""
        left = self.ahead
        with contextlib.suppress(OSError):
            while True:
                left = memoryview(left or self.block)
                count = take(left)
                self.given, left = self.given + count, left[count:]


# ---- inputs


def limit():
    resource.setrlimit(resource.RLIMIT_AS, (ROOM, ROOM))


def fed(words, folder, source, before=None):
    """How a run ends whose input is this source."""
    reads, writes = os.pipe()
    fcntl.fcntl(writes, fcntl.F_SETPIPE_SZ, BLOCK)
    child = subprocess.Popen([checks.PROGRAM, *words], cwd=folder, stdin=reads, stdout=subprocess.PIPE, stderr=subprocess.PIPE, preexec_fn=before)
    os.close(reads)
    giving = threading.Thread(target=lambda: source.give(lambda piece: os.write(writes, piece)))
    giving.start()
    with checks.ended_late(child):
        output, errors = child.communicate()
    giving.join()
    os.close(writes)
    return child.returncode, output, errors


def receipts_in(folder):
    """How many receipts the journal's file of a folder has, as `settle` counts them."""
    status, output, _ = checks.run(SETTLE, folder)
    return int(output.split()[-3]) if status == 0 else None


def check_input(look, what, words, source, output, received, before=None):
    """An input without an end is told to be too long, and read no further than it takes to know that; the file has so
    many receipts then, and is not there where that is none."""
    with tempfile.TemporaryDirectory(dir=checks.QUICK) as folder:
        look.same(f"{what}, without an end", fed(words, folder, source, before), (9, output, TOO_LONG_INPUT))
        look.same(f"{what}: it was given more than 64 MiB, and a pipe and a block more at most", MOST < source.given <= MOST + 2 * BLOCK, True)
        kept = receipts_in(folder) if checks.names_in(folder) else None
        look.same(f"{what}: receipts in the file", kept, received)


def check_inputs(look):
    """Lines without an end are not kept. One line is, up to 64 MiB, and so is a list."""
    line, other = (checks.plain(number).encode() + b"\n" for number in (1, 2))
    stamped = checks.stamped(1).encode() + b"\n"
    blank, long, none = (begin.ljust(LONG - 1, end) + b"\n" for begin, end in ((b"", b" "), (line[:-1], b" "), (b"", b"x")))
    check_input(look, "take over line feeds", TAKE, RepeatSource(b"", b"\n"), b"", 0, limit)
    check_input(look, "take over two lines and blank ones", TAKE, RepeatSource(line + other, blank), b"accepted 1\naccepted 2\n", 2, limit)
    again = b"accepted 1\n" + b"repeated 1\n" * (MOST // LONG - 1)
    check_input(look, "take over a line again and again", TAKE, RepeatSource(b"", long), again, 1, limit)
    wrong = b"accepted 1\n" + b"malformed json\n" * ((MOST - len(line)) // LONG)
    check_input(look, "take over a line and others that are none", TAKE, RepeatSource(line, none), wrong, 1, limit)
    check_input(look, "settle over a line and blank ones", LINES, RepeatSource(stamped, blank), b"accepted 1\n", None, limit)
    check_input(look, "settle over a line again and again", LINES, RepeatSource(b"", stamped[:-1].ljust(LONG - 1) + b"\n"), again, None, limit)
    for what, byte in (("blanks", b" "), ("letters", b"x"), ("lists that begin", b"[")):
        check_input(look, f"take over a line and one of {what}", TAKE, RepeatSource(line, byte), b"accepted 1\n", 1)
    check_input(look, "settle over a line and one of letters", LINES, RepeatSource(stamped, b"x"), b"accepted 1\n", None)
    for what, more in (("line feeds", b"\n"), ("rows", b"8,12,346,6,800,10\n"), ("a field", b"1"), ("a quoted field", b'"x')):
        check_input(look, f"opening over a row and {what}", OPENING, RepeatSource(ROWS, more), b"", 0)
    with tempfile.TemporaryDirectory(dir=checks.QUICK) as folder, open("/dev/zero", "rb") as zeros:
        look.same("take over a device of zeros", checks.run(TAKE, folder, stdin=zeros), (9, b"", TOO_LONG_INPUT))


def check_again(look):
    """What was acknowledged ahead of an endless input is repeated when it comes again."""
    line = checks.plain(1).encode() + b"\n"
    with tempfile.TemporaryDirectory(dir=checks.QUICK) as folder:
        fed(TAKE, folder, RepeatSource(line, b"x"))
        look.same("the line ahead of an endless input, again", checks.run(TAKE, folder, input=line), (0, b"repeated 1\n", b""))


def check_unread(look):
    """A command without an input takes none."""
    with tempfile.TemporaryDirectory(dir=checks.QUICK) as folder:
        source = RepeatSource(b"", b"x")
        look.same("settle of the file beside an endless input", fed(SETTLE, folder, source), (0, b"end receipts 0 folios 0\n", b""))
        look.at_most("bytes of it that are in the pipe", source.given, BLOCK)


# ---- connections


# What a peer sends first, what it sends then without an end, and what it is told.
PEERS = {
    "line feeds": (b"", b"\n", BAD_REQUEST),
    "empty lines": (b"", b"\r\n", BAD_REQUEST),
    "zeros": (b"", b"\0", BAD_REQUEST),
    "a method": (b"", b"G", BAD_REQUEST),
    "a target": (b"GET /", b"x", BAD_REQUEST),
    "a header line": (b"GET /x HTTP/1.1\r\na: ", b"x", BAD_REQUEST),
    "header lines": (b"GET /x HTTP/1.1\r\n", b"a: b\r\n", BAD_REQUEST),
    "a body of the longest length": (head("POST", "/receipts", more="Content-Length: 65536\r\n"), b"x", NOT_JSON + BAD_REQUEST),
    "a body that nobody wants": (head("GET", "/x", more="Content-Length: 65536\r\n"), b"x", NOT_FOUND + BAD_REQUEST),
    "a body of a byte more": (head("POST", "/receipts", more="Content-Length: 65537\r\n"), b"x", TOO_LONG),
    "a body of eight digits": (head("POST", "/receipts", more="Content-Length: 99999999\r\n"), b"x", TOO_LONG),
    "a body of nine digits": (head("POST", "/receipts", more="Content-Length: 999999999\r\n"), b"x", BAD_REQUEST),
    "chunks": (head("POST", "/receipts", more="Transfer-Encoding: chunked\r\n"), b"5\r\nhello\r\n", BAD_REQUEST),
    "a body without a length": (head("POST", "/receipts"), b"x", NOT_JSON + BAD_REQUEST),
}


class EndlessPeer(threading.Thread):
    """A peer that sends without an end: what it is told, and after how many seconds it is closed."""

    def __init__(self, ahead, again):
        super().__init__()
        self.source, self.told, self.seconds, self.goes_on = RepeatSource(ahead, again), b"", None, True
        self.link = asking.connected()
        self.start()

    def run(self):
        begun = time.monotonic()
        with self.link:
            self.source.give(self.take)
            with contextlib.suppress(OSError):
                self.told += self.link.recv(BLOCK, socket.MSG_DONTWAIT)
        self.seconds = time.monotonic() - begun

    def stop(self):
        """Ends a peer that is not closed."""
        self.goes_on = False
        self.join()

    def take(self, piece):
        """Sends some of a piece once the program takes it, and reads what it writes meanwhile. The program may have
        shut its side, and throws away for a while what comes."""
        while self.goes_on:
            reads, writes, _ = select.select([self.link], [self.link], [], CLOSED)
            if reads and (told := self.link.recv(BLOCK)):
                self.told += told
            elif writes:
                return self.link.send(piece)
            elif not reads:
                break
        raise TimeoutError


def milliseconds_beside(peer):
    """What each request of another client takes until a peer is closed, and how many are answered otherwise."""
    times, wrong = [], 0
    while peer.is_alive() or not times:
        begun = time.perf_counter()
        wrong += asking.said(head("GET", "/x")) != NOT_FOUND
        times.append((time.perf_counter() - begun) * 1000)
    return times, wrong


def check_peers(look, folder):
    with asking.serving(folder, before=LITTLE) as child:
        asking.connected().close()
        worst = 0.0
        for what, (ahead, again, wanted) in PEERS.items():
            peer = EndlessPeer(ahead, again)
            times, wrong = milliseconds_beside(peer)
            worst = max(worst, *times)
            look.same(f"a peer that sends {what} without an end: what it is told", peer.told, wanted)
            look.same(f"a peer that sends {what}: it is closed, and others are answered", (peer.seconds < CLOSED, wrong), (True, 0))
        look.at_most(f"{len(PEERS)} peers that send without an end: milliseconds of the slowest request beside one", round(worst), SLOWEST)
        look.same("the program serves on", child.poll(), None)


ASKED = {
    "GET": (head("GET", "/x"), NOT_FOUND),
    "POST": (asking.posted(1), asking.reply(200, "OK", b"repeated 1\n")),
}


def check_requests(look):
    """A peer that asks without an end is answered, and others beside it are, until the replies are used up."""
    for what, (asks, reply) in ASKED.items():
        with tempfile.TemporaryDirectory(dir=checks.QUICK) as folder:
            with asking.serving(folder):
                asking.said(asking.posted(1))
                peer = EndlessPeer(b"", asks)
                others = sum(asking.said(head("GET", "/y")) == NOT_FOUND for _ in range(BESIDE))
                peer.stop()
            look.same(f"a peer that asks {what} without an end: requests that are answered beside it", others, BESIDE)
            look.same(f"a peer that asks {what}: its replies", reply * (len(peer.told) // len(reply) + 1) > peer.told > reply, True)
            with asking.serving(folder, REPLIES) as child:
                peer = EndlessPeer(b"", asks)
                ended = child.wait(checks.LIMIT), child.stderr.read()
                peer.join()
            look.same(f"a peer that asks {what} until the replies are used up", (peer.told == reply * REPLIES, ended), (True, (0, b"")))


def main():
    checks.build()
    look = checks.Checks()
    check_inputs(look)
    check_again(look)
    check_unread(look)
    if not asking.is_free():
        look.skip("endless peers", "another program has the port")
        look.end()
    with tempfile.TemporaryDirectory(dir=checks.QUICK) as folder:
        check_peers(look, folder)
    check_requests(look)
    look.end()


if __name__ == "__main__":
    main()
