#!/usr/bin/env python3
"""Asks the built program over TCP while other peers of its port hold it up as they can: they say nothing, send a
byte each half second, send the hello of TLS, ask without a pause, or ask for more than they ever read.

    scripts/check-silent.py                              1, 60 and 300 such peers, and 200 requests beside each
    scripts/check-silent.py --peers 1,200,1000 --requests 1000
    scripts/check-silent.py --program PATH               another program than the built one

Half of the requests come over one connection, half over a connection each. The slowest is answered within 200
milliseconds, beside peers that never read within two and a half seconds. A peer that the program closes comes again
within half a second. Besides: who says nothing or does not end what it says is closed after ten seconds, and not counted.

Where another program has the port, nothing is checked, and the script says so.
"""

import argparse
import contextlib
import multiprocessing
import os
import pathlib
import resource
import select
import socket
import ssl
import tempfile
import time

import asking
import checks
from asking import HOST, NOT_FOUND, PORT, connected, head, is_free, posted, said, serving

# The slowest request, in milliseconds.
SLOWEST, SLOWEST_UNREAD = 200, 2500

# How many peers that never read come at once, what each asks for, and how often.
UNREAD, ASKED_UNREAD = 6, 400

# Seconds between two bytes of a peer that drips, after which others come for those that were closed; after which one
# that never reads, and does not see its end, comes again; and after which a peer is closed that says nothing or does
# not end.
DRIP, AGAIN, PATIENCE = 0.5, 3, 10

# Seconds after which a peer is closed at the latest.
LATEST = PATIENCE + 1.5


def hello():
    """The first bytes of a client that begins TLS."""
    sent = ssl.MemoryBIO()
    client = ssl.create_default_context().wrap_bio(ssl.MemoryBIO(), sent, server_hostname="registry.example")
    with contextlib.suppress(ssl.SSLWantReadError):
        client.do_handshake()
    return sent.read()


# What a peer of each kind sends when it comes, and each half second after that.
KINDS = {
    "say nothing": (b"", b""),
    "send a byte each half second": (b"G", b"x"),
    "send the hello of TLS": (hello(), b""),
    "ask without a pause": (head("GET", "/x"), b""),
    "never read": (head("GET", "/report") * ASKED_UNREAD, b""),
}


class Crowd:
    """Peers of one kind, in this process. Where one is closed another comes."""

    def __init__(self, kind, count):
        (self.first, self.later), self.reads = KINDS[kind], kind != "never read"
        self.asks_again = kind == "ask without a pause"
        self.poll, self.peers, self.closed, self.gone = select.poll(), {}, 0, 0
        for _ in range(count):
            self.come()

    def come(self):
        peer = socket.socket()
        if not self.reads:
            # The less the peer's own side takes, the sooner the program has to wait for it.
            peer.setsockopt(socket.SOL_SOCKET, socket.SO_RCVBUF, 4096)
        peer.settimeout(checks.LIMIT)
        peer.connect((HOST, PORT))
        peer.setblocking(False)
        self.peers[peer.fileno()] = peer
        # Of one that never reads only its end is looked for.
        self.poll.register(peer, select.POLLIN if self.reads else 0)
        self.send(peer, self.first)

    def send(self, peer, bytes):
        with contextlib.suppress(OSError):
            peer.send(bytes)

    def go(self, number):
        self.poll.unregister(number)
        self.peers.pop(number).close()
        self.closed += 1

    def look(self, seconds):
        """Notes those that were closed, and has those ask again that were answered."""
        for number, _ in self.poll.poll(seconds * 1000):
            peer = self.peers[number]
            if self.asks_again and self.heard(peer):
                self.send(peer, self.first)
            else:
                self.go(number)
                self.gone += 1

    def heard(self, peer):
        with contextlib.suppress(OSError):
            return peer.recv(65536)
        return b""

    def live(self, ready, stop):
        """Lets the peers do what they do until they are told to stop."""
        ready.send(len(self.peers))
        start = time.monotonic()
        tick, again = start + DRIP, start + AGAIN
        while not stop.poll(0):
            self.look(0.02)
            if time.monotonic() > tick:
                tick += DRIP
                for peer in list(self.peers.values()) if self.later else []:
                    self.send(peer, self.later)
                while self.gone:
                    self.gone -= 1
                    self.come()
            if not self.reads and time.monotonic() > again:
                again += AGAIN
                for number in list(self.peers):
                    self.go(number)
                    self.come()
        ready.send(self.closed)


def crowd_lives(kind, count, ready, stop):
    try:
        Crowd(kind, count).live(ready, stop)
    except OSError as error:
        ready.send(error)


@contextlib.contextmanager
def crowd(kind, count):
    """So many peers, in a process of their own; how often one was closed is told in the end."""
    ready, told = multiprocessing.Pipe()
    stop, stopped = multiprocessing.Pipe()
    process = multiprocessing.Process(target=crowd_lives, args=(kind, count, told, stopped), daemon=True)
    process.start()
    there = ready.recv()
    if there != count:
        raise RuntimeError(f"the peers that {kind}: {there}")
    if KINDS[kind][1]:
        time.sleep(DRIP)
    try:
        yield ready
    finally:
        stop.send(None)
        process.join(checks.LIMIT)


class Client:
    """Asks over one connection, or over one each, and notes how long each answer takes."""

    def __init__(self):
        self.times, self.wrong = [], []
        self.kept = connected()

    def ask(self, sent, wanted, alone):
        start = time.perf_counter()
        link = connected() if alone else self.kept
        told = b""
        with contextlib.suppress(OSError):
            link.sendall(sent)
            told = asking.so_many_of(link, len(wanted))
        self.times.append(time.perf_counter() - start)
        if alone:
            link.close()
        if told != wanted:
            self.wrong.append((len(self.times), sent[:20], told[:40]))

    def ask_all(self, requests):
        """So many requests: reads, and filings of which each opens a folio of its own. A connection that is kept has
        had a reply before the others come."""
        for number in range(requests):
            if number % 4:
                self.ask(head("GET", "/x"), NOT_FOUND, number % 2)
            else:
                line = posted(1_000_000 + len(self.times))
                self.ask(line, asking.reply(201, "Created", b"accepted %d\n" % self.next()), number % 8 == 4)

    def next(self):
        """The number of the next receipt."""
        self.received = getattr(self, "received", self.before) + 1
        return self.received


def many_rights():
    """A journal of a folio with many rights, so that its report is long; and how many receipts it has."""
    lines = [checks.filing(1, checks.opening(1))]
    for number in range(2, 33):
        acts = [checks.land_charge(1, 10_000, group) for group in range(1, 9)]
        item = checks.filed(acts, [checks.consent(act, 10) for act in range(1, 9)])
        lines.append({**checks.filing(number, checks.opening(1)), "item": item})
    return checks.journal_of_lines(checks.text_of(lines).decode()), len(lines)


def check_beside(look, kind, count, requests, slowest):
    """A client's requests beside so many peers of a kind."""
    file, received = many_rights()
    with tempfile.TemporaryDirectory(dir=checks.QUICK) as folder:
        (pathlib.Path(folder) / checks.JOURNAL).write_bytes(file)
        with serving(folder) as child:
            connected().close()
            with crowd(kind, count) as told:
                client = Client()
                client.before = received
                client.ask_all(requests)
            closed, worst = told.recv(), max(client.times) * 1000
            what = f"{requests} requests beside {count} peers that {kind}"
            look.same(f"{what}: those that are answered otherwise", client.wrong[:3], [])
            look.at_most(f"{what}, of which {closed} were closed: milliseconds of the slowest", round(worst), slowest)
            look.same(f"{what}: the program serves on", child.poll(), None)


def seconds_until_closed(sent):
    """What the program writes to connections that send these, and after how many seconds it closes them."""
    with contextlib.ExitStack() as opened:
        links, start = [opened.enter_context(connected()) for _ in sent], time.monotonic()
        for link, bytes in zip(links, sent):
            link.sendall(bytes)
        told, ends = [b"" for _ in links], {}
        while len(ends) < len(links) and time.monotonic() < start + LATEST + 5:
            for link in select.select([link for link in links if link not in ends], [], [], 1)[0]:
                piece = asking.some_of(link)
                told[links.index(link)] += piece
                if not piece:
                    ends[link] = time.monotonic() - start
        return [(one, ends.get(link, 0)) for one, link in zip(told, links)]


def check_patience(look, folder):
    """Who says nothing, or does not end what it says, is closed after ten seconds."""
    begun = {
        "says nothing": b"",
        "sends a part of a head": b"GET /x HTTP/1.1\r\nHost:",
        "sends a part of a body": head("POST", "/receipts", b"x" * 10)[:-1],
        "sends the hello of TLS": hello(),
        "says nothing after a reply": head("GET", "/x"),
    }
    with serving(folder) as child:
        connected().close()
        for what, (told, seconds) in zip(begun, seconds_until_closed(list(begun.values()))):
            wanted = NOT_FOUND if "reply" in what else b""
            look.same(f"a peer that {what}: what it is told", told, wanted)
            look.same(f"a peer that {what}: it is closed after {PATIENCE} seconds", PATIENCE - 0.5 < seconds < LATEST, True)
        look.same("the program serves on", child.poll(), None)


def check_kept(look, folder):
    """A connection that is kept is not closed where others ask, and its requests are answered in between."""
    with serving(folder), connected() as kept:
        answers = 0
        for _ in range(20):
            kept.sendall(head("GET", "/x"))
            answers += asking.so_many_of(kept, len(NOT_FOUND)) == NOT_FOUND
            answers += said(head("GET", "/x")) == NOT_FOUND
            time.sleep(0.08)
        look.same("a connection that is kept while others ask: answers", answers, 40)
    with serving(folder), connected() as one, connected() as other:
        one.sendall(head("GET", "/x") * 2000)
        other.sendall(head("GET", "/x"))
        asking.so_many_of(other, len(NOT_FOUND))
        one.setblocking(False)
        before = len(one.recv(1 << 24))
        look.same("one request beside two thousand of another connection comes in between", before < 1900 * len(NOT_FOUND), True)
        one.settimeout(checks.LIMIT)
        one.shutdown(socket.SHUT_WR)
        look.same("all of them are answered", before + len(asking.all_of(one)), 2000 * len(NOT_FOUND))


def check_slow_request(look, folder):
    """A request that comes byte by byte is answered, while others ask."""
    sent = posted(1)
    with serving(folder), connected() as slow:
        for at in range(len(sent)):
            slow.sendall(sent[at : at + 1])
            if at % 20 == 0:
                said(head("GET", "/x"))
        wanted = asking.reply(201, "Created", b"accepted 1\n")
        look.same("a request that comes byte by byte while others ask", asking.so_many_of(slow, len(wanted)), wanted)


def check_uncounted(look, folder):
    """Who says nothing is not counted: neither connections that come and go, nor those that stay."""
    with serving(folder, 3) as child, contextlib.ExitStack() as opened:
        for _ in range(50):
            connected().close()
        for _ in range(20):
            opened.enter_context(connected())
        told = [said(head("GET", "/x")) for _ in range(3)]
        look.same("three requests beside seventy connections that say nothing", told, [NOT_FOUND] * 3)
        look.same("the end after three replies", (child.wait(checks.LIMIT), child.stderr.read()), (0, b""))


def main():
    words = argparse.ArgumentParser(description=__doc__, formatter_class=argparse.RawDescriptionHelpFormatter)
    words.add_argument("--peers", default="1,60,300")
    words.add_argument("--requests", type=int, default=200)
    words.add_argument("--program")
    given = words.parse_args()
    if given.program:
        checks.PROGRAM = pathlib.Path(os.path.abspath(given.program))
    else:
        checks.build()
    look = checks.Checks()
    if not is_free():
        look.skip("peers that hold others up", f"another program has port {PORT}")
        look.end()
    # A peer is a file of this process.
    _, most = resource.getrlimit(resource.RLIMIT_NOFILE)
    resource.setrlimit(resource.RLIMIT_NOFILE, (most, most))
    for count in [int(word) for word in given.peers.split(",")]:
        for kind in ("say nothing", "send a byte each half second", "send the hello of TLS", "ask without a pause"):
            # Where more ask without a pause than are held, a connection that is kept is closed behind a reply.
            check_beside(look, kind, min(count, 200) if kind == "ask without a pause" else count, given.requests, SLOWEST)
    check_beside(look, "never read", UNREAD, given.requests, SLOWEST_UNREAD)
    for check in (check_patience, check_kept, check_slow_request, check_uncounted):
        with tempfile.TemporaryDirectory(dir=checks.QUICK) as folder:
            check(look, folder)
    look.end()


if __name__ == "__main__":
    main()
