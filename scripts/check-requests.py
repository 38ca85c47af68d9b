#!/usr/bin/env python3
"""Asks the built program over TCP with requests that are right and spoiled, and compares what it writes with what
docs/formats/http.md says: a few by hand, and thousands that are drawn (drawn_requests.py), whose replies
plain_requests.py tells from their bytes.

    scripts/check-requests.py [--seed S] [--requests N]

N requests are drawn, 16,000 where none is said. They come over connections that are cut at drawn places, some of
them two or three at once, to a program that begins with a drawn journal; what `settle` prints of the same receipts
says the texts. Where another program has the port, nothing is checked. So that several run beside one another,
each gets a network of its own: `unshare -n sh -c 'ip link set lo up; scripts/check-requests.py --seed 2'`.
"""

import argparse
import collections
import contextlib
import itertools
import json
import os
import random
import re
import select
import socket
import tempfile

import checks
import plain_lines
import spelling
import wrong_lines
from asking import (
    BAD_REQUEST, NOT_FOUND, NOT_JSON, NO_SENDER, TOO_LONG, WRONG_METHOD, all_of, connected, head, is_free, reply, said, serving,
)
from drawn_journals import DrawnJournal
from drawn_requests import DrawnConnections
from plain_requests import Office, Text
from report_texts import is_csv_of, texts_of

DRAWN = 16_000

# Requests that are drawn together, over one journal.
ROUND = 400

# No more differences are shown.
SHOWN = 20

EMPTY_REPORT = b"end receipts 0 folios 0\n"
REPORT = reply(200, "OK", EMPTY_REPORT)

# A connection that has sent fewer bytes, and no empty line, has sent no request.
LEAST_REFUSED = 8192
EMPTY_LINE = re.compile(rb"\n\r?\n")


# ---- by hand


def check(look, what, sent, wanted, size=0):
    """Whether the program writes this where its journal is empty, and plain_requests.py says the same."""
    replies, _ = Office(plain_lines.Journal()).serve(sent)
    told = b"".join(bytes_of(one, {"/report": EMPTY_REPORT.decode()}, b"") for one in replies)
    look.same(what, (said(sent, size), told), (wanted, wanted))


def check_headers(look):
    """What each header decides; two bytes stand behind the head, and then a whole request."""
    once, none = NOT_JSON, NOT_JSON + BAD_REQUEST
    for headers, wanted in (
        ("Content-Length: 0", none),
        ("content-LENGTH: 2", NO_SENDER + NOT_FOUND),
        ("Content-Length: 00000002", NO_SENDER + NOT_FOUND),
        ("Content-Length: 000000002", BAD_REQUEST),
        ("Content-Length: 123456789", BAD_REQUEST),
        ("Content-Length: +2", BAD_REQUEST),
        ("Content-Length:", BAD_REQUEST),
        ("Content-Length: 2\r\nContent-Length: 2", BAD_REQUEST),
        ("Content-Length: 65536", b""),
        ("Content-Length: 65537", TOO_LONG),
        ("Content-Length: 99999999", TOO_LONG),
        ("Transfer-Encoding: chunked", BAD_REQUEST),
        ("transfer-encoding: identity\r\nContent-Length: 2", BAD_REQUEST),
        ("Connection: keep-alive", none),
        ("Connection: keep-alive, close", none),
        ("Connection: keep-alive\r\nconnection: CLOSE", once),
        ("Connexion: close", none),
    ):
        sent = f"POST /receipts HTTP/1.1\r\n{headers}\r\n\r\n{{}}GET /x HTTP/1.1\r\n\r\n".encode()
        check(look, f"the headers {headers!r}", sent, wanted)
    browser = "Host: 127.0.0.1:7117\r\nUser-Agent: Mozilla/5.0\r\nAccept: text/html,*/*;q=0.8\r\nConnection: keep-alive\r\n"
    check(look, "a browser's headers", head("GET", "/x", more=browser), NOT_FOUND)


def check_limits(look):
    """A head has 8,192 bytes and 64 lines at most; one without an end is refused at 8,192 bytes."""

    def long_head(size):
        return b"GET / HTTP/1.1\r\na: ".ljust(size - 4, b"x") + b"\r\n\r\n"

    for size, wanted in ((8192, NOT_FOUND), (8193, BAD_REQUEST)):
        check(look, f"a head of {size} bytes", long_head(size), wanted)
    for size, wanted in ((8191, b""), (8192, BAD_REQUEST), (8193, BAD_REQUEST)):
        check(look, f"{size} bytes of a head without an end", long_head(9000)[:size], wanted)
    for lines, wanted in ((64, NOT_FOUND * 2), (65, BAD_REQUEST), (1000, BAD_REQUEST)):
        sent = b"GET / HTTP/1.1\n" + b"a:\n" * lines
        check(look, f"{lines} header lines without an end", sent, b"")
        check(look, f"{lines} header lines, and another request", sent + b"\n" + head("GET", "/x"), wanted)


def check_cuts(look):
    """Requests in a row are answered alike wherever their bytes are cut; one that ends inside has no reply."""
    sent = (
        b"POST /receipts HTTP/1.1\r\nContent-Length: 2\r\n\r\n{}"
        b"\r\n\nGET /report HTTP/1.1\n\n"
        b"POST /report HTTP/1.1\nHost: b\nContent-Length: 00000002\n\n\r\n"
        b"PUT /receipts/1 HTTP/1.1\r\nHost: a\r\n\r\n"
        b"GET / HTTP/1.1\r\nA: b\r\nTransfer-Encoding: chunked\r\n\r\nxyz"
    )
    wanted = NO_SENDER + REPORT + WRONG_METHOD * 2 + BAD_REQUEST
    check(look, "five requests in a row", sent, wanted)
    steps = [size for size in range(1, len(sent) + 1) if said(sent, size) != wanted]
    look.same(f"{len(sent)} bytes in pieces of 1 to {len(sent)} bytes: those that are answered otherwise", steps, [])
    post = head("POST", "/receipts", b"hello", more="Host: a\r\n")
    inside = [size for size in range(len(post)) if said(post[:size]) != b""]
    look.same(f"a connection that ends inside a request of {len(post)} bytes, at each of them: those with a reply", inside, [])
    check(look, "a target that is no text, cut off", b"GET /\xff", b"")
    check(look, "a target that is no text", b"GET /\xff ", BAD_REQUEST)
    two = b"GET /report HTTP/1.0\n\nGET /plans/7 HTTP/1.1\r\n\r\n"
    check(look, "a request after one of version 1.0", two, REPORT)


def check_paths(look):
    """Each route is found at its path alone, and by its method alone."""
    for path in ("/receipts/4294967295", "/folios/1", "/folios/1/ranks", "/plans/4294967295", "/plans/4294967295/csv"):
        check(look, f"GET {path}", head("GET", path), NOT_FOUND)
        check(look, f"POST {path}", head("POST", path), WRONG_METHOD)
    for method, path in (("GET", "/receipts"), ("POST", "/report"), ("DELETE", "/report"), ("PUT", "/folios/1")):
        check(look, f"{method} {path}", head(method, path), WRONG_METHOD)
    for path in (
        "/", "/receipts/", "/receipts/01", "/receipts/0", "/receipts/+1", "/receipts/1/", "/receipts/4294967296", "/receipts/1a",
        "/receipts/1/ranks", "/receipts?x=1", "/folios", "/folios//ranks", "/folios/1/rank", "/folios/1/ranks/", "/folios/1/csv",
        "/plans/1?x=1", "/plans/\u00ff", "/Report", "/report/", "http://a/report",
    ):
        # Where a route had this path, one of the two methods would be the wrong one.
        check(look, f"GET and POST {path}", head("GET", path) + head("POST", path), NOT_FOUND * 2)


# ---- drawn requests


# The bytes of a connection, the replies to it, and how many of the bytes are read before the program closes it.
Link = collections.namedtuple("Link", "data replies closed")


def story_of_a_case(chance):
    """The stamped lines of a case that has a forced sale, as a journal has them."""
    case = chance.choice(sorted(checks.ROOT.glob("cases/plan-*.jsonl")) + sorted(checks.ROOT.glob("cases/sale-*.jsonl")))
    journal, lines, last = plain_lines.Journal(), [], ("", 0)
    for text in case.read_bytes().splitlines():
        if (journal.reply_to(text, plain_lines.STAMPED_LINE) or "").startswith("accepted"):
            line = json.loads(text)
            last = max(last, (line["day"], line["minute"]))
            lines.append({**line, "day": last[0], "minute": last[1]})
    return lines


def posted(line):
    """A stamped line as the body of a request."""
    return wrong_lines.compact({name: line[name] for name in ("sender", "reference", "item")}).encode()


class Round:
    """Requests that are drawn together: the journal with which the program begins, the connections, and what is
    written to them."""

    def __init__(self, seed, number, size):
        self.chance = random.Random(f"{seed} {number}")
        folios = self.chance.randint(1, 3)
        begun, story = self.story(folios)
        self.file = checks.journal([spelling.receipt(line) for line in begun])
        self.office = Office(plain_lines.Journal())
        for line in begun:
            self.office.journal.received(line)
        known = [*range(1, folios + 2), *{act["folio"] for line in begun for act in line["item"].get("acts", [])}]
        self.draws = DrawnConnections(self.chance, [posted(line) for line in story], lambda: len(self.office.journal.items), known)
        self.links = []
        while size:
            data, count = self.draws.connection(size)
            self.links.append(Link(data, *self.office.serve(data)))
            size -= count
        self.most = self.end()
        self.statuses = collections.Counter()

    def story(self, folios):
        """The lines of the journal that stands at the beginning, and those of which it goes on."""
        if self.chance.randrange(4) == 0:
            return story_of_a_case(self.chance), []
        lines = list(DrawnJournal(self.chance.randrange(2**32), folios).lines(self.chance.randint(30, 90)))
        begun = self.chance.randint(0, len(lines))
        return lines[:begun], lines[begun:]

    def end(self):
        """Adds the last connection. The program is told to write so many replies, and ends at one of its replies, or
        after it where there are more connections than replies."""
        data = b"".join(head("GET", path) for path in ("/report", "/receipts/1", "/folios/1", "/folios/1/ranks", "/x"))
        replies, _ = self.office.serve(data)
        before = sum(len(link.replies) for link in self.links)
        most = max(before + self.chance.randint(1, len(replies)), len(self.links) + 1)
        self.links.append(Link(data, replies[: most - before], 0))
        return most

    def served(self):
        """What the program writes to each connection, how it ends, and the file that it leaves."""
        with tempfile.TemporaryDirectory(dir=checks.QUICK) as folder:
            path = os.path.join(folder, checks.JOURNAL)
            with open(path, "wb") as file:
                file.write(self.file)
            with serving(folder, self.most, desks=self.chance.randint(1, 3)) as child:
                told, at = [], 0
                while at < len(self.links):
                    beside = self.links[at : at + self.chance.choice([1, 1, 1, 1, 1, 1, 2, 3])]
                    told += self.at_once(beside)
                    at += len(beside)
                said = child.communicate(timeout=checks.LIMIT)
            with open(path, "rb") as file:
                return told, (child.returncode, *said), file.read()

    def at_once(self, links):
        """What is written to connections of which each has sent a part of its first request, or nothing, before the
        first sends on. Each is served to its end before the next sends on, and gets nothing until then."""
        with contextlib.ExitStack() as opened:
            sockets = [opened.enter_context(connected()) for _ in links]
            begun = [0, *(self.begun(link) for link in links[1:])]
            for socket_of, link, size in zip(sockets, links, begun):
                socket_of.sendall(link.data[:size])
            told = []
            for socket_of, link, size in zip(sockets, links, begun):
                if select.select(sockets[len(told) :], [], [], 0)[0]:
                    return ["answered before it asked"] * len(links)
                for piece in [link.data[size:]] if size else self.pieces(link):
                    socket_of.sendall(piece)
                socket_of.shutdown(socket.SHUT_WR)
                told.append(all_of(socket_of))
            return told

    def begun(self, link):
        """A number of bytes with which no request of a connection is whole, or refused."""
        line = EMPTY_LINE.search(link.data)
        return self.chance.randint(0, min(line.start() if line else len(link.data), LEAST_REFUSED - 1))

    def pieces(self, link):
        """The bytes of a connection in the pieces in which they are sent. What is read after the last reply, if anything,
        comes with the last piece, so that the program does not wait for it in vain."""
        draw, last = self.chance.randrange(6), link.closed
        if draw < 4 or last < 2:
            return [link.data]
        cuts = range(1, last) if draw == 4 and last < 400 else sorted({self.chance.randrange(1, last) for _ in range(5)})
        return [link.data[begin:end] for begin, end in itertools.pairwise([0, *cuts, len(link.data)])]


class Reports:
    """The texts of the first so many receipts of a journal's file, as `settle` prints them."""

    def __init__(self, file):
        self.file, self.texts = file, {}
        self.gates, _, _ = checks.frames_of(file)

    def of(self, count):
        """Each text by its path."""
        if count not in self.texts:
            self.texts[count] = texts_of(self.settled(count).decode())
        return self.texts[count]

    def settled(self, count):
        with tempfile.TemporaryDirectory(dir=checks.QUICK) as folder:
            with open(os.path.join(folder, checks.JOURNAL), "wb") as file:
                file.write(self.file[: self.gates[count]] + b"\0")
            return checks.run(["settle", "--desks", "1"], folder)[1]


def bytes_of(one, texts, told):
    """The bytes of a reply. Where they are a table as CSV it stands in what was told, if that one is right."""
    if isinstance(one, bytes):
        return one
    text = texts.get(one.path.removesuffix("/csv"))
    if text is None:
        return NOT_FOUND
    if one.path.endswith("/csv"):
        found = re.match(rb"[^\n]*\r\n[^\n]*\r\nContent-Length: (\d+)\r\n\r\n", told)
        text = told[found.end() :][: int(found[1])].decode() if found else ""
        text = text if is_csv_of(text, texts[one.path.removesuffix("/csv")]) else "the table of this plan"
    return reply(200, "OK", text.encode())


def differences(one, told, reports):
    """The connections of a round to which something else is written."""
    for number, (link, said_of) in enumerate(zip(one.links, told)):
        wanted = b""
        for part in link.replies:
            texts = reports.of(part.receipts) if isinstance(part, Text) else {}
            wanted += bytes_of(part, texts, said_of[len(wanted) :])
        one.statuses.update(re.findall(rb"^HTTP/1.1 (\d+)", wanted, re.M))
        if said_of != wanted:
            yield f"connection {number}", f"{link.data}: {checks.shortened(said_of)}, and not {checks.shortened(wanted)}"


def check_drawn(look, seed, requests):
    differ, statuses, links = 0, collections.Counter(), 0
    for number, at in enumerate(range(0, requests, ROUND)):
        one = Round(seed, number, min(ROUND, requests - at))
        told, ended, file = one.served()
        reports = Reports(file)
        found = list(differences(one, told, reports))
        if ended != (0, b"", b""):
            found.append(("the end", ended))
        if checks.receipts_without_stamps(file) != one.office.journal.receipts():
            found.append(("the file", len(reports.gates) - 1))
        for what, why in found[: max(0, SHOWN - differ)]:
            look.differs(f"round {number} of seed {seed}, {what}", why)
        differ, links = differ + len(found), links + len(one.links)
        statuses.update(one.statuses)
    words = ", ".join(f"{count} of {status.decode()}" for status, count in sorted(statuses.items()))
    look.same(f"{requests} drawn requests over {links} connections, with replies {words}: those that differ", differ, 0)


def main():
    asked = argparse.ArgumentParser(description=__doc__, formatter_class=argparse.RawDescriptionHelpFormatter)
    asked.add_argument("--seed", type=int, default=20240301)
    asked.add_argument("--requests", type=int, default=DRAWN)
    words = asked.parse_args()
    checks.build()
    look = checks.Checks()
    if not is_free():
        look.skip("requests", "another program has the port")
        look.end()
    with tempfile.TemporaryDirectory() as folder, serving(folder):
        check_headers(look)
        check_limits(look)
        check_cuts(look)
        check_paths(look)
    check_drawn(look, words.seed, words.requests)
    look.end()


if __name__ == "__main__":
    main()
