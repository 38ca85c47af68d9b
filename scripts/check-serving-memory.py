#!/usr/bin/env python3
"""Refuses the built program each call of malloc and realloc in turn while it serves, alone and with all after it.

Each call of a start, and of two sessions over a new file, is refused to a program of its own; those of a request of
each route, and of a receipt and a text after it, one after another to a program that serves on. A request that found
no memory is answered 507, or the program ends with status 6, or its connection is let go, and no other is answered
otherwise. Asked again, by the same program or the next, it is answered as if nothing had been. The file has a front of
what was posted, with all that was acknowledged and one receipt more at most.

Where another program has the port, nothing is checked.
"""

import collections
import contextlib
import itertools
import json
import pathlib
import re
import socket
import tempfile
import time

import asking
import checks
import spelling
import wrong_lines
from asking import BAD_REQUEST, NOT_FOUND, NOT_JSON, NO_SENDER, TOO_LONG, WRONG_METHOD, head, reply
from refused_memory import ALONE, FOLLOWING, OUT_OF_MEMORY, SALE, Refused, is_front, of_several_folios, receipts_in
from report_texts import is_csv_of, texts_of

# A line that opens folio 7.
FIRST = (checks.ROOT / "examples" / "two-lines.jsonl").read_text().splitlines()[0]

# A connection is let go that no memory is found for: at its first two calls, alone or with all after.
LET_GO = 4

WHOLE = re.compile(rb"HTTP/1\.1 \d+ [^\r]*\r\nContent-Type: text/plain\r\nContent-Length: (\d+)\r\n\r\n")

ACCEPTED = reply(201, "Created", b"accepted 1\n")
REPEATED = reply(200, "OK", b"repeated 1\n")
EXTRACT = reply(200, "OK", b"folio 7\ninventory district 12 parcel 345/6 area 800\nowners 10\n")
NO_MEMORY = reply(507, "Insufficient Storage", b"insufficient storage\n")


def without_stamp(line):
    """The body that posts a stamped line."""
    return wrong_lines.compact({name: line[name] for name in ("sender", "reference", "item")}).encode()


def post_of(line):
    return head("POST", "/receipts", without_stamp(line))


def replies_in(told):
    """The whole replies of a connection, and what stands behind them."""
    replies = []
    while found := WHOLE.match(told):
        end = found.end() + int(found[1])
        replies, told = [*replies, told[:end]], told[end:]
    return replies, told


class Office:
    """The program as it serves in a folder while calls are refused, and how it ended where it did: then another is
    started to which none are."""

    def __init__(self, folder, refused, desks=1):
        self.folder, self.refused, self.desks, self.ends = folder, refused, desks, []
        self.program = contextlib.ExitStack()
        self.start()

    def start(self):
        self.program.close()
        self.child = self.program.enter_context(asking.serving(self.folder, env=self.refused.environment, desks=self.desks))

    def again(self):
        """Refuses no more, and starts the program again where it has ended."""
        self.refused.memory.refuse()
        if self.said(head("GET", "/x")) != NOT_FOUND:
            self.ends.append((self.child.wait(checks.LIMIT), self.child.stderr.read()))
            self.start()

    def connected(self):
        """A connection; None where the program has ended."""
        while self.child.poll() is None:
            with contextlib.suppress(ConnectionError):
                return asking.connected(0)
            time.sleep(0.001)
        return None

    def said(self, sent, size=0):
        """What is written to a connection that sends this; nothing where the program has ended or ends."""
        told = b""
        if link := self.connected():
            with link, contextlib.suppress(OSError):
                asking.send(link, sent, size)
                link.shutdown(socket.SHUT_WR)
                while piece := link.recv(65536):
                    told += piece
        return told


@contextlib.contextmanager
def office_over(file, refused, desks=1):
    """The program in a folder of its own, where this file stands, if one does."""
    with tempfile.TemporaryDirectory(dir=checks.QUICK) as folder:
        if file:
            (pathlib.Path(folder) / checks.JOURNAL).write_bytes(file)
        office = Office(folder, refused, desks)
        with office.program:
            yield office


class Tried:
    """What is counted over the calls that are refused one by one."""

    def __init__(self):
        self.wrong, self.ends = [], []
        self.runs = self.refusals = self.silent = self.let_go = 0

    def note(self, name, told, is_right, office):
        """Notes what a connection was told, and how the program ended since the last one, if it did."""
        replies, rest = replies_in(told)
        self.runs += 1
        self.refusals += NO_MEMORY in replies
        self.silent += not replies
        self.let_go += not replies and not office.ends
        if rest or not is_right:
            self.wrong.append((name, checks.shortened(told)))
        self.ends += office.ends
        office.ends = []

    def look(self, look, what, most_let_go=None):
        counts = f"{self.runs} refusals, {self.refusals} answered 507, {self.silent} not at all, {self.let_go} without an end of it"
        look.same(f"{what}: how it ends", set(self.ends) - {OUT_OF_MEMORY}, set())
        look.same(f"{what}: {counts}; those that differ", self.wrong[:3], [])
        if most_let_go:
            look.at_most(f"{what}: connections that are let go though it goes on", self.let_go, most_let_go)


def numbers(first):
    """How calls are refused, and which, without an end."""
    for how in (ALONE, FOLLOWING):
        yield how, itertools.count(first)


def may_be(replies, right):
    """Whether these may be the replies of a connection that asks once: a 507 may follow, where memory runs out before its
    end is read."""
    return replies in ([], [right], [NO_MEMORY], [right, NO_MEMORY])


# ---- programs of their own


def settled(file):
    """The reply that has the report of this file."""
    with tempfile.TemporaryDirectory(dir=checks.QUICK) as folder:
        (pathlib.Path(folder) / checks.JOURNAL).write_bytes(file)
        return reply(200, "OK", checks.run(["settle", "--desks", "1"], folder)[1])


def check_starts(look, refused):
    """A program to which a call is refused while it settles at its desks ends, or serves; the next one serves."""
    file = of_several_folios()
    tried, report = Tried(), settled(file)
    for how, calls in numbers(1):
        for number in calls:
            refused.memory.refuse(how, number)
            with office_over(file, refused, 2) as office:
                told = office.said(head("GET", "/report"))
                were_refused = refused.memory.were_refused()
                office.again()
                is_right = may_be(replies_in(told)[0], report) and office.said(head("GET", "/report")) == report
                tried.note((how, number), told, is_right, office)
            if not were_refused:
                break
    tried.look(look, "a start at two desks, and a report")


# One connection: what is asked, and the replies.
SESSION = [
    (post_of(json.loads(FIRST)), ACCEPTED), (post_of(json.loads(FIRST)), REPEATED), (head("GET", "/folios/7"), EXTRACT),
    (head("DELETE", "/report"), WRONG_METHOD), (head("GET", "/folios/8"), NOT_FOUND),
]


def may_be_told(replies):
    """Whether these replies may be those to the session where memory ran out."""
    known = False
    for told, (_, wanted) in zip(replies, SESSION):
        if wanted == REPEATED and not known:
            is_right = told in (ACCEPTED, REPEATED, NO_MEMORY)
        elif wanted == EXTRACT and not known:
            is_right = told in (EXTRACT, NOT_FOUND, NO_MEMORY)
        else:
            is_right = told in (wanted, NO_MEMORY)
        known = known or told in (ACCEPTED, REPEATED)
        if not is_right:
            return False
    return replies[len(SESSION) :] in ([], [NO_MEMORY])


def check_session(look, refused):
    """A connection that posts a line twice and reads, byte by byte, over a new file."""
    sent, whole = b"".join(asked for asked, _ in SESSION), [spelling.receipt(json.loads(FIRST))[6:]]
    rest = b"".join(told for _, told in SESSION[1:])
    tried = Tried()
    for how, calls in numbers(1):
        for number in calls:
            refused.memory.refuse(how, number)
            with office_over(b"", refused) as office:
                told = office.said(sent, 1)
                is_past = not refused.memory.were_refused()
                office.again()
                found, replies = receipts_in(office.folder), replies_in(told)[0]
                again = (REPEATED if found else ACCEPTED) + rest
                is_right = may_be_told(replies) and is_front(found, whole, ACCEPTED in replies or REPEATED in replies)
                is_right = is_right and office.said(sent, 1) == again and receipts_in(office.folder) == whole
                tried.note((how, number), told, is_right, office)
            if is_past:
                look.same(f"a connection that posts and reads, where call {number} is none", told, ACCEPTED + rest)
                break
    tried.look(look, "a connection that posts and reads")


# Items that the journal's lists have to do with: filings that create rights, one of which waits, and its cures.
CHARGE = checks.land_charge(1, 10_000)
ITEMS = [
    checks.filing(1, checks.opening(1))["item"], checks.filed([CHARGE], [checks.consent(1, 10, "plain")]),
    checks.filed([CHARGE], [checks.consent(1, 10)]), {"kind": "cure", "filing": 2, "docs": [checks.consent(1, 10, "plain")]},
    {"kind": "cure", "filing": 2, "docs": [checks.consent(1, 10)]},
]
LINES = [{"sender": 1, "reference": number, "item": item} for number, item in enumerate(ITEMS, 1)]


def calls_of_a_start(refused):
    """A call of the program over a new file, not long before it waits for connections."""
    refused.memory.refuse()
    with office_over(b"", refused):
        while True:
            made = refused.memory.made()
            with contextlib.suppress(ConnectionRefusedError):
                asking.connected(0).close()
                return made


def check_items(look, refused):
    """Items that are posted over a connection each, to a new file: each is received once, in its turn. What is refused
    before the first is another's to look at."""
    whole = [spelling.receipt({"day": "2024-03-01", "minute": 0, **line})[6:] for line in LINES]
    tried, first, report = Tried(), calls_of_a_start(refused), None
    for how, calls in [(ALONE, [0]), *numbers(first)]:
        for number in calls:
            refused.memory.refuse(how, number)
            with office_over(b"", refused) as office:
                told = [received(office, line, at, whole) for at, line in enumerate(LINES, 1)]
                were_refused = any(one.were_refused for one in told)
                office.again()
                read = office.said(head("GET", "/report"))
                report = report or read
                is_right = all(one.is_right for one in told) and read == report and receipts_in(office.folder) == whole
                tried.note((how, number), b"".join(one.told for one in told), is_right, office)
            if number and not were_refused:
                break
    look.same("the report of five items", (report.count(b"receipt "), report.split()[-3:]), (5, [b"5", b"folios", b"1"]))
    tried.look(look, "five items that are posted")


# What a connection is told that posts a line, whether that is right, and whether calls were refused meanwhile.
Posted = collections.namedtuple("Posted", "told is_right were_refused")


def received(office, line, number, whole):
    """What is told where a line is posted that is to be received under this number, now or once it is posted again."""
    told = office.said(post_of(line))
    replies, found, were_refused = replies_in(told)[0], receipts_in(office.folder), office.refused.memory.were_refused()
    accepted, repeated = reply(201, "Created", b"accepted %d\n" % number), reply(200, "OK", b"repeated %d\n" % number)
    is_right = may_be(replies, accepted) and is_front(found, whole[:number], number if accepted in replies else number - 1)
    if accepted not in replies:
        office.again()
        is_right = is_right and office.said(post_of(line)) == (repeated if len(found) == number else accepted)
    return Posted(told, is_right, were_refused)


# ---- requests of one program


def right_replies(report, file, office):
    """A request of each route and of each refusal of a request, with the reply that it has over the sale."""
    texts = texts_of(report.decode())
    plan = next(path for path in texts if path.startswith("/plans/"))
    csv = replies_in(office.said(head("GET", f"{plan}/csv")))[0][0]
    body = csv.partition(b"\r\n\r\n")[2].decode()
    texts[f"{plan}/csv"] = body if is_csv_of(body, texts[plan]) else "the table of this plan"
    first, folio = json.loads(SALE.read_text().splitlines()[0]), next(path for path in texts if path.startswith("/folios/"))
    paths = ("/receipts/9", folio, f"{folio}/ranks", plan, f"{plan}/csv", "/report")
    return {
        **{f"GET {path}": (head("GET", path), reply(200, "OK", texts[path].encode())) for path in paths},
        "GET of no receipt": (head("GET", "/receipts/999"), NOT_FOUND),
        "GET of no route": (head("GET", "/x"), NOT_FOUND),
        "PUT": (head("PUT", "/report"), WRONG_METHOD),
        "a refused head": (head("GET", "/x", more="Transfer-Encoding: chunked\r\n"), BAD_REQUEST),
        "a body that is too long": (head("POST", "/receipts", more="Content-Length: 65537\r\n"), TOO_LONG),
        "a body that is no JSON": (head("POST", "/receipts", b"x"), NOT_JSON),
        "a body that is no item": (head("POST", "/receipts", b'{"reference":1}'), NO_SENDER),
        "POST of what is there": (post_of(first), REPEATED),
        "POST of another item": (post_of({**first, "item": {"kind": "lapse", "filing": 1}}), reply(409, "Conflict", b"differs 1\n")),
    }


def check_requests(look, refused, file, report):
    """Each call of a request is refused in turn to a program that serves on."""
    with office_over(file, refused, 2) as office:
        office.again()
        for what, (asks, right) in right_replies(report, file, office).items():
            tried = Tried()
            for how, calls in numbers(1):
                for number in calls:
                    refused.memory.refuse(how, number)
                    told = office.said(asks)
                    is_past = not refused.memory.were_refused()
                    office.again()
                    if is_past:
                        look.same(f"{what}, where call {number} is none", told, right)
                        break
                    is_right = may_be(replies_in(told)[0], right)
                    tried.note((how, number), told, is_right and office.said(asks) == right, office)
            tried.look(look, what, LET_GO)


class Lapses:
    """Lines that change no folio, which are posted after the receipts of a file."""

    def __init__(self, file):
        self.receipts, self.reference = checks.receipts_without_stamps(file), 0

    def next(self):
        self.reference += 1
        line = {"sender": 2, "reference": self.reference, "item": {"kind": "lapse", "filing": 1}}
        self.receipts.append(spelling.receipt({"day": "2024-03-01", "minute": 0, **line})[6:])
        return line


def check_posts(look, refused, file):
    """Each call of a receipt is refused in turn, and each of the report that is read after one."""
    lapses, posts, reads = Lapses(file), Tried(), Tried()
    with office_over(file, refused) as office:
        for how, calls in numbers(1):
            for number in calls:
                office.again()
                line = lapses.next()
                refused.memory.refuse(how, number)
                posted = received(office, line, len(lapses.receipts), lapses.receipts)
                office.again()
                posts.note((how, number), posted.told, posted.is_right and receipts_in(office.folder) == lapses.receipts, office)
                if not posted.were_refused:
                    break
        for how, calls in numbers(1):
            for number in calls:
                office.said(post_of(lapses.next()))
                refused.memory.refuse(how, number)
                told = office.said(head("GET", "/report"))
                were_refused = refused.memory.were_refused()
                office.again()
                right = office.said(head("GET", "/report"))
                is_right = may_be(replies_in(told)[0], right) and right.count(b"\nreceipt ") == len(lapses.receipts)
                reads.note((how, number), told, is_right, office)
                if not were_refused:
                    break
        office.program.close()
        look.same("the last report is what is settled", right, reply(200, "OK", checks.run(["settle", "--desks", "1"], office.folder)[1]))
    posts.look(look, "POST of a new line", LET_GO)
    reads.look(look, "GET /report after a new line", LET_GO)


def main():
    checks.build()
    look = checks.Checks()
    if not asking.is_free():
        look.skip("memory that is refused while it serves", "another program has the port")
        look.end()
    with tempfile.TemporaryDirectory() as folder:
        refused = Refused(folder)
        if not refused.environment:
            look.skip("memory that is refused while it serves", "there is no C compiler")
            look.end()
        file = checks.journal_of_lines(SALE.read_text())
        report = SALE.with_suffix(".txt").read_bytes()
        report = report[report.index(b"receipt 1 ") :]
        check_requests(look, refused, file, report)
        check_posts(look, refused, file)
        check_session(look, refused)
        check_items(look, refused)
        check_starts(look, refused)
    look.end()


if __name__ == "__main__":
    main()
