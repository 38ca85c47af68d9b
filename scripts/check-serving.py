#!/usr/bin/env python3
"""Asks the built program over TCP, as `serve` answers: requests whole and byte by byte, what ends a
connection and what ends the program, a second program at its port, and kills under load.

Where another program has the port, nothing is checked, and the script says so.
"""

import contextlib
import http.client
import os
import random
import re
import shutil
import signal
import socket
import struct
import subprocess
import tempfile
import threading
import time

import checks
from asking import (
    HOST, NOT_FOUND, NOT_JSON, NO_SENDER, PORT, TOO_LONG, UNAVAILABLE, WRONG_METHOD, all_of, connected, head, is_free,
    posted, reply, said, send, serving, so_many_of,
)
from plain_lines import MOST_RECEIPTS
from report_texts import texts_of
import wrong_lines

KILLS = 100
CONNECTIONS = 1000
REQUESTS = 10_000
BESIDE = 50


def sends_on(sent, wanted):
    """Whether a connection may send on after the reply that ends it."""
    with connected() as link:
        link.sendall(sent)
        told = so_many_of(link, len(wanted))
        try:
            for _ in range(10):
                link.sendall(b"x" * 1000)
                time.sleep(0.02)
            link.shutdown(socket.SHUT_WR)
            return told + all_of(link) == wanted
        except OSError:
            return False


def beside(sent):
    """What the program writes to connections that all send this before one of them is read."""
    with contextlib.ExitStack() as opened:
        links = [opened.enter_context(connected()) for _ in range(BESIDE)]
        for link in links:
            link.sendall(sent)
            link.shutdown(socket.SHUT_WR)
        return [all_of(link) for link in links]


def is_let_go(link):
    """Whether a connection ends without a byte."""
    try:
        return all_of(link) == b""
    except ConnectionResetError:
        return True


def extract(folio):
    return f"folio {folio}\ninventory district 1 parcel {folio}/0 area 500\nowners 10\n".encode()


ACCEPTED = reply(201, "Created", b"accepted 1\n")
REPEATED = reply(200, "OK", b"repeated 1\n")


def check_requests(look, folder):
    """Each route, each refusal of a request, and the same bytes cut in each way."""
    with serving(folder) as child:
        look.same("a filing", said(posted(1)), ACCEPTED)
        story = posted(1) + head("GET", "/folios/1") + head("GET", "/receipts/1") + head("GET", "/folios/1/ranks")
        told = REPEATED + reply(200, "OK", extract(1)) + reply(200, "OK", b"receipt 1 entered\n") + reply(200, "OK", b"ranks 1\n")
        look.same("four requests of one connection", said(story), told)
        look.same("the same byte by byte", said(story, 1), told)
        report = b"receipt 1 entered\n" + extract(1) + b"ranks 1\nend receipts 1 folios 1\n"
        look.same("the report", said(head("GET", "/report")), reply(200, "OK", report))
        for path in ("/folios/8", "/receipts/01", "/receipts/2", "/plans/1", "/plans/1/csv", "/", "/folios/1?x=1"):
            look.same(f"GET {path}", said(head("GET", path)), NOT_FOUND)
        look.same("DELETE /report", said(head("DELETE", "/report")), WRONG_METHOD)
        look.same("POST /receipts/1", said(head("POST", "/receipts/1")), WRONG_METHOD)
        look.same("POST /receipts/01", said(head("POST", "/receipts/01")), NOT_FOUND)
        look.same("an empty body", said(head("POST", "/receipts")), NOT_JSON)
        look.same("a body that is no item", said(head("POST", "/receipts", b'{"reference":1}')), NO_SENDER)
        other = checks.plain(1).replace('"area":500', '"area":501').encode()
        look.same("another item under the number", said(head("POST", "/receipts", other)), reply(409, "Conflict", b"differs 1\n"))
        check_routes(look)
        check_connection_ends(look)
        look.same("the program still serves", child.poll(), None)


def check_open_connection(look, folder):
    """A filing is answered while its own connection stays open, however its bytes come, and the texts that
    are then read over it go on with the journal."""
    item = checks.filed([checks.land_charge(1, 10_000)], [checks.consent(1, 10)])
    charged = head("POST", "/receipts", wrong_lines.compact({"sender": 1, "reference": 2, "item": item}).encode())
    today = time.strftime("%Y-%m-%d", time.gmtime())
    right = f"right 2.1 III right land-charge 100.00 rate 500 holder 20 placed {today}\n".encode()
    ranks = b"ranks 1\nrank 1 2.1\ncents 1-10000 2.1\n"
    report = b"receipt 1 entered\nreceipt 2 entered\n" + extract(1) + right + ranks + b"end receipts 2 folios 1\n"
    with serving(folder), connected() as link:
        for what, sent, status, text in (
            ("the report of an empty journal", head("GET", "/report"), 200, b"end receipts 0 folios 0\n"),
            ("a filing", posted(1), 201, b"accepted 1\n"),
            ("the ranks of the folio that it opens", head("GET", "/folios/1/ranks"), 200, b"ranks 1\n"),
            ("a charge", charged, 201, b"accepted 2\n"),
            ("its verdict", head("GET", "/receipts/2"), 200, b"receipt 2 entered\n"),
            ("its folio", head("GET", "/folios/1"), 200, extract(1) + right),
            ("its ranks", head("GET", "/folios/1/ranks"), 200, ranks),
            ("the report after it", head("GET", "/report"), 200, report),
            ("the plan of a filing", head("GET", "/plans/2"), 404, b"not found\n"),
            ("a receipt that is not there", head("GET", "/receipts/3"), 404, b"not found\n"),
            ("the ranks of a folio that is not there", head("GET", "/folios/2/ranks"), 404, b"not found\n"),
        ):
            # What is read is asked for twice, byte by byte and whole. A filing that came again would be repeated.
            for size in (1, 0) if status == 200 else (7,):
                send(link, sent, size)
                wanted = reply(status, {200: "OK", 201: "Created", 404: "Not Found"}[status], text)
                look.same(f"{what}, over a connection that stays open", so_many_of(link, len(wanted)), wanted)


def check_full(look, folder):
    """A journal of 200,000 receipts takes no other, and still knows their numbers."""
    file, _ = checks.journal_of_openings(MOST_RECEIPTS)
    with open(os.path.join(folder, checks.JOURNAL), "wb") as journal:
        journal.write(file)
    with serving(folder):
        full = reply(403, "Forbidden", b"full\n")
        look.same("a filing where the journal is full", said(posted(MOST_RECEIPTS + 1) * 2), full * 2)
        look.same("a filing that stands in it", said(posted(7)), reply(200, "OK", b"repeated 7\n"))


def check_disk(look):
    """A filing during which the disk fails is answered 503. After a failed write it is received when it comes
    again; after a failed sync no later one is made, and each request that wants the disk is answered 503."""
    if not checks.has_strace():
        look.skip("a disk that fails", "there is no strace that works here")
        return
    for call, error, number, wanted in (
        ("pwrite64", "ENOSPC", 1, [UNAVAILABLE, ACCEPTED, reply(200, "OK", extract(1)), NOT_FOUND]),
        ("pwrite64", "ENOSPC", 2, [UNAVAILABLE, ACCEPTED, reply(200, "OK", extract(1)), NOT_FOUND]),
        ("fsync", "EIO", 2, [UNAVAILABLE, UNAVAILABLE, UNAVAILABLE, NOT_FOUND]),
        ("fsync", "EIO", 3, [UNAVAILABLE, UNAVAILABLE, UNAVAILABLE, NOT_FOUND]),
    ):
        what = f"serving where {call} {number} answers {error}"
        with tempfile.TemporaryDirectory() as folder:
            path = os.path.join(os.path.realpath(folder), checks.JOURNAL)
            with open(path, "wb") as file:
                file.write(checks.journal([]))
            log = os.path.join(folder, "calls")
            tracer = ["strace", "-o", log, "-P", path, "-e", f"trace={call}", "-e", f"inject={call}:error={error}:when={number}"]
            with serving(folder, len(wanted), before=tracer) as child:
                told = said(posted(1) + posted(1) + head("GET", "/folios/1") + head("GET", "/x"))
                look.same(what, told, b"".join(wanted))
                child.wait(checks.LIMIT)
            with open(log) as file:
                calls = file.read().count(f"{call}(")
            if call == "fsync":
                look.same(f"{what}: syncs up to the last", calls, number)


def status_of(reply):
    return reply.split(b" ")[1].decode()


def check_routes(look):
    """Each route of the page has one of its statuses, and another method of its path is refused."""
    for route, statuses in checks.routes_of_page():
        method, path = route.split(" ")
        for number in ("1", "9"):
            asked = re.sub(r"{\w}", number, path)
            status = status_of(said(head(method, asked)))
            look.same(f"{method} {asked} is answered as the page says", status in statuses and status != "405", True)
            look.same(f"PUT {asked}", status_of(said(head("PUT", asked))), "405")


def check_connection_ends(look):
    """Connections of which one end goes or stays: what ends them by their bytes scripts/check-requests.py asks."""
    sent = head("POST", "/receipts", more="Content-Length: 65537\r\n")
    look.same("a refusal while the peer still sends", said(sent + b"x" * 400_000), TOO_LONG)
    look.same("a peer that sends on after its refusal", sends_on(sent, TOO_LONG), True)
    with connected() as gone:
        gone.sendall(head("GET", "/x") * 100)
        gone.setsockopt(socket.SOL_SOCKET, socket.SO_LINGER, struct.pack("ii", 1, 0))
    look.same("a request after a peer that went away", said(head("GET", "/x")), NOT_FOUND)
    look.same("connections that wait beside one another", beside(head("GET", "/x")), [NOT_FOUND] * BESIDE)
    with connected() as silent:
        start = time.monotonic()
        look.same("a request after a connection that says nothing", said(head("GET", "/x")), NOT_FOUND)
        look.at_most("seconds that it waited", round(time.monotonic() - start), 1)
        silent.close()


def check_program_ends(look):
    """What ends the program: so many replies, so many connections, a port that is taken, a file that is no journal."""
    with tempfile.TemporaryDirectory() as folder, serving(folder, 2) as child:
        look.same("three requests where two are left", said(head("GET", "/x") * 3), NOT_FOUND * 2)
        look.same("the end after two replies", (child.wait(checks.LIMIT), child.stderr.read()), (0, b""))
    with tempfile.TemporaryDirectory() as folder, serving(folder, 1) as child, connected() as first, connected() as second:
        first.sendall(head("GET", "/x"))
        look.same("a reply where one is left", all_of(first), NOT_FOUND)
        look.same("the end after one reply", (child.wait(checks.LIMIT), child.stderr.read()), (0, b""))
        look.same("a connection that waits then", is_let_go(second), True)
    with tempfile.TemporaryDirectory() as folder, serving(folder, 2) as child:
        look.same("two connections that ask nothing", [said(b""), said(b"")], [b"", b""])
        look.same("two connections that end inside a request", [said(b"GET"), said(head("POST", "/receipts", b"x")[:-1])], [b"", b""])
        look.same("the end after those two", (child.wait(checks.LIMIT), child.stderr.read()), (0, b""))
    with tempfile.TemporaryDirectory() as folder, serving(folder) as child:
        look.same("a first reply", said(head("GET", "/x"))[:12], b"HTTP/1.1 404")
        with tempfile.TemporaryDirectory() as other:
            ran = checks.run(["serve", "--desks", "1", "--requests", "1"], other)
            look.same("a second program at the port", ran, (10, b"", b"door fault\n"))
        ran = checks.run(["serve", "--desks", "1", "--requests", "1"], folder)
        look.same("a second program at the journal", ran, (5, b"", b"disk fault\n"))
    with tempfile.TemporaryDirectory() as folder:
        with open(os.path.join(folder, checks.JOURNAL), "wb") as file:
            file.write(b"hello world")
        ran = checks.run(["serve", "--desks", "1", "--requests", "1"], folder)
        look.same("a file that is no journal", ran, (7, b"", b"not a journal\n"))


def check_clients(look, folder):
    """Many connections, many requests of one, and a client of the standard library."""
    with serving(folder):
        wanted = reply(200, "OK", b"receipt 1 entered\n")
        said(posted(1))
        came = sum(said(head("GET", "/receipts/1")) == wanted for _ in range(CONNECTIONS))
        look.same(f"{CONNECTIONS} connections", came, CONNECTIONS)
        client = http.client.HTTPConnection(HOST, PORT, timeout=checks.LIMIT)
        came = 0
        for _ in range(REQUESTS):
            client.request("GET", "/receipts/1")
            answer = client.getresponse()
            came += (answer.status, answer.read()) == (200, b"receipt 1 entered\n")
        client.close()
        look.same(f"{REQUESTS} requests of one connection", came, REQUESTS)


def check_story(look):
    """The example's shell story over HTTP."""
    story = checks.ROOT / "examples" / "over-http.sh"
    if not shutil.which("curl"):
        look.skip("example over-http", "this machine has no curl")
        return
    with tempfile.TemporaryDirectory() as folder, serving(folder):
        connected().close()
        told = subprocess.run([story], stdout=subprocess.PIPE, timeout=checks.LIMIT).stdout
        look.same("example over-http", told, story.with_suffix(".txt").read_bytes())


def without_stamp(line):
    """A stamped line without its stamp, as a body that is posted."""
    return re.sub(rb'"day":"[^"]*","minute":\d+,', b"", line)


def check_growing(look):
    """The lines of examples are posted one by one, and the verdict is asked for after each, so that the
    register goes on with its journal. Its report is that of the whole journal."""
    grown = []
    inputs = sorted([*checks.ROOT.glob("examples/*.jsonl"), *checks.ROOT.glob("cases/text-*.jsonl")])
    for lines in inputs:
        sent = b""
        for number, line in enumerate(lines.read_bytes().splitlines(), 1):
            sent += head("POST", "/receipts", without_stamp(line)) + head("GET", f"/receipts/{number}")
        with tempfile.TemporaryDirectory() as folder:
            with serving(folder):
                told = said(sent + head("GET", "/report"))
            _, report, _ = checks.run(["settle", "--desks", "1"], folder)
        if not told.endswith(reply(200, "OK", report)):
            grown.append(lines.name)
    look.same(f"{len(inputs)} journals that grow: those whose report is not that of the whole", grown, [])


def check_texts(look):
    """Each text of a case that has its plan as CSV beside it: a verdict, an extract, ranks, the plan and its CSV."""
    plans = sorted(checks.ROOT.glob("cases/*.csv"))
    look.same("cases/ has a plan as CSV", bool(plans), True)
    for csv in plans:
        report = csv.with_suffix(".txt").read_text().partition("receipt 1 ")
        texts = texts_of(report[1] + report[2])
        plan = next(path for path in texts if path.startswith("/plans/"))
        texts[f"{plan}/csv"] = csv.read_text()
        with tempfile.TemporaryDirectory() as folder:
            with open(os.path.join(folder, checks.JOURNAL), "wb") as file:
                file.write(checks.journal_of_lines(csv.with_suffix(".jsonl").read_text()))
            with serving(folder):
                for path, text in texts.items():
                    look.same(f"GET {path} of {csv.stem}", said(head("GET", path)), reply(200, "OK", text.encode()))


def acknowledged(child, after):
    """How many filings were acknowledged, in order, until the program was killed, which it is after so
    many seconds, whatever it has in hand then."""
    connected().close()
    client = http.client.HTTPConnection(HOST, PORT, timeout=checks.LIMIT)
    killer = threading.Timer(after, child.send_signal, [signal.SIGKILL])
    killer.start()
    count = 0
    try:
        while True:
            client.request("POST", "/receipts", checks.plain(count + 1))
            answer = client.getresponse()
            if (answer.status, answer.read()) != (201, f"accepted {count + 1}\n".encode()):
                return None
            count += 1
    except (OSError, http.client.HTTPException):
        # The program is gone, perhaps in the midst of a receipt, or of its reply.
        return count
    finally:
        killer.join()
        client.close()


def check_kills(look):
    """Killed under load, no receipt that was acknowledged is lost."""
    chance = random.Random(20240301)
    lost = []
    total = 0
    for _ in range(KILLS):
        with tempfile.TemporaryDirectory() as folder:
            with serving(folder) as child:
                count = acknowledged(child, chance.random() / 2)
            status, output, _ = checks.run(["settle", "--desks", "1"], folder)
            kept = int(output.split()[-3]) if status == 0 else -1
            total += count or 0
            if count is None or kept not in (count, count + 1):
                lost.append((count, kept))
    look.same(f"{KILLS} kills after {total} receipts: those that were lost", lost, [])


def main():
    checks.build()
    look = checks.Checks()
    if not is_free():
        look.skip("serving", f"another program has port {PORT}")
        look.end()
    with tempfile.TemporaryDirectory() as folder:
        check_requests(look, folder)
    with tempfile.TemporaryDirectory() as folder:
        check_open_connection(look, folder)
    with tempfile.TemporaryDirectory() as folder:
        check_full(look, folder)
    check_disk(look)
    check_program_ends(look)
    with tempfile.TemporaryDirectory() as folder:
        check_clients(look, folder)
    check_story(look)
    check_growing(look)
    check_texts(look)
    check_kills(look)
    look.end()


if __name__ == "__main__":
    main()
