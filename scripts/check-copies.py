#!/usr/bin/env python3
"""Copies the journal in a loop while the built program receives under load, and opens each copy.

Each copy stands for the first of the lines that were sent, in their order, with each receipt that was
acknowledged before the copy began: from `take`, and from `serve` where no other program has its port. A copy is
read from front to back until no byte comes. What else docs/operating.md says of the file is tried too: bytes that
are set aside for it, a gate that is closed by hand, and a copy that is put back.
"""

import os
import re
import shutil
import subprocess
import tempfile
import threading
import time

import asking
import checks
import wrong_lines

# Lines of one round, an even number: the first of each two opens a folio, and the second charges it.
LINES = 10_000

# For how many seconds rounds of `take` go on, and then one round of `serve`, and how many copies one round makes.
SECONDS = 7
SERVING = 1.5
COPIES = 20

SETTLE = ["settle", "--desks", "1"]
ABSENT = asking.head("GET", "/receipts/4294967295")
DAY = re.compile(r" placed \d{4}-\d\d-\d\d$", re.M)


def item_of(number):
    """What line `number` files: a folio, or a land charge of so many euros in the folio of the line before."""
    folio = (number + 1) // 2
    if number % 2 == 1:
        return checks.filed([checks.opening(folio)], [checks.consent(1, 10)])
    return checks.filed([checks.land_charge(folio, number * 100)], [checks.consent(1, 10)])


def line_of(number):
    return wrong_lines.compact({"sender": 1, "reference": number, "item": item_of(number)})


def report_of(count):
    """The report of the first lines, without the days of receipt. Each charge has the number of its line in its amount and
    the number of its receipt in its name, so lines in another order have another report."""
    lines = [f"receipt {number} entered" for number in range(1, count + 1)]
    for folio in range(1, (count + 1) // 2 + 1):
        lines += [f"folio {folio}", f"inventory district 1 parcel {folio}/0 area 500", "owners 10"]
        charge = 2 * folio
        if charge <= count:
            lines += [f"right {charge}.1 III right land-charge {charge}.00 rate 500 holder 20"]
            lines += [f"ranks {folio}", f"rank 1 {charge}.1", f"cents 1-{charge * 100} {charge}.1"]
        else:
            lines.append(f"ranks {folio}")
    lines.append(f"end receipts {count} folios {(count + 1) // 2}")
    return "".join(line + "\n" for line in lines)


def by_pieces(source, target):
    """Copies a file so slowly that receipts come meanwhile."""
    with open(source, "rb", buffering=0) as file, open(target, "wb") as copy:
        while piece := file.read(4099):
            copy.write(piece)


def by_cat(source, target):
    with open(target, "wb") as copy:
        subprocess.run(["cat", source], stdout=copy, check=True)


def by_cp(source, target):
    subprocess.run(["cp", source, target], check=True)


WAYS = (by_pieces, by_cat, by_cp)


def copies_while(folder, acknowledged, going):
    """Copies of the folder's journal, each in a folder of its own with how many receipts were acknowledged before."""
    source, made = os.path.join(folder, checks.JOURNAL), []
    while going() and len(made) < COPIES:
        if acknowledged() == 0:
            time.sleep(0.001)
            continue
        way, into = WAYS[len(made) % len(WAYS)], tempfile.mkdtemp(dir=folder)
        before = acknowledged()
        way(source, os.path.join(into, checks.JOURNAL))
        made.append((way.__name__, into, before))
        time.sleep(0.01)
    return made


def check_copy(look, what, into, before):
    """Whether a copy stands for a front with what was acknowledged. How many receipts it has."""
    status, output, errors = checks.run(SETTLE, into)
    report = DAY.sub("", output.decode())
    last = report.splitlines()[-1].split() if report else []
    count = int(last[2]) if last[:2] == ["end", "receipts"] else 0
    look.same(f"{what}: it opens", (status, errors), (0, b""))
    look.same(f"{what}: the first {count} lines in their order", report == report_of(count), True)
    look.same(f"{what}: with what was acknowledged, {before}", before <= count, True)
    shutil.rmtree(into)
    return count


def check_copies(look, what, made):
    counts = [check_copy(look, f"{what}, copy {number} {way}", into, before) for number, (way, into, before) in enumerate(made, 1)]
    return sum(0 < count < LINES for count in counts)


def take_round(look, lines, number):
    """Copies while `take` receives all lines. How many of them were made amid the lines."""
    with tempfile.TemporaryDirectory(dir=checks.QUICK) as folder:
        replies = os.path.join(folder, "replies")
        with open(lines, "rb") as source, open(replies, "wb") as told:
            child = subprocess.Popen([checks.PROGRAM, "take"], cwd=folder, stdin=source, stdout=told)

        def acknowledged():
            with open(replies, "rb") as file:
                return file.read().count(b"\n")

        made = copies_while(folder, acknowledged, lambda: child.poll() is None)
        look.same(f"take {number} ends", child.wait(checks.LIMIT), 0)
        return check_copies(look, f"take {number}", made)


def post_all(count, refused, going):
    """Posts line after line over one connection, and counts what is accepted, up to one that is not."""
    with asking.connected() as link:
        while going() and count[0] < LINES:
            number = count[0] + 1
            link.sendall(asking.head("POST", "/receipts", line_of(number).encode()))
            wanted = asking.reply(201, "Created", f"accepted {number}\n".encode())
            told = asking.so_many_of(link, len(wanted))
            if told != wanted:
                refused.append(told)
                return
            count[0] = number


def check_serving(look):
    if not asking.is_free():
        look.skip("copies while the program serves", "another program has the port")
        return
    with tempfile.TemporaryDirectory(dir=checks.QUICK) as folder, asking.serving(folder) as child:
        count, refused, stop = [0], [], threading.Event()
        sender = threading.Thread(target=post_all, args=(count, refused, lambda: not stop.is_set()))
        sender.start()
        last = time.monotonic() + SERVING
        try:
            made = copies_while(folder, lambda: count[0], lambda: sender.is_alive() and time.monotonic() < last)
        finally:
            stop.set()
            sender.join(checks.LIMIT)
        look.same("what was posted and not accepted", refused, [])
        look.same("the program still serves", (child.poll(), asking.said(ABSENT)), (None, asking.NOT_FOUND))
        look.same("some copies were made amid what was posted", check_copies(look, "serve", made) > 0, True)


def settled_over(content):
    """How a run over a journal with these bytes ends, with the last line of its report."""
    with tempfile.TemporaryDirectory(dir=checks.QUICK) as folder:
        with open(os.path.join(folder, checks.JOURNAL), "wb") as file:
            file.write(content)
        status, output, errors = checks.run(SETTLE, folder)
        return status, output[output.rfind(b"\n", 0, -1) + 1 :], errors


def check_by_hand(look):
    """What docs/operating.md tells an operator to do with the file."""
    two = checks.journal_of_lines(checks.stamped(1) + "\n" + checks.stamped(2) + "\n")
    gate = 9 + 5 + int.from_bytes(two[10:14], "big")
    bad = two[: gate + 5] + b"\xff" * (len(two) - gate - 6) + b"\0"
    look.same("a record that another hand changed", settled_over(bad), (8, b"", b"bad record at %d\n" % gate))
    mended = bad[:gate] + b"\0" + bad[gate + 1 :]
    look.same("the same with its gate closed", settled_over(mended), (0, b"end receipts 1 folios 1\n", b""))
    short = two[:gate] + b"\x01"
    look.same("a copy that ends at the length that the file had", settled_over(short), (8, b"", b"bad record at %d\n" % gate))
    with tempfile.TemporaryDirectory(dir=checks.QUICK) as folder:
        path = os.path.join(folder, checks.JOURNAL)
        with open(path, "wb") as file:
            file.truncate(128 << 20)
        given = "".join(checks.plain(number) + "\n" for number in (1, 2, 3)).encode()
        look.same("take into bytes that were set aside", checks.run(["take"], folder, input=given), (0, b"accepted 1\naccepted 2\naccepted 3\n", b""))
        look.same("how long the file is then", os.path.getsize(path), 128 << 20)
        with open(path, "rb+") as file:
            file.write(two)
        told = (0, b"repeated 1\nrepeated 2\naccepted 3\n", b"")
        look.same("the same lines after a shorter copy was put back", checks.run(["take"], folder, input=given), told)


def main():
    checks.build()
    look = checks.Checks()
    check_by_hand(look)
    with tempfile.TemporaryDirectory() as folder:
        lines = os.path.join(folder, "lines")
        with open(lines, "w", encoding="ascii") as file:
            file.writelines(line_of(number) + "\n" for number in range(1, LINES + 1))
        last, number, amid = time.monotonic() + SECONDS, 0, 0
        while time.monotonic() < last:
            number += 1
            amid += take_round(look, lines, number)
    look.same("some copies were made amid what was taken", amid > 0, True)
    check_serving(look)
    look.end()


if __name__ == "__main__":
    main()
