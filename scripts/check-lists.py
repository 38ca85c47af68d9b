#!/usr/bin/env python3
"""Receives opening lists with the built program: how bytes are cut into records, headers, and rows at and
beyond the ends of the ranges. What stands in the file then is compared byte for byte with the receipts
that docs/formats/opening-lists.md gives to each row; nothing here is taken from a program.
"""

import tempfile

import checks
import spelling

SENDER = 9
HEADER = b"folio,district,parcel,sub,area,owner\n"
MARK = b"\xef\xbb\xbf"
ROW, OTHER_ROW = (7, 12, 345, 6, 800, 10), (8, 1, 2, 3, 4, 5)
BAD_ROW, BAD_HEADER = "malformed row", "malformed header"

# Whole lists, each with its answers: a row that is received, or the reply to what is refused.
LISTS = [
    (b"", []),
    (b"\n\r\n\r\r\n", []),
    (MARK, []),
    (MARK + b"\n\n", []),
    (HEADER[:-1], []),
    (b"\r\n\n" + HEADER[:-1] + b"\r\n\n", []),
    (MARK + HEADER + b"7,12,345,6,800,10\n8,1,2,3,4,5", [ROW, OTHER_ROW]),
    (HEADER[:-1] + b"\r7,12,345,6,800,10\r\n\r\n8,1,2,3,4,5\n", [ROW, OTHER_ROW]),
    (b'"folio",district,"parcel",sub,area,owner\n"7",1"",2,3,4,5\n"7","1"2,345,6,800,10\n', [BAD_ROW, ROW]),
    (
        HEADER + b'7,12,345,6,800,10\n8,12,346,0,1000000001,10\n"0009",12,347,0,650,11\n\n7,12,345,6,900,10\n',
        [ROW, BAD_ROW, (9, 12, 347, 0, 650, 11), "differs 1"],
    ),
    (HEADER + b"7,12,345,6,800,10\n7,12,345,6,800,10\n", [ROW, "repeated 1"]),
    (HEADER + b'7,12,"345,6,800,10\n8,1,2,3,4,5\n', [BAD_ROW]),
    (HEADER + HEADER, [BAD_ROW]),
    (HEADER + MARK + b"7,12,345,6,800,10\n", [BAD_ROW]),
    (HEADER + b"0" * 20_000 + b",12,345,6,800,10\n8,1,2,3,4,5\n", [BAD_ROW, OTHER_ROW]),
    (b"folio,owner\n7,10\n", [BAD_HEADER]),
    (b'""\n', [BAD_HEADER]),
    (b"7,12,345,6,800,10\n" + HEADER, [BAD_HEADER]),
    (HEADER[:-1] + b",\n7,12,345,6,800,10\n", [BAD_HEADER]),
    (HEADER.replace(b"owner", b"Owner") + b"7,12,345,6,800,10\n", [BAD_HEADER]),
    (b"folio,district,parcel,area,sub,owner\n7,12,345,6,800,10\n", [BAD_HEADER]),
    (b" " + HEADER + b"7,12,345,6,800,10\n", [BAD_HEADER]),
    (MARK * 2 + HEADER + b"7,12,345,6,800,10\n", [BAD_HEADER]),
]

# Rows under a header, at the ends of the ranges, and rows that are malformed.
AT_THE_ENDS = [
    (b"1,1,1,0,1,1", (1, 1, 1, 0, 1, 1)),
    (b"4294967295,65535,4294967295,65535,1000000000,4294967295", (4294967295, 65535, 4294967295, 65535, 1000000000, 4294967295)),
    (b"0000000007,0000000012,0000000345,0000000000,0000000800,0000000010", (7, 12, 345, 0, 800, 10)),
]
MALFORMED = [
    b"00000000007,12,345,6,800,10", b"7,12,345,6,800,00000000010", b",12,345,6,800,10", b"7,12,345,,800,10", b'7,12,345,6,800,""',
    b"0,12,345,6,800,10", b"4294967296,12,345,6,800,10", b"7,0,345,6,800,10", b"7,65536,345,6,800,10", b"7,12,0,6,800,10",
    b"7,12,4294967296,6,800,10", b"7,12,345,65536,800,10", b"7,12,345,6,0,10", b"7,12,345,6,1000000001,10", b"7,12,345,6,800,0",
    b"7,12,345,6,800,4294967296", b"9999999999,12,345,6,800,10", b"+7,12,345,6,800,10", b"-7,12,345,6,800,10", b" 7,12,345,6,800,10",
    b"7 ,12,345,6,800,10", b"7,12,345,6,800,1e3", b"7,12,345,6,800,0x1", b"7,12,345,6,800,/", b"7,12,345,6,800,:",
    b"7,12,345,6,800,\xd9\xa1", b"7,12,345,6,800,\xff", b"7,12,345,6,800", b"7,12,345,6,800,10,", b"7,12,345,6,800,10,1", b"7",
    b'""', b"7;12;345;6;800;10",
]


def item_of(row):
    """The filing that a row asks for."""
    folio, district, parcel, sub, area, owner = row
    act = {"act": "open", "folio": folio, "district": district, "parcel": parcel, "sub": sub, "area": area, "owners": [owner]}
    return checks.filed([act], [checks.consent(1, owner)], owner)


def bodies_of(rows, file):
    """The receipts of these rows. Their stamps are the clock's, so they are read where the file has them."""
    bodies, gate = [], 9
    for row in rows:
        body = spelling.u32(SENDER) + spelling.u64(row[0]) + spelling.item(item_of(row))
        bodies.append(file[gate + 5 : gate + 11] + body)
        gate += 5 + len(bodies[-1])
    return bodies


def check(look, what, text, answers):
    """A list is received into a new folder: its replies, and the file that it leaves."""
    rows = [answer for answer in answers if isinstance(answer, tuple)]
    replies = [answer if isinstance(answer, str) else f"accepted {rows.index(answer) + 1}" for answer in answers]
    with tempfile.TemporaryDirectory(dir=checks.QUICK) as folder:
        ran = checks.run(["opening", "--sender", str(SENDER)], folder, input=text)
        with open(f"{folder}/{checks.JOURNAL}", "rb") as journal:
            file = journal.read()
    look.same(what, ran, (0, "".join(reply + "\n" for reply in replies).encode(), b""))
    look.same(f"{what}: the file", file == checks.journal(bodies_of(rows, file)), True)


def check_as_lines(look):
    """A row leaves the receipt of the line that says the same: each is the other sent again."""
    row = HEADER + b"7,12,345,6,800,10\n"
    line = {"sender": SENDER, "reference": 7, "item": item_of(ROW)}
    text = checks.text_of([line])
    opening, take = ["opening", "--sender", str(SENDER)], ["take"]
    for first, then in (((opening, row), (take, text)), ((take, text), (opening, row))):
        with tempfile.TemporaryDirectory(dir=checks.QUICK) as folder:
            said = [checks.run(words, folder, input=sent)[:2] for words, sent in (first, then)]
        look.same(f"{first[0][0]}, and then {then[0][0]} of the same", said, [(0, b"accepted 1\n"), (0, b"repeated 1\n")])


def check_senders(look):
    """Another sender has numbers of its own, up to the last one."""
    row = HEADER + b"7,12,345,6,800,10\n"
    with tempfile.TemporaryDirectory(dir=checks.QUICK) as folder:
        for number, sender in enumerate(("9", "0", "4294967295"), 1):
            ran = checks.run(["opening", "--sender", sender], folder, input=row)
            look.same(f"a list of sender {sender}", ran, (0, f"accepted {number}\n".encode(), b""))


def main():
    checks.build()
    look = checks.Checks()
    for text, answers in LISTS:
        check(look, f"the list {checks.shortened(text, 100)}", text, answers)
    for row, answer in [*AT_THE_ENDS, *((row, BAD_ROW) for row in MALFORMED)]:
        check(look, f"the row {row}", HEADER + row, [answer])
    check_as_lines(look)
    check_senders(look)
    look.end()


if __name__ == "__main__":
    main()
