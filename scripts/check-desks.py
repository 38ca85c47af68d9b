#!/usr/bin/env python3
"""Settles journals at 1, 2, 3, 8 and 64 desks: what is written does not tell how many there are.

The journals are those of drawn_journals.py, generated ones, and some by hand.
"""

import tempfile

import checks
import drawn_journals
import spelling

DESKS = (1, 2, 3, 8, 64)

# Journals that are drawn, each with so many folios and so many items after their openings.
DRAWN = [(seed, folios, items) for folios, items in ((8, 80), (3, 40), (1, 60), (40, 300)) for seed in range(12)]

# What becomes of the items of the drawn journals.
WORDS = [
    "entered", "rejected", "interim", "cured", "filing rejected", "still open", "lapsed", "too early", "extended until",
    "too late", "not pending", "seized", "registered", "lowest", "awarded", "distributed",
]


def settled(words, **how):
    """What is written at one desk, and the numbers of desks that write otherwise, or end otherwise."""
    alone = checks.run([*words, "--desks", "1"], **how)
    return alone, [desks for desks in DESKS if checks.run([*words, "--desks", str(desks)], **how) != alone]


def check_drawn(look):
    told, in_two = [], 0
    for seed, folios, items in DRAWN:
        lines = list(drawn_journals.DrawnJournal(seed, folios).lines(items))
        in_two += sum(len({act["folio"] for act in line["item"].get("acts", [])}) == 2 for line in lines)
        (status, said, _), otherwise = settled(["settle", "--lines"], input=checks.text_of(lines))
        told += [line.split(" ", 2)[2] for line in said.decode().splitlines() if line.startswith("receipt ")]
        what = f"drawn journal {seed} of {folios} folios and {items} items"
        look.same(what, (status, otherwise), (0, []))
    for word in WORDS:
        look.same(f"some of {len(told)} drawn items end with '{word}'", any(text.startswith(word) for text in told), True)
    look.same(f"some of {len(told)} drawn items are filed in two folios", in_two > 100, True)


def check_file(look):
    """A journal's file is settled at any number of desks too."""
    lines = list(drawn_journals.DrawnJournal(7, 8).lines(80))
    with tempfile.TemporaryDirectory() as folder:
        with open(f"{folder}/{checks.JOURNAL}", "wb") as file:
            file.write(checks.journal([spelling.receipt(line) for line in lines]))
        alone, otherwise = settled(["settle"], folder=folder)
    _, said, _ = checks.run(["settle", "--lines", "--desks", "1"], input=checks.text_of(lines))
    replies = "".join(f"accepted {number}\n" for number in range(1, len(lines) + 1)).encode()
    look.same("a drawn journal's file", (alone, otherwise), ((0, said[len(replies):], b""), []))


def check_by_hand(look):
    """Journals of nothing, of items that touch no key, of items with many acts, and of many folios."""
    stamp = {"day": "2024-03-01", "minute": 540, "sender": 1}
    lapses = [{**stamp, "reference": number, "item": {"kind": "lapse", "filing": number}} for number in (1, 2, 9)]
    charged = []
    for number, folio in enumerate((7, 9, 8, 6), 1):
        acts = [checks.opening(folio), *(checks.land_charge(folio, 100_000, group) for group in range(1, 6))]
        docs = [checks.consent(act, 10) for act in range(1, 7)]
        charged.append({**stamp, "reference": number, "item": checks.filed(acts, docs)})
    for what, lines, verdict in (
        ("no receipt", [], None),
        ("lapses of what does not wait", lapses, "not pending"),
        ("items of six acts", charged, "entered"),
        ("2,000 folios", [checks.filing(number, checks.opening(number)) for number in range(1, 2_001)], "entered"),
    ):
        (status, said, _), otherwise = settled(["settle", "--lines"], input=checks.text_of(lines))
        told = {line.split(" ", 2)[2] for line in said.decode().splitlines() if line.startswith("receipt ")}
        look.same(what, (status, otherwise, told), (0, [], {verdict} - {None}))


def check_generated(look):
    for seed, size in ((0, 1), (1, 2), (2, 17), (3, 64), (4, 200), (5, 200), (7, 300)):
        (status, said, _), otherwise = settled(["sample", "--seed", str(seed), "--size", str(size)])
        what = f"the generated journal {seed} of {size} receipts"
        look.same(what, (status, said.split(b"\n")[0], otherwise), (0, b"receipts %d" % size, []))


def main():
    checks.build()
    look = checks.Checks()
    check_drawn(look)
    check_file(look)
    check_by_hand(look)
    check_generated(look)
    look.end()


if __name__ == "__main__":
    main()
