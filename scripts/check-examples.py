#!/usr/bin/env python3
"""Runs the built program over each input of examples/ and cases/, and compares what it prints with the
text beside it, which was written by hand.

Lines are settled in memory, at one desk, and where they leave several folios at three desks too. An
opening list of examples/ is received into a new folder, and then settled there. The plans of cases/
as CSV are asked for by check-serving.py.
"""

import tempfile

import checks

EXAMPLES = checks.ROOT / "examples"
CASES = checks.ROOT / "cases"


def check_lines(look, lines):
    """What the program writes of stamped lines."""
    text = lines.with_suffix(".txt").read_bytes()
    folios = int(text.split()[-1])
    for desks in ("1", "3") if folios > 1 else ("1",):
        with lines.open("rb") as source:
            ran = checks.run(["settle", "--desks", desks, "--lines"], stdin=source)
        look.same(f"{lines.parent.name}/{lines.stem}, desks {desks}", ran, (0, text, b""))


def check_rows(look, rows):
    """What the program writes of an opening list, and then of the journal that it was received into."""
    with tempfile.TemporaryDirectory() as folder:
        with rows.open("rb") as source:
            status, replies, errors = checks.run(["opening", "--sender", "9"], folder, stdin=source)
        look.same(f"examples/{rows.stem}: how it is received", (status, errors), (0, b""))
        status, report, errors = checks.run(["settle", "--desks", "1"], folder)
    look.same(f"examples/{rows.stem}", (status, replies + report, errors), (0, rows.with_suffix(".txt").read_bytes(), b""))


def check_texts(look, folder, inputs):
    """That no text stands without its input."""
    texts = {text.stem for text in folder.glob("*.txt")}
    look.same(f"texts of {folder.name}/ without an input", sorted(texts - inputs), [])


def main():
    checks.build()
    look = checks.Checks()
    for folder in (EXAMPLES, CASES):
        for lines in sorted(folder.glob("*.jsonl")):
            check_lines(look, lines)
    for rows in sorted(EXAMPLES.glob("*.csv")):
        check_rows(look, rows)
    for folder, endings in ((EXAMPLES, ("*.jsonl", "*.csv", "*.sh")), (CASES, ("*.jsonl",))):
        check_texts(look, folder, {file.stem for ending in endings for file in folder.glob(ending)})
    look.end()


if __name__ == "__main__":
    main()
