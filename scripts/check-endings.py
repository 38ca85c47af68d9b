#!/usr/bin/env python3
"""Runs the built program with words and inputs that end it in each way: its status and the line on standard error."""

import resource
import tempfile

import checks

LINES = ["settle", "--desks", "1", "--lines"]
USAGE = (2, b"", b"usage\n")
NOT_A_JOURNAL = (7, b"", b"not a journal\n")
MOST = 64 * 2**20

# Words that are a command of the journal's file: each order of the options, both spellings, and the ends of the ranges.
OF_THE_FILE = """
take
opening --sender 4294967295 | opening --sender=4294967295 | --sender 4294967295 opening | opening --sender 0
settle --desks 2 | settle --desks=2 | --desks 2 settle | --desks=2 settle | settle --desks 0000000002 | settle --desks 64
serve --desks 2 --requests 30 | serve --requests=30 --desks 2 | --requests 30 serve --desks=2 | --desks=2 --requests=30 serve
serve --desks=1 --requests=1000000
"""

# Words that settle the lines of the input.
OF_LINES = """
settle --desks 2 --lines | settle --lines --desks 2 | --lines settle --desks=2 | --lines --desks 2 settle
"""

# Words that settle the generated journal of seed 5 and of 100 receipts.
OF_A_SAMPLE = """
sample --seed 5 --size 100 --desks 2 | sample --seed=5 --desks=2 --size=100 | sample --size 100 --seed=5 --desks 2
sample --size=100 --desks=2 --seed 5 | --desks=2 sample --seed=5 --size 100 | --desks 2 --size=100 --seed=5 sample
"""

# Words that are no command: another word, a hyphen that begins no option, a name that no option has, a value that
# is no number in range, options twice, missing or of another command, and `--lines` with a value.
OF_NOTHING = """
settles --desks 2 | --desks 2 | take take | settle --desks 2 take | --help | -h | --version | help | grundbuch settle --desks 1
take -- | -- take | settle --desks -- 2 | settle --desks 2 -- | - | settle --desks - | settle --desks -5 | settle -d 2
settle --desk 2 | settle --Desks 2 | settle --desks 2 --command=take | settle --=5 | settle = | settle --b\u00e4nke 2
settle --desks | settle --desks= | settle --desks==5 | settle --desks +2 | settle --desks two | settle --desks 0
settle --desks 65 | settle --desks 00000000002 | serve --desks=2 --requests=0 | serve --desks=2 --requests=1000001
serve --desks=0 --requests=1 | serve --desks=65 --requests=1 | sample --seed=5 --size=1 --desks=0
sample --seed=5 --size=0 --desks=2 | sample --seed=5 --size=200001 --desks=2 | sample --seed=10000000000 --size=1 --desks=2
sample --seed=-1 --size=1 --desks=2 | sample --seed=5 --size=1 --desks=65 | opening --sender=4294967296 | opening --sender -1
settle --desks 2 --desks 2 | settle --desks=2 --desks 2 | settle --lines --desks=2 --lines | settle | settle --lines
serve --desks 2 | serve --requests 2 | sample --seed=5 --desks=2 | opening | opening --desks 9 | opening --sender=9 --sender=9
take --desks 2 | take --lines | take --sender 1 | settle --desks=2 --seed=5 | serve --desks=2 --requests=3 --lines
settle --desks=2 --lines= | settle --desks=2 --lines=1 | settle --desks=2 --lines=true | settle --desks --lines
settle --desks --lines 2 | settle --desks --desks 2
"""


# The summaries of generated journals, as a second program wrote them.
SUMMARY_OF_ONE = b"receipts 1\nentered 1\nrejected 0\ninterim 0\ncured 0\nother 0\nfolios 1\nrights 0\ncapital 0.00\npaid 0.00\n"
SUMMARY_OF_100 = (
    b"receipts 100\nentered 83\nrejected 1\ninterim 5\ncured 1\nother 10\nfolios 7\nrights 32\ncapital 981000.00\npaid 0.00\n"
)
SUMMARY_OF_200 = (
    b"receipts 200\nentered 160\nrejected 0\ninterim 19\ncured 7\nother 14\nfolios 13\nrights 83\ncapital 1982000.00\npaid 0.00\n"
)


def of(table):
    """The words of each command of a table."""
    return [command.split() for line in table.strip().splitlines() for command in line.split("|")]


def check_words(look):
    """The words after the program's name are the command; all others touch nothing."""
    no_text = [b"settle", b"--desks", b"1", b"\xff"]
    for words in [*of(OF_NOTHING), [], [""], [*LINES, ""], ["settle", "--desks", ""], ["opening", "--sender", ""], no_text]:
        with tempfile.TemporaryDirectory() as folder:
            look.same(f"the words {words}", checks.run(words, folder), USAGE)
            look.same(f"the words {words}: the folder", checks.names_in(folder), [])


def check_commands(look):
    """A command of the journal's file meets that it is none; the others do not touch it."""
    report = (0, b"end receipts 0 folios 0\n", b"")
    with tempfile.TemporaryDirectory() as folder:
        with open(f"{folder}/{checks.JOURNAL}", "wb") as file:
            file.write(b"hello world")
        for words in of(OF_THE_FILE):
            look.same(f"the words {words}", checks.run(words, folder), NOT_A_JOURNAL)
        for words in of(OF_LINES):
            look.same(f"the words {words}", checks.run(words, folder), report)
        for words in of(OF_A_SAMPLE):
            look.same(f"the words {words}", checks.run(words, folder), (0, SUMMARY_OF_100, b""))
    with tempfile.TemporaryDirectory() as folder:
        look.same("no line and 64 desks", checks.run(["settle", "--desks", "64", "--lines"], folder), report)
        look.same("no line and 64 desks: the folder", checks.names_in(folder), [])


def check_summaries(look):
    """Each journal of one receipt opens a folio, whatever its seed; the desks are in no summary."""
    for seed, size, desks, wanted in [
        *((seed, "1", "1", SUMMARY_OF_ONE) for seed in ("0", "7", "0000000007", "9999999999")),
        ("7", "0001", "64", SUMMARY_OF_ONE),
        ("7", "200", "1", SUMMARY_OF_200),
        ("7", "200", "8", SUMMARY_OF_200),
    ]:
        ran = checks.run(["sample", "--seed", seed, "--size", size, "--desks", desks])
        look.same(f"the summary of seed {seed} and size {size} at {desks} desks", ran, (0, wanted, b""))


def check_length(look):
    """The input may have 64 MiB and no byte more. Blank lines are answered by none."""
    report = b"end receipts 0 folios 0\n"
    look.same("64 MiB of blank lines", checks.run(LINES, input=b" \n" * (MOST // 2)), (0, report, b""))
    ran = checks.run(LINES, input=b" \n" * (MOST // 2) + b" ")
    look.same("a byte more", ran, (9, b"", b"input too long\n"))
    row = b"folio,district,parcel,sub,area,owner\n7,12,345,6,800,10\n"
    with tempfile.TemporaryDirectory() as folder:
        ran = checks.run(["opening", "--sender", "9"], folder, input=row + b"\n" * (MOST - len(row)))
        look.same("an opening list of 64 MiB", ran, (0, b"accepted 1\n", b""))
    with tempfile.TemporaryDirectory() as folder:
        ran = checks.run(["opening", "--sender", "9"], folder, input=row + b"\n" * (MOST - len(row) + 1))
        look.same("a list with a byte more", ran, (9, b"", b"input too long\n"))
        look.same("a list with a byte more: the journal", checks.run(["settle", "--desks", "1"], folder), (0, report, b""))


def check_memory(look):
    """Where the system gives no memory for the report, the program says so."""
    before, _ = checks.journal_of_openings(20_000)
    room = 24 * 2**20

    def limit():
        resource.setrlimit(resource.RLIMIT_AS, (room, room))

    with tempfile.TemporaryDirectory() as folder:
        with open(f"{folder}/{checks.JOURNAL}", "wb") as file:
            file.write(before)
        ran = checks.run(["settle", "--desks", "1"], folder, preexec_fn=limit)
    look.same("a long journal in 24 MiB of memory", ran, (6, b"", b"out of memory\n"))


def main():
    checks.build()
    look = checks.Checks()
    check_words(look)
    check_commands(look)
    check_summaries(look)
    check_length(look)
    check_memory(look)
    look.end()


if __name__ == "__main__":
    main()
