"""The built program while memory, or a thread, is refused to it (refuse_memory.c), and what it may answer then."""

import itertools
import json
import mmap
import os
import pathlib

import checks
import kept_lines
import spelling

SOURCE = pathlib.Path(__file__).resolve().parent / "refuse_memory.c"
OUT_OF_MEMORY = (6, b"out of memory\n")

# A sale with its plan, and how many folios stand beside it.
SALE = checks.ROOT / "examples" / "distribution.jsonl"
OTHERS = 5

# One call is refused, or all from one on.
ALONE, FOLLOWING = "alone", "with all after it"

# The places of the numbers of a kind of calls: how many were made, which is refused, from which one on, how many were.
MADE, AT, FROM, WERE = range(4)
NUMBERS, BYTES = 4, 8


class Calls:
    """The calls of a kind, and which of them are refused."""

    def __init__(self, numbers):
        self.numbers = numbers

    def refuse(self, how=ALONE, number=0):
        """Refuses the call of this number from now on, alone or with all after it; none where it is 0."""
        self.numbers[AT] = self.numbers[FROM] = 0
        self.numbers[MADE] = self.numbers[WERE] = 0
        self.numbers[AT if how == ALONE else FROM] = number

    def made(self):
        return self.numbers[MADE]

    def were_refused(self):
        return self.numbers[WERE] > 0


class Refused:
    """The library that refuses calls to programs, and what it is told."""

    def __init__(self, folder):
        library, told = checks.library_of(SOURCE, folder), os.path.join(folder, "refused")
        with open(told, "wb+") as file:
            file.write(bytes(2 * NUMBERS * BYTES))
            file.flush()
            numbers = memoryview(mmap.mmap(file.fileno(), 0)).cast("q")
        self.memory, self.threads = Calls(numbers[:NUMBERS]), Calls(numbers[NUMBERS:])
        self.environment = {**os.environ, "LD_PRELOAD": library, "REFUSED": told} if library else None

    def each(self, words, folder, text=b"", anew=lambda: None):
        """The runs of which one allocation is refused, alone and with all after it, each with its name."""
        for how in (ALONE, FOLLOWING):
            for number in itertools.count(1):
                anew()
                self.memory.refuse(how, number)
                ran = checks.run(words, folder, input=text, env=self.environment)
                if not self.memory.were_refused():
                    break
                yield f"{' '.join(words)}, allocation {number} {how}", ran


def is_answered(whole, ran):
    """Whether a run that was refused memory wrote all, or a front, and said that memory ran out."""
    status, output, errors = ran
    return ran == (0, whole, b"") or ((status, errors) == OUT_OF_MEMORY and whole.startswith(output))


def receipts_in(folder):
    """The receipts of the journal's file of a folder, without their stamps; None where it is no journal and was made."""
    file = kept_lines.Kept(folder).bytes()
    return checks.receipts_without_stamps(file) if len(file) > 1 and file[0] else []


def is_front(receipts, whole, told):
    """Whether receipts are the first ones of a whole journal, with all that were told of, and one more at most."""
    return receipts is not None and receipts == whole[: len(receipts)] and len(receipts) - told in (0, 1)


def of_several_folios():
    """A journal's file of the sale, and after it openings of folios of their own, so that there is work for several
    desks."""
    sale = [json.loads(line) for line in SALE.read_text().splitlines()]
    stamp = {name: sale[-1][name] for name in ("day", "minute")}
    others = [{**checks.filing(number, checks.opening(number)), **stamp, "sender": 9} for number in range(101, 101 + OTHERS)]
    return checks.journal([spelling.receipt(line) for line in sale + others])
