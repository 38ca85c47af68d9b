#!/usr/bin/env python3
"""Refuses the built program each call of malloc and realloc of a run in turn, alone and with all after it; so the test
of a disk in memory that is stopped; and desks their threads. scripts/check-serving-memory.py does so with `serve`.

A run that was refused memory either needed none of it and writes what any run writes, or it writes the front of that
and ends with the status and the line that say that memory ran out. The file has a front of the receipts then, with
all that were acknowledged, and the same input once more ends with each of them received once. At several desks the
calls have no one order, so that one of them may be refused twice and another never. Where a desk gets no thread the
others do its work.
"""

import itertools
import pathlib
import subprocess
import tempfile

import checks
import kept_lines
from refused_memory import ALONE, FOLLOWING, SALE, Refused, is_answered, is_front, of_several_folios, receipts_in

# Two receipts.
TWO = checks.ROOT / "examples" / "two-lines.jsonl"

# The test of a disk that is stopped, as `rt ci` built it.
TESTS = checks.ROOT / "crates" / "disk_tests" / "out" / "disk_tests_tests"
STOPPED = "object_tests::a_stop_fills_what_no_sync_covers"

# Lines, or rows, that are received.
RECEIVED = 6


def check_runs(look, refused, words, folder, text=b"", wanted=None):
    """Each run of these words is answered, and the next one is whole; one line for all of them, and one for each that
    is not."""
    whole = checks.run(words, folder, input=text)
    look.same(f"{' '.join(words)}: the run without refusals", whole, (0, wanted or whole[1], b""))
    ended = []
    for name, ran in refused.each(words, folder, text):
        ended.append(ran[0])
        if not is_answered(whole[1], ran):
            look.differs(name, checks.shortened(ran))
    look.same(f"{' '.join(words)}: {len(ended)} runs, some of them out of memory", 0 < ended.count(6), True)
    look.same(f"{' '.join(words)}: the run after them", checks.run(words, folder, input=text), whole)


def numbers_again(replies, found):
    """Whether the replies to the same input once more say which receipts were found, and receive the others."""
    words = [b"repeated"] * found + [b"accepted"] * (RECEIVED - found)
    return replies == [b"%s %d" % (word, number) for number, word in enumerate(words, 1)]


def check_received(look, refused, words, text):
    """What was acknowledged is in the file, which has a front, whatever was refused; the same input ends with all."""
    with tempfile.TemporaryDirectory(dir=checks.QUICK) as folder:
        file = pathlib.Path(folder) / checks.JOURNAL
        output = checks.run(words, folder, input=text)[1]
        whole = receipts_in(folder)
        look.same(f"{words[0]}: receipts of the run without refusals", (len(whole), output.count(b"accepted")), (RECEIVED, RECEIVED))
        runs, lost, unsaid = 0, 0, 0
        for name, ran in refused.each(words, folder, text, anew=lambda: file.unlink(missing_ok=True)):
            runs += 1
            found, told = receipts_in(folder), ran[1].count(b"\n")
            status, again, errors = checks.run(words, folder, input=text)
            is_whole = (status, errors, receipts_in(folder)) == (0, b"", whole)
            if not (is_answered(output, ran) and is_front(found, whole, told) and is_whole and numbers_again(again.splitlines(), len(found))):
                lost += 1
                look.differs(name, checks.shortened((ran, found, again)))
            else:
                unsaid += len(found) - told
        look.same(f"{words[0]}: {runs} runs, {unsaid} with a receipt and no reply to it; those with another file, or another end", lost, 0)


def check_stopped(look, refused):
    """A disk in memory that is stopped answers that memory ran out, whichever call of it is refused."""
    if not TESTS.exists():
        look.skip("memory that is refused to a stopped disk", "its test is not built")
        return
    ends = []
    for number in itertools.count(1):
        refused.memory.refuse(ALONE, number)
        ran = subprocess.run([TESTS, STOPPED], env=refused.environment, capture_output=True, timeout=checks.LIMIT)
        if not refused.memory.were_refused():
            break
        ends.append((ran.returncode, b"AllocError" in ran.stderr))
    look.same("a stopped disk: the test without refusals", ran.returncode, 0)
    look.same(f"a stopped disk: {len(ends)} runs, each out of memory", (len(ends) > 20, set(ends)), (True, {(101, True)}))


def check_threads(look, refused, folder, desks):
    """Where one desk gets no thread, or none does, the others do its work, or the one that is there does all."""
    words = ["settle", "--desks", str(desks)]
    whole, runs = checks.run(words, folder), 0
    refused.memory.refuse()
    for how in (ALONE, FOLLOWING):
        for number in itertools.count(1):
            refused.threads.refuse(how, number)
            ran = checks.run(words, folder, env=refused.environment)
            if not refused.threads.were_refused():
                break
            runs += 1
            if ran != whole:
                look.differs(f"{' '.join(words)}, thread {number} {how}", checks.shortened(ran))
    refused.threads.refuse()
    look.same(f"{' '.join(words)}: {runs} runs in which threads are refused", runs >= 2 * (desks - 1), True)


def rows_of(count):
    rows = [f"{folio},1,{folio},0,500,10" for folio in range(1, count + 1)]
    return "".join(row + "\n" for row in ["folio,district,parcel,sub,area,owner", *rows]).encode()


def main():
    checks.build()
    look = checks.Checks()
    with tempfile.TemporaryDirectory() as folder:
        refused = Refused(folder)
        if not refused.environment:
            look.skip("memory that is refused", "there is no C compiler")
            look.end()
        for desks, lines in (("2", TWO), ("1", SALE)):
            check_runs(look, refused, ["settle", "--desks", desks, "--lines"], folder, lines.read_bytes(), lines.with_suffix(".txt").read_bytes())
        with tempfile.TemporaryDirectory(dir=checks.QUICK) as settled:
            file = pathlib.Path(settled) / checks.JOURNAL
            file.write_bytes(of_several_folios())
            before = file.read_bytes()
            for desks in (1, 2, 4):
                check_runs(look, refused, ["settle", "--desks", str(desks)], settled)
                if desks > 1:
                    check_threads(look, refused, settled, desks)
            look.same("the file that was settled", file.read_bytes(), before)
        check_runs(look, refused, ["sample", "--seed", "7", "--size", "40", "--desks", "2"], folder)
        check_received(look, refused, ["take"], kept_lines.texts_of(range(1, RECEIVED + 1)))
        check_received(look, refused, ["opening", "--sender", "9"], rows_of(RECEIVED))
        check_stopped(look, refused)
    look.end()


if __name__ == "__main__":
    main()
