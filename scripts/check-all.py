#!/usr/bin/env python3
"""Runs each check of this folder, and adds up what they counted.

    scripts/check-all.py           runs the checks; the last line is 'N passed, N failed, N skipped'
    scripts/check-all.py FILE      adds the counts of the proofs, whose output the file has; where
                                   something failed there, the checks are skipped
"""

import pathlib
import re
import subprocess
import sys

import checks

FOLDER = pathlib.Path(__file__).resolve().parent
COUNTS = re.compile(r"^(\d+) passed, (\d+) failed(?:, (\d+) skipped)?", re.M)


def counts_in(text):
    """The counts of the last line that has some; a failure where none has."""
    found = COUNTS.findall(text)
    return [int(number or 0) for number in found[-1]] if found else [0, 1, 0]


def main():
    look = checks.Checks()
    if len(sys.argv) > 1:
        look.add(*counts_in(pathlib.Path(sys.argv[1]).read_text(errors="replace")))
    proved = look.failed == 0
    for check in sorted(FOLDER.glob("check-*.py")):
        if check.name == "check-all.py":
            continue
        if not proved:
            look.skip(check.name, "the proofs failed")
            continue
        print(f"== {check.name}", flush=True)
        ran = subprocess.run([sys.executable, check], stdout=subprocess.PIPE, text=True)
        print(ran.stdout, end="", flush=True)
        passed, failed, skipped = counts_in(ran.stdout)
        # A check that ended early counts as failed, whatever it said before.
        look.add(passed, max(failed, 1) if ran.returncode else failed, skipped)
    look.end()


if __name__ == "__main__":
    main()
