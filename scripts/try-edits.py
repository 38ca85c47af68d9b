#!/usr/bin/env python3
"""Tries must-fail edits: the prover must refuse each.

    scripts/try-edits.py [--more] [CRATE..]

tries the edits of these crates, or of all: those in must-fail/, which the gate tries too, and those in
must-fail/more/, or with --more the latter alone. Each edit has a line: refused, not refused, bad (it cannot be
applied, compiled or read) or not tried. The last line counts them, and the status is 1 where one was not refused.

The crates are tried one after the other in a copy, which takes over what a check kept of them and of those below;
where nothing is kept, `rt` proves those first. So nothing here changes, and other commands of `rt` need not wait.
"""

import argparse
import collections
import os
import pathlib
import re
import shutil
import subprocess
import sys
import tempfile

import checks
import crates
import ending
import rooms

# What `rt must-fail` says of an edit, and what that is called here.
SAID = re.compile(r"^rt: must-fail \w+/(\S+)\.edit: (refused|NOT REFUSED|BAD EDIT|NOT TRIED)(?:, as it must be)?(.*)$", re.M)
OUTCOMES = {"refused": "refused", "NOT REFUSED": "not refused", "BAD EDIT": "bad", "NOT TRIED": "not tried"}


def place(room, crate, edits):
    """Puts the edits where `rt` finds them."""
    folder = room / "crates" / crate / "must-fail"
    folder.mkdir()
    for edit in edits:
        shutil.copy2(edit, folder / f"{edit.stem}.edit")


def what_rt_says(crate, room, spare):
    """All that a run of `rt must-fail` says. It ends with this program, and so do its checks."""
    how = {"stdin": subprocess.DEVNULL, "stdout": subprocess.PIPE, "stderr": subprocess.STDOUT, "text": True, "errors": "replace"}
    # What it leaves for its checks goes with the room, however it ends.
    ran = subprocess.Popen(["rt", "must-fail", crate], cwd=room, env={**os.environ, "TMPDIR": str(spare)}, **how)
    try:
        return ran.communicate()[0]
    finally:
        ending.end(ran)


def try_crate(crate, edits, room, spare):
    """Tries the edits of a crate, says what came of each, and counts that."""
    place(room, crate, edits)
    said = what_rt_says(crate, room, spare)
    found = {edit: (OUTCOMES[word], why) for edit, word, why in SAID.findall(said)}
    outcomes = [(edit.stem, *found.get(edit.stem, ("not tried", ": rt says nothing of it"))) for edit in edits]
    if any(outcome != "refused" for _, outcome, _ in outcomes):
        print(said, end="")
    for edit, outcome, why in outcomes:
        print(f"{outcome} {crate}/{edit}{why}", flush=True)
    return collections.Counter(outcome for _, outcome, _ in outcomes)


def wanted_edits(words):
    """The edits to try of each crate, in the order of crates.txt."""
    places = [crates.MORE] if words.more else [crates.OF_GATE, crates.MORE]
    unknown = [name for name in words.crates if name not in crates.uses()]
    strays = [f"{crate}/{name}" for crate in crates.uses() for name in crates.strays(crate)]
    if unknown or strays:
        sys.exit(f"no crate {unknown[0]}" if unknown else f"{strays[0]} is no edit: one of must-fail/ ends in .edit, one of more/ in .md")
    found = {crate: crates.edits(crate, *places) for crate in crates.uses() if crate in words.crates or not words.crates}
    return {crate: edits for crate, edits in found.items() if edits}


def main():
    words = argparse.ArgumentParser(description=__doc__, formatter_class=argparse.RawDescriptionHelpFormatter)
    words.add_argument("--more", action="store_true", help="the edits in must-fail/more/ alone")
    words.add_argument("crates", nargs="*", metavar="CRATE")
    wanted = wanted_edits(words.parse_args())
    if not shutil.which("rt"):
        sys.exit("the kit's rt has to be on the path")
    # So that the folder goes also where this program is told to end.
    ending.end_when_told()
    folder = pathlib.Path(tempfile.mkdtemp(prefix="edits-"))
    counts = collections.Counter()
    try:
        room, spare = folder / "room", folder / "spare"
        room.mkdir()
        spare.mkdir()
        rooms.make(room, wanted, ["out/rlib", "out/incremental"])
        shutil.copy2(checks.ROOT / "HANDLES", room)
        for crate, edits in wanted.items():
            print(f"== {crate}, edits: {len(edits)}", flush=True)
            counts += try_crate(crate, edits, room, spare)
    finally:
        shutil.rmtree(folder, ignore_errors=True)
    print(", ".join(f"{counts[outcome]} {outcome}" for outcome in OUTCOMES.values()))
    sys.exit(0 if counts["refused"] == sum(counts.values()) else 1)


if __name__ == "__main__":
    try:
        main()
    except KeyboardInterrupt:
        sys.exit(130)
