#!/usr/bin/env python3
"""Runs scripts/try-edits.py in a small repository, over a stand-in for the kit's `rt`.

    scripts/check-tries.py

Looked at are what it says of each edit and its status, which edits and crates it takes, that it leaves nothing
behind where it is ended, and that an edit which no longer fits its file is found.
"""

import os
import pathlib
import shutil
import signal
import subprocess
import sys
import tempfile
import time

import checks
import crates

LISTED = """low: std
top may_abort=2: low
other: low
"""

# It says of each edit what the edit's last line has. It wants the crates that `top` stands on and what is kept of
# them, and no other. It waits where a file `waits` is beside the repository.
STAND_IN = """#!/bin/sh
[ "$*" = "must-fail top" ] && [ -e crates/low/src/lib.rt ] && [ -e crates/low/out/rlib/low ] || exit 2
[ -e crates/top/out/incremental/kept ] && [ ! -e crates/other ] && [ -e HANDLES ] || exit 2
echo "rt: top: begins with what a check kept"
if [ -e "$ROOM/waits" ]; then
    touch "$TMPDIR/left" "$ROOM/begun"
    exec sleep 50
fi
for edit in crates/top/must-fail/*.edit; do
    said=$(sed -n 's/^# //p' "$edit")
    [ -z "$said" ] || echo "rt: must-fail top/$(basename "$edit"): $said"
done
"""

CHANGE = "file: src/lib.rt\nold: one\nnew: two\n"
REFUSED = "refused, as it must be: src/lib.rt:1:1: error: no proof"


class Room:
    """A repository of three small crates, with the script and the stand-in."""

    def __init__(self, folder):
        self.folder, self.top = folder / "repository", folder / "repository" / "crates" / "top"
        self.env = {**os.environ, "PATH": f"{folder}/bin:{os.environ['PATH']}", "ROOM": str(folder), "TMPDIR": f"{folder}/temporary"}
        shutil.copytree(pathlib.Path(__file__).parent, self.folder / "scripts", ignore=shutil.ignore_patterns("__pycache__"))
        for name in ("low", "top", "other"):
            self.write(f"crates/{name}/src/lib.rt", "one\n")
            self.write(f"crates/{name}/out/rlib/{name}", "")
        self.write("crates/top/out/incremental/kept", "")
        self.write("crates.txt", LISTED)
        self.write("HANDLES", "Handles allowed: none.\n")
        self.write("../bin/rt", STAND_IN)
        (folder / "bin" / "rt").chmod(0o755)
        (folder / "temporary").mkdir()

    def write(self, path, text):
        file = self.folder / path
        file.parent.mkdir(parents=True, exist_ok=True)
        file.write_text(text)

    def edit(self, name, said):
        self.write(f"crates/top/must-fail/{name}", CHANGE + (f"# {said}\n" if said else ""))

    def begin(self, *words):
        how = {"stdin": subprocess.DEVNULL, "stdout": subprocess.PIPE, "stderr": subprocess.PIPE, "text": True}
        how["preexec_fn"] = checks.hear_signals
        return subprocess.Popen([sys.executable, self.folder / "scripts" / "try-edits.py", *words], env=self.env, **how)

    def tries(self, *words):
        """The status, the lines of the output, and the errors."""
        ran = self.begin(*words)
        output, errors = ran.communicate(timeout=checks.LIMIT)
        return ran.returncode, output.splitlines(), errors

    def files(self):
        return sorted(str(file) for file in self.folder.rglob("*") if "__pycache__" not in file.parts)


def check_outcomes(look, room):
    room.edit("first.edit", REFUSED)
    room.edit("more/second.md", REFUSED)
    before = room.files()
    first, second = (f"refused top/{name}: src/lib.rt:1:1: error: no proof" for name in ("first", "second"))
    counts = ", 0 not refused, 0 bad, 0 not tried"
    look.same("both kinds of edits are tried", room.tries("top"), (0, ["== top, edits: 2", first, second, "2 refused" + counts], ""))
    look.same("so they are with no name", room.tries(), room.tries("top"))
    look.same("those of more/ alone", room.tries("--more"), (0, ["== top, edits: 1", second, "1 refused" + counts], ""))
    look.same("a crate without edits", room.tries("other"), (0, ["0 refused" + counts], ""))
    look.same("nothing is changed", room.files(), before)
    for said, outcome in (("NOT REFUSED: proved", "not refused"), ("BAD EDIT: no file", "bad"), ("NOT TRIED: killed", "not tried"), ("", "not tried")):
        room.edit("more/second.md", said)
        status, output, _ = room.tries("top")
        why = said.partition(": ")[2] or "rt says nothing of it"
        look.same(f"one that is {outcome}: {why}", (status, output[-2]), (1, f"{outcome} top/second: {why}"))
        look.same("it is counted", f"1 {outcome}" in output[-1].split(", "), True)


def check_refusals(look, room):
    look.same("a name of no crate", room.tries("to"), (1, [], "no crate to\n"))
    room.edit("more/third.edit", REFUSED)
    status, output, errors = room.tries()
    look.same("a file that is no edit", (status, output, errors.startswith("top/third.edit is no edit")), (1, [], True))
    (room.top / "must-fail" / "more" / "third.edit").unlink()


def check_endings(look, room):
    waits, begun = room.folder.parent / "waits", room.folder.parent / "begun"
    waits.touch()
    for number, status in ((signal.SIGINT, 130), (signal.SIGTERM, 143), (signal.SIGHUP, 129)):
        ran = room.begin("top")
        until = time.monotonic() + checks.LIMIT
        while not begun.exists() and time.monotonic() < until:
            time.sleep(0.05)
        begun.unlink(missing_ok=True)
        ran.send_signal(number)
        ran.communicate(timeout=20)
        look.same(f"ended by signal {number}", ran.returncode, status)
        look.same("its folder is gone", checks.names_in(room.env["TMPDIR"]), [])
    waits.unlink()


def check_misfits(look, room):
    crates.CRATES = room.folder / "crates"
    edit = room.top / "must-fail" / "first.edit"
    look.same("an edit that fits", crates.misfit("top", edit), None)
    for text, why in (("one one\n", "'one' stands 2 times in src/lib.rt"), ("two\n", "'one' stands 0 times in src/lib.rt")):
        room.write("crates/top/src/lib.rt", text)
        look.same(f"one that does not: {why}", crates.misfit("top", edit), why)
    (room.top / "src" / "lib.rt").unlink()
    look.same("one without its file", crates.misfit("top", edit), "no file src/lib.rt")
    edit.write_text("file: src/lib.rt\n")
    look.same("one without a change", crates.misfit("top", edit), "no change")


def main():
    look = checks.Checks()
    with tempfile.TemporaryDirectory() as folder:
        room = Room(pathlib.Path(folder).resolve())
        for check in (check_outcomes, check_refusals, check_endings, check_misfits):
            check(look, room)
    look.end()


if __name__ == "__main__":
    main()
