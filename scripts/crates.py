"""The crates of this repository: what each uses, and its must-fail edits.

An edit names a file by `file: PATH`, and turns it by pairs of `old: TEXT` and `new: TEXT`, one line each.
"""

import pathlib

ROOT = pathlib.Path(__file__).resolve().parent.parent
CRATES = ROOT / "crates"
LIST = ROOT / "crates.txt"

# The folders of a crate that have its sources.
PARTS = ("src", "specs", "proofs")

# The edits that the gate tries, and those that scripts/try-edits.py tries: docs/DECISIONS.md, "Most edits are
# tried by a script".
OF_GATE = ("must-fail", ".edit")
MORE = ("must-fail/more", ".md")


def listed():
    """The lines of crates.txt that list a crate, by its name, in their order."""
    lines = [line.split("#")[0].strip() for line in LIST.read_text().splitlines()]
    return {line.partition(":")[0].split()[0]: line for line in lines if line}


def uses():
    """Each crate of crates.txt in its order, with what it uses directly."""
    return {crate: line.partition(":")[2].split() for crate, line in listed().items()}


def below(wanted):
    """The crates that these stand on."""
    used, found, left = uses(), set(), list(wanted)
    while left:
        lower = {name for name in used[left.pop()] if name in used} - found
        found |= lower
        left += lower
    return found


def edits(crate, *places):
    """The files of a crate's edits in these places."""
    return [file for folder, ending in places for file in sorted((CRATES / crate / folder).glob("*" + ending))]


def strays(crate):
    """The files beside a crate's edits that are none: nothing tries them."""
    found = [file for file in (CRATES / crate / "must-fail").rglob("*") if file.is_file()]
    return sorted(file.name for file in found if file not in edits(crate, OF_GATE, MORE))


def changes(edit):
    """The file, the old and the new text of each change of an edit, in their order. No other line is read."""
    path = old = ""
    for line in edit.read_text().split("\n"):
        if line.startswith("file: "):
            path = line[len("file: ") :].strip()
        elif line.startswith("old: "):
            old = line[len("old: ") :]
        elif line.startswith("new:"):
            yield path, old, line[len("new: ") :]
            old = ""


def misfit(crate, edit):
    """Why an edit cannot be applied to the files of its crate; nothing where it can."""
    texts = {}
    for path, old, new in changes(edit):
        file = CRATES / crate / path
        if path not in texts and not file.is_file():
            return f"no file {path}"
        text = texts.get(path) or file.read_text()
        if not old or old == new:
            return "a change that changes nothing"
        if text.count(old) != 1:
            return f"{old!r} stands {text.count(old)} times in {path}"
        texts[path] = text.replace(old, new)
    return None if texts else "no change"
