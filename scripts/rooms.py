"""Rooms of their own for `rt`: copies of crates, so that others may work in the repository meanwhile."""

import os
import shutil

import crates


def link_or_copy(old, new):
    """A second name of a file of what is kept: `rt` replaces such a file, and never writes into it."""
    try:
        os.link(old, new)
    except OSError:
        shutil.copy2(old, new)


def take_over(old, new):
    """Copies what is kept of a proof; nothing where another command is just replacing it, so that `rt` proves it here."""
    try:
        shutil.copytree(old, new, copy_function=link_or_copy)
    except OSError:
        shutil.rmtree(new, ignore_errors=True)


def copy_crate(crate, room, kept):
    """Copies the sources of a crate, and these folders of what is kept of its proof."""
    old, new = crates.CRATES / crate, room / "crates" / crate
    for part in crates.PARTS:
        if (old / part).exists():
            shutil.copytree(old / part, new / part)
    for part in kept:
        take_over(old / part, new / part)


def make(room, wanted, kept):
    """Copies the wanted crates, with these folders of what is kept of each, and those that they stand on."""
    needed = {*wanted, *crates.below(wanted)}
    for crate in needed:
        copy_crate(crate, room, kept if crate in wanted else ["out/rlib"])
    lines = [line + "\n" for crate, line in crates.listed().items() if crate in needed]
    (room / "crates.txt").write_text("".join(lines))
