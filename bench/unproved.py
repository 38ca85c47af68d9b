#!/usr/bin/env python3
"""Builds the program optimised and unproved, so that a change is measured before it is proved.

    bench/unproved.py OUT

How is told in scripts/unproved_build.py. OUT is for measuring alone, beside another that was made so: it
takes about a sixth longer than the proved program. bench/README.md says how long it takes to make it.
"""

import pathlib
import sys
import tempfile

ROOT = pathlib.Path(__file__).resolve().parent.parent
# So that whoever builds one leaves nothing else among the sources.
sys.dont_write_bytecode = True
sys.path.insert(0, str(ROOT / "scripts"))

import unproved_build


def main():
    if len(sys.argv) != 2:
        sys.exit(__doc__)
    with tempfile.TemporaryFile() as log:
        try:
            kit = unproved_build.known_kit()
            unproved_build.build(kit, ROOT / "crates" / "grundbuch", pathlib.Path(sys.argv[1]).resolve(), log)
        except unproved_build.UnknownKit as error:
            sys.exit(str(error))
        except unproved_build.NotBuilt:
            log.seek(0)
            sys.exit(log.read().decode(errors="replace"))


if __name__ == "__main__":
    main()
