#!/usr/bin/env python3
"""Measures `settle --lines` over journals that are hard on it: seconds and greatest memory.

hostile.py [--peer PEER] [--sizes N,N,..] [--disk] [--longest SECONDS] [SHAPE ..]

The shapes are those of generate.py, with so many lines each. PEER is another program that takes
`settle --desks 1 --lines` and writes the same report; it runs over the same lines, and what it writes is
compared. With --disk the lines are a journal's file, and both run `settle --desks 1` in its folder. A run
that takes over ten minutes, or over so many seconds, is stopped and said to be so.
"""

import argparse
import filecmp
import json
import os
import pathlib
import subprocess
import sys
import tempfile
import time
import traceback

ROOT = pathlib.Path(__file__).resolve().parent.parent
sys.path.insert(0, str(ROOT / "scripts"))

import checks  # noqa: E402
import spelling  # noqa: E402

PROGRAM = ROOT / "grundbuch"
GENERATOR = pathlib.Path(__file__).resolve().parent / "generate.py"
SHAPES = ["pending", "lapses", "extends", "extensions", "notices", "cures", "others", "exchanges", "transfers", "cancel", "wide",
          "folios", "senders", "bids", "mixed", "mixright", "sales", "swapsales"]
SIZES = [50_000, 100_000, 200_000]
LONGEST = 600


def run(program, desks, words, longest, **how):
    """Seconds and greatest memory in MiB of one run at so many desks; None where it took too long."""
    start = time.monotonic()
    child = subprocess.Popen([program, "settle", "--desks", str(desks), *words], **how)
    while True:
        pid, status, used = os.wait4(child.pid, os.WNOHANG)
        seconds = time.monotonic() - start
        if pid:
            child.returncode = os.waitstatus_to_exitcode(status)
            return seconds, used.ru_maxrss // 1024, child.returncode
        if seconds > longest:
            child.kill()
            os.wait4(child.pid, 0)
            return None
        time.sleep(0.005)


def shown(said, longest):
    if said is None:
        return f"over {longest} s"
    seconds, memory, status = said
    return f"{seconds:.2f} s, {memory} MiB" + (f", status {status}" if status else "")


def make_journal(lines, folder):
    """The journal's file of these lines, as if they were received with their stamps.

    It is made in a process of its own: a program that is started counts what the one that starts it has
    taken so far among its own greatest memory.
    """
    pid = os.fork()
    if pid == 0:
        status = 1
        try:
            with lines.open(encoding="ascii") as file:
                bodies = [spelling.receipt(json.loads(line)) for line in file]
            (folder / checks.JOURNAL).write_bytes(checks.journal(bodies))
            status = 0
        except Exception:
            traceback.print_exc()
        finally:
            os._exit(status)
    if os.waitpid(pid, 0)[1]:
        raise ChildProcessError("no journal was made")


def measure(peer, shape, size, folder, disk, longest):
    lines = folder / "lines"
    with lines.open("wb") as file:
        subprocess.run([sys.executable, GENERATOR, shape, str(size)], stdout=file, check=True)
    if disk:
        make_journal(lines, folder)
    texts = []
    said = []
    for program in filter(None, [PROGRAM, peer]):
        text = folder / f"text{len(texts)}"
        with lines.open("rb") as source, text.open("wb") as sink:
            if disk:
                said.append(run(program, 1, [], longest, cwd=folder, stdin=subprocess.DEVNULL, stdout=sink))
            else:
                said.append(run(program, 1, ["--lines"], longest, stdin=source, stdout=sink))
        texts.append(text)
    line = f"{shape} {size}: {shown(said[0], longest)}"
    if peer:
        same = None not in said and filecmp.cmp(*texts, shallow=False)
        line += f"; the peer {shown(said[1], longest)}; " + ("the same text" if same else "NOT the same text")
    print(line, flush=True)


def main():
    words = argparse.ArgumentParser(description=__doc__, formatter_class=argparse.RawDescriptionHelpFormatter)
    words.add_argument("--peer")
    words.add_argument("--sizes", default=",".join(map(str, SIZES)))
    words.add_argument("--disk", action="store_true")
    words.add_argument("--longest", type=int, default=LONGEST)
    words.add_argument("shapes", nargs="*", default=SHAPES)
    given = words.parse_args()
    with tempfile.TemporaryDirectory() as folder:
        for shape in given.shapes:
            for size in given.sizes.split(","):
                measure(given.peer, shape, int(size), pathlib.Path(folder), given.disk, given.longest)


if __name__ == "__main__":
    main()
