#!/usr/bin/env python3
"""Measures `settle --lines` of the built program: lines a second and peak memory.

settle.py [N]     runs each shape of generate.py with N lines (2,000)
"""
import resource
import subprocess
import sys
import time
from pathlib import Path

HERE = Path(__file__).resolve().parent
PROGRAM = HERE.parent / "grundbuch"


def measure(shape, count):
    lines = subprocess.run([sys.executable, HERE / "generate.py", shape, str(count)], capture_output=True, check=True).stdout
    start = time.monotonic()
    run = subprocess.run([PROGRAM, "settle", "--desks", "1", "--lines"], input=lines, capture_output=True)
    seconds = time.monotonic() - start
    peak = resource.getrusage(resource.RUSAGE_CHILDREN).ru_maxrss // 1024
    if run.returncode != 0:
        sys.exit(f"{shape}: status {run.returncode}: {run.stderr.decode()}")
    print(f"{shape}: {count} lines in {seconds:.2f} s, {count / seconds:,.0f} lines a second, "
          f"{len(run.stdout):,} bytes written, peak memory of the runs so far {peak} MiB")


def main():
    count = int(sys.argv[1]) if len(sys.argv) > 1 else 2_000
    subprocess.run([PROGRAM, "--build"], check=True)
    for shape in ("one-folio", "many-folios", "waiting"):
        measure(shape, count)


main()
