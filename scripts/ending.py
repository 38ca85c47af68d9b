"""What a script began ends with it."""

import signal
import subprocess
import sys

# How long a tool may take to end once it is told to, in seconds.
PATIENCE = 10


def end_when_told():
    """Has a signal that ends this program end it as its own end does, with what it began."""
    for number in (signal.SIGTERM, signal.SIGHUP):
        # One that the caller has ignored, as `nohup` does, stays so.
        if signal.getsignal(number) == signal.SIG_DFL:
            signal.signal(number, lambda number, _: sys.exit(128 + number))


def end(tool):
    """Ends a tool. One that has ended is told nothing, and `rt` ends what it began itself."""
    tool.terminate()
    try:
        tool.wait(PATIENCE)
    except subprocess.TimeoutExpired:
        tool.kill()
        tool.wait()
