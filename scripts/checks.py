"""What the checks of this folder share: their lines and counts, the built program, and journals for it.

A check prints a line for each thing that it looked at, `ok`, `differs` or `skipped`, and ends with
`N passed, N failed, N skipped`.
"""

import contextlib
import functools
import json
import os
import pathlib
import re
import shutil
import signal
import subprocess
import sys
import tempfile
import threading
import time

import frames
import spelling
import wrong_lines

ROOT = pathlib.Path(__file__).resolve().parent.parent
WRAPPER = ROOT / "grundbuch"
PROGRAM = ROOT / "crates" / "grundbuch" / "out" / "grundbuch"
JOURNAL = "grundbuch.journal"
HTTP_PAGE = ROOT / "docs" / "formats" / "http.md"

# No run of a check takes longer, in seconds.
LIMIT = 60

# A folder in which a sync costs nothing, for checks that make many files; the system's own where there is none.
QUICK = "/dev/shm" if os.access("/dev/shm", os.W_OK) else None


class Checks:
    """Counts what was looked at, and prints a line of each."""

    def __init__(self):
        self.passed = self.failed = self.skipped = 0

    def ok(self, what):
        self.passed += 1
        print(f"ok {what}", flush=True)

    def differs(self, what, why):
        self.failed += 1
        print(f"differs {what}: {why}", flush=True)

    def skip(self, what, why):
        self.skipped += 1
        print(f"skipped {what}: {why}", flush=True)

    def same(self, what, got, wanted):
        """Whether what came is what was wanted."""
        if got == wanted:
            self.ok(what)
        else:
            self.differs(what, f"{shortened(got)}, and not {shortened(wanted)}")

    def at_most(self, what, got, most):
        """Whether what was counted is no more than this."""
        if got <= most:
            self.ok(f"{what}: {got}")
        else:
            self.differs(what, f"{got}, and at most {most}")

    def add(self, passed, failed, skipped):
        self.passed += passed
        self.failed += failed
        self.skipped += skipped

    def end(self):
        """Prints the counts, and ends the check with 1 where something failed."""
        print(f"{self.passed} passed, {self.failed} failed, {self.skipped} skipped", flush=True)
        sys.exit(1 if self.failed else 0)


def shortened(value, most=200):
    text = repr(value)
    return text if len(text) <= most else text[:most] + " .."


def build():
    """Builds the program where it is not built, or a file of the crates is newer than it."""
    made = subprocess.run([WRAPPER, "--build"], stdin=subprocess.DEVNULL)
    if made.returncode != 0 or not os.access(PROGRAM, os.X_OK):
        sys.exit("the program was not built")


def run(words, folder=None, before=None, **how):
    """The status, the output and the errors of a run of the program."""
    how = {"stdin": subprocess.DEVNULL, "stdout": subprocess.PIPE, "stderr": subprocess.PIPE, **how}
    if "input" in how:
        del how["stdin"]
    ran = subprocess.run([*(before or []), PROGRAM, *words], cwd=folder, timeout=LIMIT, **how)
    return ran.returncode, ran.stdout, ran.stderr


def measured(words, folder=None):
    """The status, the output and the errors of a run of the program, and how many seconds and how much memory it took, in MiB."""
    with tempfile.TemporaryFile() as output, tempfile.TemporaryFile() as errors:
        begun = time.monotonic()
        child = subprocess.Popen([PROGRAM, *words], cwd=folder, stdin=subprocess.DEVNULL, stdout=output, stderr=errors)
        with ended_late(child):
            _, status, used = os.wait4(child.pid, 0)
        seconds = time.monotonic() - begun
        child.returncode = os.waitstatus_to_exitcode(status)
        output.seek(0)
        errors.seek(0)
        return child.returncode, output.read(), errors.read(), (seconds, used.ru_maxrss // 1024)


@contextlib.contextmanager
def ended_late(child):
    """Ends a program that takes longer than any run of a check."""
    late = threading.Timer(LIMIT, child.kill)
    late.start()
    try:
        yield
    finally:
        late.cancel()


def hear_signals():
    """Has a program that a check starts, and will send a signal, be ended by it: a shell has what it runs in the
    background pass over some."""
    for number in (signal.SIGINT, signal.SIGTERM, signal.SIGHUP):
        signal.signal(number, signal.SIG_DFL)


def routes_of_page():
    """The method and path of each route of docs/formats/http.md, with the statuses that it may answer."""
    rows = re.findall(r"^\| `([A-Z]+ /\S*)` \|[^|]*\| ([\d ]+) \|$", HTTP_PAGE.read_text(), re.M)
    return [(route, statuses.split()) for route, statuses in rows]


def names_in(folder):
    return sorted(os.listdir(folder))


@functools.cache
def has_strace():
    """Whether calls can be watched and made to fail here."""
    try:
        return subprocess.run(["strace", "-o", os.devnull, "true"], capture_output=True).returncode == 0
    except OSError:
        return False


def library_of(source, folder):
    """The library of a C source, to be loaded before the program; None where no compiler is found."""
    compiler = next((name for name in ("cc", "gcc", "clang") if shutil.which(name)), None)
    if compiler is None:
        return None
    built = os.path.join(folder, f"{source.stem}.so")
    subprocess.run([compiler, "-shared", "-fPIC", "-O1", "-o", built, source], check=True)
    return built


def opening(folio):
    return {"act": "open", "folio": folio, "district": 1, "parcel": folio, "sub": 0, "area": 500, "owners": [10]}


def land_charge(folio, capital, group=1):
    """The creation of a land charge of so many cents, with interest, for person 20."""
    return {"act": "create", "folio": folio, "kind": "land-charge", "rate": 500, "capital": capital, "holder": 20, "group": group}


def consent(act, person, form="certified"):
    return {"doc": "consent", "act": act, "person": person, "form": form}


def filed(acts, docs, applicant=10):
    """The item that files these acts."""
    return {"kind": "filing", "applicant": applicant, "conditional": False, "acts": acts, "docs": docs}


def filing(number, act):
    """A stamped line with one act, applied for and consented to by person 10."""
    item = filed([act], [consent(1, 10)])
    return {"day": "2024-03-01", "minute": 540, "sender": 1, "reference": number, "item": item}


def text_of(lines):
    """The bytes of lines."""
    return "".join(wrong_lines.compact(line) + "\n" for line in lines).encode()


def stamped(number):
    """A stamped line that opens a folio, as text."""
    return wrong_lines.compact(filing(number, opening(number)))


def plain(number):
    """The same line without its stamp."""
    line = filing(number, opening(number))
    return wrong_lines.compact({name: line[name] for name in ("sender", "reference", "item")})


def journal(bodies):
    """The bytes of a journal's file with these records."""
    records = b"".join(b"\x01" + spelling.u32(len(body)) + body for body in bodies)
    return frames.HEAD + records + b"\x00"


def number_in(file, begin, end):
    return int.from_bytes(file[begin:end], "big")


def frames_of(file):
    """The gates and the bodies of a file's frames, and whether the gate after the last is open, though no whole frame follows."""
    gate, gates, bodies = 9, [], []
    while file[gate] == 1:
        end = gate + 5 + number_in(file, gate + 1, gate + 5)
        if not gate + 5 < end <= gate + 1029 or end >= len(file):
            return [*gates, gate], bodies, True
        gates.append(gate)
        bodies.append(file[gate + 5 : end])
        gate = end
    return [*gates, gate], bodies, False


def receipts_without_stamps(file):
    """The receipts of a journal's file behind the six bytes of their stamps; None where the file is cut off."""
    _, bodies, is_cut = frames_of(file)
    return None if is_cut else [body[6:] for body in bodies]


def journal_of_lines(lines):
    """The bytes of a journal whose receipts are those of these stamped lines."""
    return journal([spelling.receipt(json.loads(line)) for line in lines.splitlines()])


def journal_of_openings(count):
    """A journal that opens so many folios, and the report of it."""
    lines = [filing(number, opening(number)) for number in range(1, count + 1)]
    return journal([spelling.receipt(line) for line in lines]), report_of_openings(count)


def report_of_openings(count):
    """The report of a journal that opens the folios up to this one, in whatever order, and no more."""
    report = [f"receipt {number} entered" for number in range(1, count + 1)]
    for folio in range(1, count + 1):
        report += [f"folio {folio}", f"inventory district 1 parcel {folio}/0 area 500", "owners 10", f"ranks {folio}"]
    report.append(f"end receipts {count} folios {count}")
    return "".join(line + "\n" for line in report).encode()
