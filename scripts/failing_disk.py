"""The built program over a journal's file of which calls fail (fail_disk.c), and what is wrong after it.

Just where a call failed `take` ends with status 5, and `serve` answers 503 to that request and goes on; after a
failed sync it answers so to all, as after a look at the file that fails after a record. What was acknowledged is in the
file then, and a program without failures receives the same lines again and ends with each of them once.
"""

import contextlib
import http.client
import os
import pathlib
import signal
import tempfile

import asking
import checks
import kept_lines

SOURCE = pathlib.Path(__file__).resolve().parent / "fail_disk.c"
DISK_FAULT = (5, b"disk fault\n")
KILLED = (-signal.SIGKILL, b"")

# A look at the file. One that fails after a record counts as a failed sync, one before it does not.
LOOK = "statx"

# What a connection may end with where the program is gone.
GONE = (OSError, http.client.HTTPException)

# How often a line is posted whose request found a failure.
TRIES = 3


class Point:
    """From which call on calls of the file fail, how many and how; the file that stands there before, how many of the
    lines it has, and how many lines come then."""

    def __init__(self, how, file, stood, lines):
        self.how, self.file, self.stood = how, file, stood
        self.references = range(1, stood + lines + 1)

    def __str__(self):
        return f"{' '.join(f'{name}={value}' for name, value in self.how.items())} over {len(self.file)} bytes, lines 1 to {self.references[-1]}"


class Disk:
    """The library that has calls fail, and what it noted of them."""

    def __init__(self, folder):
        self.library, self.log = checks.library_of(SOURCE, folder), pathlib.Path(folder) / "calls"

    def failing_at(self, point):
        """The environment of a program whose calls fail at this point."""
        self.log.write_text("")
        how = {name: str(value) for name, value in point.how.items()}
        return {**os.environ, "LD_PRELOAD": self.library, "FAIL_LOG": str(self.log), **how}

    def noted(self):
        """The calls that failed, were cut short or ended the program, in order."""
        return [call for call in self.log.read_text().splitlines() if " " in call]

    def is_killed(self):
        return any(call.endswith(" killed") for call in self.noted())

    def ends(self):
        """How a run ends that cannot go on after a failed call."""
        return KILLED if self.is_killed() else DISK_FAULT if self.failures() else (0, b"")

    def failures(self):
        return [call.split()[0] for call in self.noted() if call.endswith(" failed")]


def repeated(folder, kept, references):
    """What is wrong once a `take` without failures was sent the same lines."""
    status, output, errors = checks.run(["take"], folder, input=kept_lines.texts_of(references))
    told = kept_lines.told_by(output, references)
    if (status, errors, len(told)) != (0, b"", len(references)):
        return f"the same lines again: {status} {errors} and {len(told)} replies to {len(references)}"
    return kept.wrong_after(told, references, 0)


def taken(disk, point, folder, kept):
    """What is wrong after a `take` whose calls fail at a point."""
    lines = kept_lines.texts_of(point.references)
    status, output, errors = checks.run(["take"], folder, input=lines, env=disk.failing_at(point))
    told = kept_lines.told_by(output, point.references)
    if (status, errors) != disk.ends():
        return f"status {status} {errors} where {disk.noted()}"
    if status == 0 and len(told) < len(point.references):
        return f"{len(told)} replies where no call failed"
    return kept.wrong_after(told, point.references, 1) or repeated(folder, kept, point.references)


class Posting:
    """Requests one after another to a program whose calls may fail."""

    def __init__(self, disk, client, stood):
        self.disk, self.client, self.stood, self.told, self.wrong = disk, client, stood, {}, []

    def answered(self, what, ask):
        """The answer of a request; it is wrong where it is 503 and no call failed in it, or the other way round."""
        before = len(self.disk.failures())
        status, said = ask()
        failures = self.disk.failures()
        fails = len(failures) > before or "fsync" in failures
        if (status != 503) if fails else (status == 503 and LOOK not in failures):
            self.wrong.append(f"{what} is answered {status} where {failures[before:]} failed")
        return status, said

    def post(self, reference):
        """Posts a line until it is received; then asks for its verdict."""
        for tried in range(TRIES):
            status, (word, number) = self.answered(f"line {reference}", lambda: kept_lines.posted(self.client, reference))
            if status in (200, 201):
                # What a request received that was answered 503 is repeated when it comes again.
                self.told[reference] = ("accepted" if tried and reference > self.stood else word, number)
                return self.verdict(number)

    def verdict(self, number):
        status, said = self.answered(f"GET of receipt {number}", lambda: self.got(number))
        if status != 503 and (status, said) != (200, b"receipt %d entered\n" % number):
            self.wrong.append(f"receipt {number} is {status} {said}")

    def got(self, number):
        self.client.request("GET", f"/receipts/{number}")
        answer = self.client.getresponse()
        return answer.status, answer.read()


@contextlib.contextmanager
def client_of():
    """A connection for requests one after another."""
    client = http.client.HTTPConnection(asking.HOST, asking.PORT, timeout=checks.LIMIT)
    with contextlib.closing(client):
        yield client


def posted_at(disk, point, folder, kept):
    """What is wrong after a `serve` whose calls fail at a point."""
    with asking.serving(folder, env=disk.failing_at(point)) as child:
        if not asking.opens_port(child):
            ended = child.returncode, child.stderr.read()
            return "" if disk.noted() and ended == disk.ends() else f"it ends with {ended} where {disk.noted()}"
        if disk.failures():
            return f"it serves where {disk.failures()} failed"
        with client_of() as client:
            posting = Posting(disk, client, point.stood)
            try:
                for reference in point.references:
                    posting.post(reference)
            except GONE:
                if not disk.is_killed():
                    raise
        if not disk.is_killed() and child.poll() is not None:
            return f"it ends with {child.returncode} where {disk.noted()}"
    return "; ".join(posting.wrong) or kept.wrong_after(posting.told, point.references, 1)


def posted_again(folder, kept, references):
    """What is wrong once a `serve` without failures was sent the same lines."""
    with asking.serving(folder) as child:
        if not asking.opens_port(child):
            return f"started again it ends with {child.returncode}"
        with client_of() as client:
            told = {reference: kept_lines.posted(client, reference)[1] for reference in references}
    return kept.wrong_after(told, references, 0)


def served(disk, point, folder, kept):
    return posted_at(disk, point, folder, kept) or posted_again(folder, kept, point.references)


def checked_at(disk, point, over):
    """What is wrong at a point, over a file of its own."""
    with tempfile.TemporaryDirectory(dir=checks.QUICK) as folder:
        with open(os.path.join(folder, checks.JOURNAL), "wb") as file:
            file.write(point.file)
        kept = kept_lines.Kept(folder)
        kept.read(point.references)
        try:
            return over(disk, point, folder, kept)
        except GONE as error:
            return f"the connection fails: {error!r}"


