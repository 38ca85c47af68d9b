#!/usr/bin/env python3
"""Runs the built program over journals' files: whole, foreign, bad, refused by the system, and held by another program.

The calls on the file are those that the system sees, by strace: its name, that it is locked and
under no descriptor of a standard stream, and that it and its folder are synced before a report.
"""

import fcntl
import os
import re
import subprocess
import tempfile
import time

import checks

SETTLE = ["settle", "--desks", "1"]
EMPTY_REPORT = b"end receipts 0 folios 0\n"
REFUSED = (5, b"", b"disk fault\n")


def over(content, tracer=()):
    """A run in a folder with this journal, none where it is None; and what the folder then has."""
    with tempfile.TemporaryDirectory() as folder:
        if content is not None:
            with open(os.path.join(folder, checks.JOURNAL), "wb") as file:
                file.write(content)
        before = [word.replace("FOLDER", os.path.realpath(folder)) for word in tracer]
        ran = checks.run(SETTLE, folder, before=before)
        return ran, files_of(folder)


def files_of(folder):
    found = {}
    for name in os.listdir(folder):
        with open(os.path.join(folder, name), "rb") as file:
            found[name] = file.read()
    return found


def check_standings(look):
    """What a file stands for decides the status, the line on standard error and what is written."""
    three, report = checks.journal_of_openings(3)
    made = checks.journal([])
    bad_at = len(three) - 1
    for what, content, ends, after in [
        ("no file", None, (0, EMPTY_REPORT, b""), made),
        ("an empty file", b"", (0, EMPTY_REPORT, b""), made),
        ("a journal without records", made, (0, EMPTY_REPORT, b""), made),
        ("a journal of three", three, (0, report, b""), three),
        ("a journal and bytes behind it", three + b"rest", (0, report, b""), three + b"rest"),
        ("another program's file", b"%PDF-1.7 and so on\n", (7, b"", b"not a journal\n"), b"%PDF-1.7 and so on\n"),
        ("a bad first record", made[:9] + b"\x01\0\0\0\0\0", (8, b"", b"bad record at 9\n"), None),
        ("a bad fourth record", three[:-1] + b"\x01\0\0\0\x01x\0", (8, b"", b"bad record at %d\n" % bad_at), None),
    ]:
        ran, files = over(content)
        look.same(f"settle over {what}", ran, ends)
        look.same(f"settle over {what}: the folder", files, {checks.JOURNAL: content if after is None else after})


def check_refusals(look):
    """A file that the system refuses."""
    with tempfile.TemporaryDirectory() as folder:
        os.mkdir(os.path.join(folder, checks.JOURNAL))
        look.same("settle over a folder of the journal's name", checks.run(SETTLE, folder), REFUSED)
    if os.path.exists("/dev/full"):
        with tempfile.TemporaryDirectory() as folder:
            os.symlink("/dev/full", os.path.join(folder, checks.JOURNAL))
            look.same("settle over a device that takes no byte", checks.run(SETTLE, folder), REFUSED)
    if not checks.has_strace():
        look.skip("settle where the system fails", "there is no strace that works here")
        return
    three, report = checks.journal_of_openings(3)
    for call, error, on, ends in [
        ("fsync", "EIO", checks.JOURNAL, REFUSED),
        ("fsync", "EIO", ".", REFUSED),
        ("fsync", "EINTR", checks.JOURNAL, (0, report, b"")),
        ("pread64", "EIO", checks.JOURNAL, REFUSED),
        ("pread64", "EINTR", checks.JOURNAL, (0, report, b"")),
        ("flock", "ENOLCK", checks.JOURNAL, REFUSED),
        ("fcntl", "EMFILE", checks.JOURNAL, REFUSED),
    ]:
        what = f"settle where {call} of {'the folder' if on == '.' else 'the file'} answers {error}"
        tracer = ["strace", "-o", os.devnull, "-P", os.path.normpath(f"FOLDER/{on}")]
        tracer += ["-e", f"trace={call}", "-e", f"inject={call}:error={error}:when=1"]
        ran, files = over(three, tracer)
        look.same(what, ran, ends)
        look.same(f"{what}: the folder", files, {checks.JOURNAL: three})
    tracer = ["strace", "-o", os.devnull, "-P", f"FOLDER/{checks.JOURNAL}", "-e", "trace=pread64", "-e", "inject=pread64:retval=0:when=1"]
    look.same("settle where a read gives no byte", over(three, tracer), (REFUSED, {checks.JOURNAL: three}))


def check_receiving(look):
    """Each write and each sync of a receipt fails in turn; what was acknowledged stands, and the lines come again."""
    if not checks.has_strace():
        look.skip("take where the system fails", "there is no strace that works here")
        return
    lines = "".join(checks.plain(number) + "\n" for number in (1, 2)).encode()
    # After an opening each receipt is two writes, with a sync after each. The opening has a sync of the file too.
    for call, error, before in (("pwrite64", "ENOSPC", 0), ("fsync", "EIO", 1)):
        for number in (1, 2, 3, 4):
            with tempfile.TemporaryDirectory() as folder:
                path = os.path.join(os.path.realpath(folder), checks.JOURNAL)
                with open(path, "wb") as file:
                    file.write(checks.journal([]))
                tracer = ["strace", "-o", os.devnull, "-P", path, "-e", f"trace={call}"]
                tracer += ["-e", f"inject={call}:error={error}:when={before + number}"]
                told = b"accepted 1\n" if number > 2 else b""
                ran = checks.run(["take"], folder, before=tracer, input=lines)
                what = f"take where {call} {number} of its receipts answers {error}"
                look.same(what, ran, (5, told, b"disk fault\n"))
                status, said, _ = checks.run(["take"], folder, input=lines)
                replies = [reply.split() for reply in said.decode().splitlines()]
                look.same(f"{what}: the numbers of both, taken again", (status, [number for _, number in replies]), (0, ["1", "2"]))
                look.same(f"{what}: what was acknowledged", all(reply == "repeated" for reply, _ in replies[: told.count(b"\n")]), True)


def check_held(look):
    """A file that another program has is a fault at once, and stays as it is."""
    many, report = checks.journal_of_openings(2000)
    with tempfile.TemporaryDirectory() as folder:
        path = os.path.join(folder, checks.JOURNAL)
        with open(path, "wb+") as file:
            file.write(many)
            file.flush()
            fcntl.flock(file, fcntl.LOCK_EX)
            start = time.monotonic()
            look.same("settle over a file that is locked", checks.run(SETTLE, folder), REFUSED)
            look.same("settle over a file that is locked does not wait", time.monotonic() - start < 10, True)
        # The report is longer than a pipe holds, so the first program has the file until it is read.
        first = subprocess.Popen([checks.PROGRAM, *SETTLE], cwd=folder, stdout=subprocess.PIPE)
        begin = first.stdout.read(1)
        look.same("a second settle of one file", checks.run(SETTLE, folder), REFUSED)
        rest = first.stdout.read()
        look.same("the first settle of one file", (first.wait(checks.LIMIT), begin + rest), (0, report))
        look.same("settle once the file is free", checks.run(SETTLE, folder), (0, report, b""))
        look.same("one file for two: the folder", files_of(folder), {checks.JOURNAL: many})


def calls_of(content, *injected):
    """The calls on files of a run over this journal, as strace prints them, from the journal's opening on."""
    with tempfile.TemporaryDirectory() as folder:
        log = os.path.join(folder, "calls")
        with open(os.path.join(folder, checks.JOURNAL), "wb") as file:
            file.write(content)
        tracer = ["strace", "-o", log, "-y", "-e", "trace=openat,open,fcntl,flock,fsync,pread64,pwrite64,write,close", *injected]
        checks.run(SETTLE, folder, before=tracer)
        with open(log, encoding="utf-8", errors="replace") as file:
            text = file.read().replace(os.path.realpath(folder), "FOLDER")
    return text[max(text.find(f'"{checks.JOURNAL}"'), 0):]


def check_calls(look):
    if not checks.has_strace():
        look.skip("the calls on the journal's file", "there is no strace that works here")
        return
    three, _ = checks.journal_of_openings(3)
    calls = calls_of(three)
    file, folder = f"<FOLDER/{checks.JOURNAL}>", "<FOLDER>"
    for what, pattern in [
        ("the file is opened by its name", rf'^"{checks.JOURNAL}", O_RDWR\|O_CREAT\b'),
        ("the file is locked without waiting before it is read", rf"flock\(\d+{file}, LOCK_EX\|LOCK_NB\)[^?]*pread64\(\d+{file}"),
        ("the file is synced before it is read", rf"fsync\(\d+{file}\) += 0[^?]*pread64\(\d+{file}"),
        ("the folder is synced before the report", rf"fsync\(\d+{folder}\) += 0[^?]*write\(1"),
    ]:
        look.same(what, bool(re.search(pattern, calls)), True)
    used = re.findall(rf"(?:flock|fsync|pread64|pwrite64)\((\d+)<FOLDER", calls)
    look.same("no file has a stream's descriptor", [number for number in used if int(number) < 3], [])
    for call, error in (("fcntl", "EMFILE"), ("flock", "EAGAIN")):
        refused = calls_of(three, "-e", f"inject={call}:error={error}:when=1")
        used = re.findall(r"^(\w+)\(\d+<FOLDER/[^\n]*$", refused, re.M)
        look.same(f"the file is let go where {call} answers {error}", used[-1], "close")
        look.same(f"the file is not used where {call} answers {error}", sorted({"fsync", "pread64", "pwrite64"} & set(used)), [])
    made = calls_of(b"")
    order = re.findall(rf"(fsync|pwrite64)\(\d+<([^>]*)>", made)
    wanted = ["fsync file", "fsync folder"] + ["pwrite64 file", "fsync file"] * 3
    got = [f"{call} {'file' if path.endswith(checks.JOURNAL) else 'folder'}" for call, path in order]
    look.same("an empty file is made by three writes, each synced", got, wanted)


def main():
    checks.build()
    look = checks.Checks()
    check_standings(look)
    check_refusals(look)
    check_receiving(look)
    check_held(look)
    check_calls(look)
    look.end()


if __name__ == "__main__":
    main()
