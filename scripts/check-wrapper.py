#!/usr/bin/env python3
"""Runs the wrapper `grundbuch` in a small repository, over a stand-in for the kit.

    scripts/check-wrapper.py
    scripts/check-wrapper.py --real     the first command in a copy of this repository, with the kit: four minutes

Looked at are the commands that it prints; runs where nothing is built, with the program that is built
unproved for them; what becomes of builds that fail, are ended, or are made twice at once; proving: in which
order crates are proved and which of them beside one another, what is said of it, and when they are proved
again. Last, in this repository, that the program that the gate proved is the one that is run.
"""

import importlib.machinery
import importlib.util
import itertools
import os
import pathlib
import re
import shutil
import signal
import subprocess
import sys
import tempfile
import time

import checks
import ending
import proof_minutes
import stand_in_kit
import unproved_build
from small_repository import Room, told_by

PROVES = "./grundbuch --build proves and builds it\n"
FIRST = f"the program runs unproved, and is built for that first, once, in two to four minutes; {PROVES}".encode()
AGAIN = f"the program runs unproved; {PROVES}".encode()
WAITING = b"another run builds it; waiting\n"
LINES = ["settle", "--desks", "1", "--lines"]
TOLD = b"unproved settle --desks 1 --lines\n"
BUILT = ["begins grundbuch", "compiles plain", "compiles optimised", "links optimised"]

# How a run ends that a signal ends while it builds.
ENDS = ((signal.SIGTERM, 143), (signal.SIGHUP, 129), (signal.SIGINT, 130))

# Each command on the journal's file.
ON_FILE = (["take"], ["opening", "--sender", "9"], ["--desks", "1", "settle"], ["serve", "--desks", "1", "--requests", "9"])


def choice(command):
    """The line that tells what to choose from."""
    return f"`{command}` wants the proved program, which is not built, or is older than a file: {PROVES[:-1]}, ./grundbuch --unproved {command} .. does without\n".encode()


def check_help(look, room):
    status, output, errors = room.run("--help")
    look.same("--help", (status, errors), (0, b""))
    look.same("no words print the same, and are no command", room.run(), (2, output, b""))
    look.same("so does --unproved without a command", room.run("--unproved"), (2, output, b""))
    commands = ("settle --desks N --lines", "take", "opening --sender N", "settle --desks N", "serve --desks N --requests M", "sample --seed S --size Y --desks N", "--unproved COMMAND ..", "--build")
    for command in commands:
        look.same(f"--help has {command}", f"    ./grundbuch {command}\n".encode() in output, True)
    look.same("nothing is built by that", room.proved.parent.exists(), False)


def check_first_run(look, room):
    look.same("nothing is built", room.run(*LINES, given=b"some\0\xff\nlines"), (4, TOLD + b"some\0\xff\nlines", FIRST))
    look.same("the program is built once, optimised, and no names are checked", room.noted(), BUILT)
    look.same("a second run starts at once", (room.run(*LINES, given=b"more"), room.noted()), ((4, TOLD + b"more", AGAIN), []))
    look.same("its command last", room.run("--lines", "--desks", "1", "settle"), (4, b"unproved --lines --desks 1 settle\n", AGAIN))
    look.same("a sample, with large pages", room.run("sample", "--seed", "7"), (4, b"unproved sample --seed 7\nglibc.malloc.hugetlb=1\n", AGAIN))
    look.same("nothing is left elsewhere", checks.names_in(room.scratch), [])
    look.same("nor among the sources", [str(file) for file in room.folder.rglob("*.pyc")], [])


def check_words(look, room):
    """Words that are no command build nothing, as far as they are looked at."""
    for words in (["-h"], ["--version"], ["foo"], ["--build", "x"], ["--build", "take"], ["--unproved", "--build"], ["--unproved", "-h"]):
        look.same(f"{' '.join(words)} where nothing is built", (room.run(*words), room.noted()), ((2, b"", b"usage\n"), []))
    for words, command in ((["--help", "take"], "take"), (["settle", "settle"], "settle")):
        look.same(f"{' '.join(words)} where nothing is built", (room.run(*words), room.noted()), ((1, b"", choice(command)), []))
    look.same("nothing is built by that", room.proved.parent.exists(), False)


def check_streams(look, room):
    """Streams that are closed, full or not read."""
    for stream, redirected in (("closed", "2>&-"), ("full", "2>/dev/full")):
        look.same(f"nothing is built, with standard error {stream}", room.shell("take", redirected=redirected), (1, b"", b""))
        look.same(f"the first command, with standard error {stream}", room.shell(*LINES, redirected=redirected, given=b"line"), (4, TOLD + b"line", b""))
        look.same(f"the same again, with standard error {stream}", room.shell(*LINES, redirected=redirected, given=b"line"), (4, TOLD + b"line", b""))
        room.forget()
    look.same("--help with standard output full", room.shell("--help", redirected=">/dev/full"), (1, b"", b"standard output: No space left on device\n"))
    look.same("--help with standard output closed", room.shell("--help", redirected=">&-"), (1, b"", b"standard output: Bad file descriptor\n"))
    unread, end = os.pipe()
    os.close(unread)
    ran = room.start(room.folder / "grundbuch", "--help", stdout=end)
    os.close(end)
    look.same("--help that nobody reads", told_by(ran), (0, None, b""))


def check_missing(look, room):
    """Files and tools that are not there are named."""
    page = room.folder / "docs" / "PROVING.md"
    page.rename(page.with_suffix(".away"))
    look.same("no page of minutes", room.run("--build"), (1, b"", f"{page}: No such file or directory\n".encode()))
    page.with_suffix(".away").rename(page)
    ran = room.start(sys.executable, room.folder / "grundbuch", *LINES, path=str(room.scratch))
    look.same("no kit", told_by(ran), (1, b"", b"rt is not there; the kit's rt has to be on the path\n"))
    room.forget()
    out = room.proved.parent
    out.write_text("")
    for words, said in ((LINES, FIRST), (["--build"], b"")):
        look.same(f"no folder for what {words[0]} builds", room.run(*words), (1, b"", said + f"{out}: File exists\n".encode()))
    out.unlink()


def check_on_file(look, room):
    for words in ON_FILE:
        command = next(word for word in words if word in ("take", "opening", "settle", "serve"))
        look.same(f"{command} without --unproved", (room.run(*words, given=b"line"), room.noted()), ((1, b"", choice(command)), []))
    look.same("nothing is touched", (room.proved.parent.exists(), checks.names_in(room.scratch)), (False, []))
    look.same("take unproved", (room.run("--unproved", "take", given=b"line"), room.noted()), ((4, b"unproved take\nline", FIRST), BUILT))
    look.same("take unproved again", (room.run("--unproved", "take", given=b"line"), room.noted()), ((4, b"unproved take\nline", AGAIN), []))
    look.same("take without --unproved after that", room.run("take"), (1, b"", choice("take")))
    look.same("a sample with --unproved", room.run("--unproved", "sample", "--seed", "7")[1:], (b"unproved sample --seed 7\nglibc.malloc.hugetlb=1\n", AGAIN))
    look.same("--unproved after the command is the program's", room.run("settle", "--lines", "--unproved")[1], b"unproved settle --lines --unproved\n")


def check_signals(look, room):
    """That the program is what the caller started."""
    ran = room.begin("--unproved", "serve", "--desks", "1")
    look.same("serve unproved", ran.stdout.readline(), b"unproved serve --desks 1\n")
    ran.terminate()
    ran.communicate(timeout=checks.LIMIT)
    look.same("a signal reaches it", ran.returncode, -signal.SIGTERM)


def check_newer(look, room):
    os.utime(room.unproved, (1, 1))
    look.same("a file is newer", (room.run(*LINES), room.noted()), ((4, TOLD, FIRST), BUILT))
    os.utime(room.unproved, (1, 1))
    (room.source / "long").write_text("")
    room.notes.write_text("")
    ran = room.begin(*LINES)
    room.wait_for("begins grundbuch")
    os.utime(room.source / "lib.rt")
    look.same("a file that changes meanwhile", ran.communicate(b"", checks.LIMIT), (TOLD, FIRST))
    look.same("is newer too", (room.run(*LINES)[2], room.noted()), (FIRST, BUILT))
    (room.source / "long").unlink()
    (room.source / "more.rt").write_text("")
    look.same("a file more", (room.run(*LINES)[2], room.run(*LINES)[2]), (FIRST, AGAIN))
    (room.source / "more.rt").unlink()
    look.same("a file less", (room.run(*LINES), room.noted()), ((4, TOLD, FIRST), BUILT))


def check_two_at_once(look, room):
    (room.source / "long").write_text("")
    room.notes.write_text("")
    both = [room.begin(*LINES) for _ in range(2)]
    told = sorted(told_by(ran, b"line") for ran in both)
    look.same("two first runs at once", told, [(4, TOLD + b"line", FIRST), (4, TOLD + b"line", FIRST + WAITING)])
    look.same("build once", room.noted(), BUILT)
    (room.source / "long").unlink()


def check_two_builds(look, room):
    """Two runs that prove at once, and a first command meanwhile."""
    (room.source / "long").write_text("")
    room.notes.write_text("")
    first = room.begin("--build")
    room.wait_for("begins low")
    second = room.begin("--build")
    room.wait_for("begins grundbuch")
    look.same("a first command while the program is proved", told_by(room.begin(*LINES), b"line"), (4, TOLD + b"line", FIRST))
    look.same("the first of two --build", told_by(first)[:2], (0, b""))
    look.same("the second", told_by(second), (0, b"", WAITING))
    # The unproved build is the other one that begins with the program's crate.
    look.same("each crate is proved once", [room.noted().count(f"ends {crate}") for crate in ("low", "left", "right", "grundbuch")], [1] * 4)
    (room.source / "long").unlink()


def check_ended_build(look, room):
    """A run that proves and is ended by a signal."""
    stuck = room.source / "stuck"
    for number, status in ENDS:
        stuck.write_text("")
        ran = room.begin("--build")
        tool = stuck_in(stuck)
        ran.send_signal(number)
        look.same(f"a --build that signal {number} ends", told_by(ran)[:2], (status, b""))
        look.same("ends what it began", pathlib.Path("/proc", str(tool)).exists(), False)
        look.same("and leaves no program", (room.proved.exists(), room.rooms.exists(), checks.names_in(room.scratch)), (False, False, []))
    stuck.unlink()
    look.same("the next one proves", (room.run("--build")[0], room.proved.exists()), (0, True))


def stuck_in(file):
    """The process that wrote its number there and stays, once it did."""
    begun = time.monotonic()
    while not file.read_text() and time.monotonic() - begun < checks.LIMIT:
        time.sleep(0.01)
    return int(file.read_text())


def check_ended(look, room):
    """Builds that are ended by a signal."""
    for stuck, (number, status) in itertools.product((room.source / "stuck", room.kit / "stuck"), ENDS):
        stuck.write_text("")
        ran = room.begin(*LINES)
        tool = stuck_in(stuck)
        ran.send_signal(number)
        look.same(f"a build that signal {number} ends", told_by(ran), (status, b"", FIRST))
        look.same("ends what it began", pathlib.Path("/proc", str(tool)).exists(), False)
        look.same("and leaves nothing", (checks.names_in(room.scratch), checks.names_in(room.unproved.parent)), ([], []))
        stuck.unlink()
    look.same("the next run builds", (room.run(*LINES), room.noted()), ((4, TOLD, FIRST), BUILT))


def check_killed(look, room):
    """A build that is killed while half of the program is written."""
    stuck = room.kit / "stuck"
    stuck.write_text("")
    ran = room.begin(*LINES)
    tool = stuck_in(stuck)
    ran.kill()
    ran.communicate(timeout=checks.LIMIT)
    os.kill(tool, signal.SIGKILL)
    stuck.unlink()
    look.same("after a build that was killed the next run builds", (room.run(*LINES), room.noted()), ((4, TOLD, FIRST), BUILT))
    shutil.rmtree(room.scratch)
    room.scratch.mkdir()


def check_failing(look, room):
    log = room.logs / "unproved"
    failed = (1, b"", FIRST + f"the program is not built; see {log}\n".encode())
    (room.source / "wrong").write_text("")
    look.same("a source is refused", (room.run(*LINES, given=b"line"), log.read_text()), (failed, "refused\n"))
    (room.source / "wrong").unlink()
    (room.kit / "refuses").write_text("")
    look.same("the compiler gives up", (room.run("--unproved", "take"), log.read_text()), (failed, "cannot optimise\n"))
    (room.kit / "refuses").unlink()
    (room.kit / "breaks").write_text("")
    look.same("linking fails", room.run(*LINES), failed)
    (room.kit / "breaks").unlink()
    look.same("no program is left", (checks.names_in(room.unproved.parent), checks.names_in(room.scratch)), ([], []))


def check_bench(look, room):
    """bench/unproved.py, which builds the same for measuring."""
    bench = room.start(checks.ROOT / "bench" / "unproved.py", "measured")
    look.same("bench/unproved.py", (bench.communicate(timeout=checks.LIMIT), bench.returncode), ((b"", b""), 0))
    look.same("builds the same", (room.scratch / "measured").read_bytes(), room.unproved.read_bytes())
    stand_in_kit.is_of(room.kit, "another kit")
    bench = room.start(checks.ROOT / "bench" / "unproved.py", "other")
    output, errors = bench.communicate(timeout=checks.LIMIT)
    look.same("bench/unproved.py in another kit", (bench.returncode, output, errors.count(b"\n"), errors[:23]), (1, b"", 1, b"the kit is another kit,"))
    stand_in_kit.is_of(room.kit, unproved_build.KNOWN_KIT)
    (room.scratch / "measured").unlink()
    look.same("it leaves nothing else", checks.names_in(room.scratch), [])


def check_other_kit(look, room):
    stand_in_kit.is_of(room.kit, "another kit")
    line = f"the kit is another kit, and only {unproved_build.KNOWN_KIT} is known to build an optimised program unproved"
    said = f"{line}, so `rt try` runs it; {PROVES}".encode()
    room.says.write_text("checked: ended status=0\nrun=ended status=0 runners=1 proved=no\n")
    look.same("another kit runs it", room.run(*LINES, given=b"some\0\xff\nlines"), (0, b"some\0\xff\nlines", said))
    room.says.write_text("usage\nchecked: ended status=2\nrun=ended status=2 runners=1 proved=no\n")
    look.same("wrong words in another kit", room.run("settle", "--lines"), (2, b"", said + b"usage\n"))
    look.same("the same with standard error closed", room.shell("settle", "--lines", redirected="2>&-"), (2, b"", b""))
    room.says.write_text("checked: no-answer: it wrote too much\nrun=none proved=no\n")
    status, _, errors = room.run(*LINES)
    look.same("no answer in another kit", (status, errors.endswith(b"the unproved run gave no answer\n")), (1, True))
    room.says.write_text("checked: ended status=0\nrun=ended status=0 runners=1 proved=no\n")
    look.same("64 MiB in another kit", room.run(*LINES, given=bytes(64 << 20))[::2], (0, said))
    look.same("a byte more", room.run(*LINES, given=bytes((64 << 20) + 1)), (1, b"", said + b"so long an input wants the proved program\n"))
    look.same("another kit, and a journal", (room.run("--unproved", "take"), room.noted()), ((1, b"", f"{line}; {PROVES}".encode()), []))
    look.same("nothing is built by that", room.unproved.exists(), False)
    stand_in_kit.is_of(room.kit, unproved_build.KNOWN_KIT)


def check_building(look, room):
    status, output, errors = room.run("--build")
    noted, said = room.noted(), errors.decode().split("\n")
    look.same("--build", (status, output), (0, b""))
    look.same("the lowest crate is proved first", noted[:2], ["begins low", "ends low"])
    look.same("the program is built last", noted[-2:], ["begins grundbuch", "ends grundbuch"])
    beside = ["begins left", "begins right"] if len(os.sched_getaffinity(0)) > 1 else []
    look.same("two crates are proved beside one another", sorted(noted[2:4]) if beside else [], beside)
    look.same("no other crate is proved", "begins other" in noted, False)
    look.same("it says what it does", re.sub(r"up to \d beside one another, in about \d", "..", said[0]), "proving 4 crates, .. minutes")
    shape = r"(\w+) is proved: (\d) of 4 crates after 0 minutes, about (\d) left"
    told = [re.fullmatch(shape, line).groups() for line in said[1:-1] if re.fullmatch(shape, line)]
    look.same("it says how many are proved", [(name, count) for name, count, _ in told if name not in ("left", "right")], [("low", "1"), ("grundbuch", "4")])
    look.same("it says how many minutes are left", ([left for *_, left in told] == sorted((left for *_, left in told), reverse=True), told[-1][2]), (True, "0"))
    for words in (LINES, *ON_FILE, ["--unproved", "take"]):
        given = words if words[0] != "--unproved" else words[1:]
        look.same(f"{' '.join(words)} runs the proved program", (room.run(*words, given=b"line"), room.noted()), ((4, f"proved {' '.join(given)}\nline".encode(), b""), []))
    look.same("words that are no command are the program's then", room.run("-h"), (4, b"proved -h\n", b""))
    look.same("a second --build does nothing", (room.run("--build"), room.noted()), ((0, b"", b""), []))


def check_building_again(look, room):
    os.utime(room.proved, (1, 1))
    look.same("a proved program that is older is not run", (room.run("take"), room.run(*LINES)), ((1, b"", choice("take")), (4, TOLD, FIRST)))
    source = room.folder / "crates" / "left" / "src"
    look.same("a newer file is proved again", (room.run("--build")[0], "begins left" in room.noted()), (0, True))
    (source / "wrong").write_text("")
    os.utime(room.proved, (1, 1))
    status, output, errors = room.run("--build")
    log = f"left is not proved or not built; see {room.logs}/left\n"
    look.same("a crate that is refused is named", (status, output, errors.decode().endswith(log)), (1, b"", True))
    look.same("its log has what was said", (room.logs / "left").read_text(), "refused\n")
    look.same("no program is left", room.proved.exists(), False)
    look.same("no room is left", room.rooms.exists(), False)


def check_minutes(look):
    """What is said to be left of a build."""
    uses = {"low": set(), "left": {"low"}, "right": {"low"}, "top": {"left", "right"}}
    minutes = {"low": 4.0, "left": 2.0, "right": 3.0, "top": 1.0}
    look.same("the longest row of proofs goes first", proof_minutes.by_urgency(uses, minutes), ["low", "right", "left", "top"])
    look.same("one processor", proof_minutes.ends(uses, minutes, 1, 1), {"low": 4, "right": 7, "left": 9, "top": 10})
    look.same("one proof at a time gains from a second", round(proof_minutes.ends(uses, minutes, 1, 2)["top"], 6), round(10 / 1.5, 6))
    look.same("two proofs", proof_minutes.ends(uses, minutes, 2, 1), {"low": 4, "left": 6, "right": 7, "top": 8})
    progress = proof_minutes.Progress(uses, 1, 1)
    progress.minutes = dict(minutes)
    look.same("ahead of the first proof it is what the page says", progress.left(0), 10)
    progress.note("low", 8)
    look.same("a machine that takes twice as long", progress.told(8), "1 of 4 crates after 8 minutes, about 12 left")
    progress.note("right", 0.01)
    look.same("a proof that was kept says nothing of the machine", progress.left(8), 6)


def check_patience(look):
    """A tool that passes over the signal that ends others."""
    ending.PATIENCE = 0.2
    tool = subprocess.Popen(["sh", "-c", "trap '' TERM; echo; exec sleep 60"], stdout=subprocess.PIPE)
    tool.stdout.read(1)
    ending.end(tool)
    tool.stdout.close()
    look.same("a tool that does not end when it is told to", tool.returncode, -signal.SIGKILL)


def real_wrapper():
    """The wrapper of this repository, as a module."""
    loader = importlib.machinery.SourceFileLoader("wrapper", str(checks.WRAPPER))
    made = importlib.util.module_from_spec(importlib.util.spec_from_loader("wrapper", loader))
    loader.exec_module(made)
    return made


def example():
    """The lines of the README's example, and what they print."""
    return tuple((checks.ROOT / "examples" / f"two-lines.{ending}").read_bytes() for ending in ("jsonl", "txt"))


def call(wrapper, words, given, folder):
    """The status, the output and the errors of the wrapper with the kit."""
    ran = subprocess.run([wrapper, *words], input=given, capture_output=True, cwd=folder)
    return ran.returncode, ran.stdout, ran.stderr


def check_here(look):
    """This repository's own crates, and its program where it is built."""
    wrapper = real_wrapper()
    uses = wrapper.crates_used()
    look.same("crates whose minutes docs/PROVING.md does not have", sorted(uses.keys() - proof_minutes.told_minutes().keys()), [])
    if not wrapper.is_built(checks.PROGRAM, uses):
        return look.skip("the proved program", "it is not built")
    lines, report = example()
    with tempfile.TemporaryDirectory() as folder:
        look.same("the proved program is run", call(checks.WRAPPER, LINES, lines, folder), (0, report, b""))
        look.same("and settles a journal's file", call(checks.WRAPPER, ["settle", "--desks", "1"], b"", folder), (0, b"end receipts 0 folios 0\n", b""))


def copied(folder):
    """A copy of this repository with nothing built."""
    skips = shutil.ignore_patterns("out", ".git", "__pycache__")
    return shutil.copytree(checks.ROOT, folder / "copy", ignore=skips)


def check_copy(look, copy):
    """What a clean clone says of a journal, with the kit at hand."""
    look.same("take where nothing is built", call(copy / "grundbuch", ["take"], b"", copy), (1, b"", choice("take")))
    look.same("it touches nothing", ((copy / checks.JOURNAL).exists(), (copy / "crates" / "grundbuch" / "out").exists()), (False, False))


def check_real(look, copy):
    """The first command's two forms with the kit."""
    lines, report = example()
    begun = time.monotonic()
    look.same("the first command", call(copy / "grundbuch", LINES, lines, copy), (0, report, FIRST))
    print(f"it took {time.monotonic() - begun:.0f} seconds", flush=True)
    begun = time.monotonic()
    look.same("the same again", call(copy / "grundbuch", LINES, lines, copy), (0, report, AGAIN))
    look.at_most("its seconds", round(time.monotonic() - begun, 1), 2)
    plain = checks.plain(1).encode() + b"\n"
    look.same("take unproved", call(copy / "grundbuch", ["--unproved", "take"], plain, copy), (0, b"accepted 1\n", AGAIN))
    _, report = checks.journal_of_openings(1)
    look.same("settle unproved", call(copy / "grundbuch", ["--unproved", "settle", "--desks", "1"], b"", copy), (0, report, AGAIN))


def main():
    if sys.argv[1:] not in ([], ["--real"]):
        sys.exit(__doc__)
    look = checks.Checks()
    with tempfile.TemporaryDirectory() as name:
        folder = pathlib.Path(name).resolve()
        copy = copied(folder)
        check_copy(look, copy)
        if sys.argv[1:] == ["--real"]:
            check_real(look, copy)
            look.end()
        room = Room(folder)
        # Each begins with nothing built, or goes on where the one before it ended.
        for row in ([check_help, check_words, check_first_run, check_bench], [check_streams], [check_missing], [check_on_file, check_signals, check_newer], [check_two_at_once], [check_two_builds], [check_ended], [check_ended_build],
                    [check_killed],
                    [check_failing], [check_other_kit], [check_building, check_building_again]):
            for check in row:
                check(look, room)
            room.forget()
    check_minutes(look)
    check_patience(look)
    check_here(look)
    look.end()


if __name__ == "__main__":
    main()
