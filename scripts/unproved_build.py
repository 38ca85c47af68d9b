"""Builds the program optimised and unproved: for a first run, and to measure a change before it is proved.

`rt try` runs a program with checks of addresses, for a minute at most. But what it hands to the compiler is
the program's module. So it is run with a copy of the kit whose compiler keeps the module and gives up, and
the module is compiled and linked as the kit does it with a proved program.
"""

import contextlib
import errno
import os
import pathlib
import shutil
import subprocess
import tempfile
import time

import ending

# What follows is how this kit works, so no other is asked.
KNOWN_KIT = "rattle-kit-13f logic dac8208d650f15bf"
TARGET = "x86_64-unknown-linux-gnu"

# `rt try` compiles a module of a few bytes first; the program's has 28 MB.
KEEPER = """#!/bin/sh
PATH=/usr/local/bin:/usr/bin:/bin
for word in "$@"; do
    case "$word" in
    *.bc) if [ "$(wc -c <"$word")" -gt 100000 ]; then cp "$word" "{kept}"; exit 1; fi ;;
    esac
done
exec "{real}" "$@"
"""

# Beside its run `rt try` starts a check for a hint of names alone, which would take a second processor.
HINTLESS = """#!/bin/sh
for word in "$@"; do
    case "$word" in "no function") exit 1 ;; esac
done
exec "{real}" "$@"
"""

# The words with which the kit compiles a proved program: `ps` shows them while it does.
COMPILE = """-march=x86-64 -mllvm -no-trap-after-noreturn -ffunction-sections -fdata-sections
-mllvm -trap-unreachable -mllvm -no-x86-call-frame-opt -mllvm -disable-machine-licm
-mllvm -disable-postra-machine-licm -mllvm -sink-common-insts=false --no-default-config
-no-canonical-prefixes -fintegrated-cc1 -fno-crash-diagnostics -Werror -c -fPIE -O3
-Xclang -fmerge-functions -mllvm -mergefunc-use-aliases""".split()


class UnknownKit(Exception):
    """The kit at hand is not the one whose ways are known."""


class NotBuilt(Exception):
    """A tool refused its work, and told the log why."""


def known_kit():
    """The folder of the kit whose `rt` is on the path."""
    rt = shutil.which("rt")
    if rt is None:
        raise FileNotFoundError(errno.ENOENT, os.strerror(errno.ENOENT), "rt")
    version = subprocess.run([rt, "version"], stdin=subprocess.DEVNULL, capture_output=True, text=True).stdout.strip()
    if version != KNOWN_KIT:
        raise UnknownKit(f"the kit is {version or 'unknown'}, and only {KNOWN_KIT} is known to build an optimised program unproved")
    return pathlib.Path(os.path.realpath(rt)).parent.parent


def stands_for(tool, text, **names):
    """Puts a script in the place of a tool."""
    tool.write_text(text.format(**names))
    tool.chmod(0o755)


def copy_that_keeps(kit, copy, kept):
    """A copy of the kit, by links, whose compiler keeps the program's module; its `rt`."""
    (copy / "bin").mkdir(parents=True)
    (copy / "toolchain" / "bin").mkdir(parents=True)
    for part in kit.iterdir():
        if part.name not in ("bin", "toolchain"):
            (copy / part.name).symlink_to(part)
    for tool in (kit / "bin").iterdir():
        if tool.name == "rattle":
            stands_for(copy / "bin" / tool.name, HINTLESS, real=tool)
        elif tool.name.startswith("rattle-"):
            (copy / "bin" / tool.name).symlink_to(tool)
        elif tool.is_file():
            # They find the kit by where they stand.
            shutil.copy(tool, copy / "bin" / tool.name)
    (copy / "toolchain" / "lib").symlink_to(kit / "toolchain" / "lib")
    for tool in (kit / "toolchain" / "bin").iterdir():
        if tool.name == "clang":
            stands_for(copy / "toolchain" / "bin" / tool.name, KEEPER, real=tool, kept=kept)
        else:
            (copy / "toolchain" / "bin" / tool.name).symlink_to(tool)
    return copy / "bin" / "rt"


def run(log, words, folder=None):
    """The status of a tool, which is ended where this program is told to end."""
    tool = subprocess.Popen(words, cwd=folder, stdin=subprocess.DEVNULL, stdout=log, stderr=log)
    try:
        return tool.wait()
    finally:
        ending.end(tool)


def build(kit, crate, program, log):
    """Builds the program of the crate in this folder, and puts it in its place once it is whole. The tools
    tell the log what they do. The program is as old as the beginning, so a file that changes meanwhile is newer."""
    begun, new = time.time(), program.with_name(program.name + ".new")
    try:
        with tempfile.TemporaryDirectory(prefix="unproved-") as name:
            compile_and_link(kit, crate, new, log, pathlib.Path(name))
        os.utime(new, (begun, begun))
        os.replace(new, program)
    finally:
        with contextlib.suppress(FileNotFoundError):
            new.unlink()


def compile_and_link(kit, crate, program, log, folder):
    """Makes the program, with all else that is made for it in this folder."""
    toolchain, module, compiled = kit / "toolchain", folder / "module.bc", folder / "module.o"
    rt = copy_that_keeps(kit, folder / "kit", module)
    # It fails, since its compiler gives up.
    run(log, [rt, "try", "--", "settle", "--desks", "1", "--lines"], crate)
    if not module.exists():
        raise NotBuilt
    compiling = [toolchain / "bin" / "clang", f"--target={TARGET}", f"--sysroot={toolchain}", *COMPILE, "-x", "ir", module, "-o", compiled]
    linking = [kit / "bin" / "rattle-link", "--target", TARGET, "--toolchain", toolchain, "-o", program, compiled,
               *(kit / "c" / library for library in ("libos_c.a", "liblibc_c.a"))]
    if run(log, compiling) != 0 or run(log, linking) != 0:
        raise NotBuilt
