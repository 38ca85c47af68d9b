"""A stand-in for the kit: scripts that answer as its tools do for a small repository, in an instant.

They note in the file NOTES what they were asked, so that a check sees what the wrapper had done and when.
"""

import unproved_build

# A crate with a file `wrong` is refused, one with `stuck` does not end, and one with `long` takes a second.
# Of the crates `left` and `right` each ends only once the other begins, or after ten seconds. Like the kit's
# own it wants each crate that is listed to be there. What it proves leaves a library, or a program that tells its words and
# its input. `try` has the compiler make something small and then the program, which it runs where that went
# well: it copies its input, and says on standard error what the file SAYS has.
RT = """#!/bin/sh
kit=$(dirname "$(dirname "$0")")
name=$(basename "$PWD")
verb=$1
if [ "$verb" = version ]; then
    cat "$kit/KIT-ID"
    exit 0
fi
echo "begins $name" >>"$NOTES"
if [ -e src/stuck ]; then
    echo "$$" >src/stuck
    exec sleep 60
fi
[ ! -e src/long ] || sleep 1
if [ -e src/wrong ]; then
    echo "refused"
    exit 1
fi
if [ "$verb" = try ]; then
    "$kit/bin/rattle" check --start "no function"
    work=$(mktemp -d)
    cat >"$work/stdin"
    echo small >"$work/module.bc"
    "$kit/toolchain/bin/clang" -o "$work/module.o" "$work/module.bc" || exit 2
    head -c 200000 /dev/zero >"$work/module.bc"
    "$kit/toolchain/bin/clang" -o "$work/module.o" "$work/module.bc"
    compiled=$?
    [ $compiled != 0 ] || cat "$work/stdin"
    rm -r "$work"
    [ $compiled = 0 ] || exit 2
    cat "$SAYS" >&2
    exit "$(sed -n 's/^run=ended status=\\([0-9]*\\).*/\\1/p' "$SAYS" | grep . || echo 6)"
fi
turn=0
case "$name" in
left) other=right ;;
right) other=left ;;
*) other=$name ;;
esac
while ! grep -q "begins $other" "$NOTES" && [ $turn -lt 100 ]; do
    sleep 0.1
    turn=$((turn + 1))
done
for listed in $(sed -n 's/:.*//p' ../../crates.txt); do
    [ -d "../$listed/src" ] || exit 1
done
mkdir -p out/rlib
if [ "$verb" = run ]; then
    printf '#!/bin/sh\\necho "proved $*"\\ncat\\nexit 4\\n' >out/grundbuch
    chmod +x out/grundbuch
    ls ../left/out/rlib/left ../right/out/rlib/right ../low/out/rlib/low >/dev/null || exit 1
else
    echo proved >"out/rlib/$name"
fi
echo "ends $name" >>"$NOTES"
"""

# What it compiles says how. It refuses to optimise where the kit has a file `refuses`.
CLANG = """#!/bin/sh
kit=$(dirname "$(dirname "$(dirname "$0")")")
how=plain
while [ $# -gt 0 ]; do
    case "$1" in
    -o) object=$2 ;;
    -O3) how=optimised ;;
    esac
    shift
done
if [ $how = optimised ] && [ -e "$kit/refuses" ]; then
    echo "cannot optimise"
    exit 1
fi
echo "compiles $how" >>"$NOTES"
echo $how >"$object"
"""

# The program that it links tells its words and its input; `sample` tells how memory is asked for, and `serve`
# stays until it is ended. Only half of the program is written where the kit has a file `stuck`, and then it does
# not end, or a file `breaks`, and then it fails.
LINK = """#!/bin/sh
kit=$(dirname "$(dirname "$0")")
while [ $# -gt 0 ]; do
    case "$1" in
    -o) program=$2; shift ;;
    *.o) object=$1 ;;
    esac
    shift
done
echo "links $(cat "$object")" >>"$NOTES"
if [ -e "$kit/stuck" ] || [ -e "$kit/breaks" ]; then
    printf '#!/bin/sh\\necho "half"\\n' >"$program"
    chmod +x "$program"
    [ -e "$kit/stuck" ] || exit 1
    echo "$$" >"$kit/stuck"
    exec sleep 60
fi
printf '#!/bin/sh\\necho "unproved $*"\\n[ "$1" != sample ] || echo "$GLIBC_TUNABLES"\\n[ "$1" != serve ] || exec sleep 60\\ncat\\nexit 4\\n' >"$program"
chmod +x "$program"
"""

RATTLE = """#!/bin/sh
echo "checks names" >>"$NOTES"
"""


def script(file, text):
    file.parent.mkdir(parents=True, exist_ok=True)
    file.write_text(text)
    file.chmod(0o755)


def make(kit):
    """Makes the stand-in in a folder."""
    script(kit / "bin" / "rt", RT)
    script(kit / "bin" / "rattle", RATTLE)
    script(kit / "bin" / "rattle-link", LINK)
    script(kit / "toolchain" / "bin" / "clang", CLANG)
    (kit / "toolchain" / "lib").mkdir()
    is_of(kit, unproved_build.KNOWN_KIT)


def is_of(kit, version):
    """What `rt version` says of it."""
    (kit / "KIT-ID").write_text(version + "\n")
