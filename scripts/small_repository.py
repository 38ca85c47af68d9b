"""A small repository with the wrapper `grundbuch`, over the stand-in for the kit."""

import os
import shutil
import subprocess
import time

import checks
import stand_in_kit

CRATES = """# layers
low: std
left: low
right: low
grundbuch: left right
other: low
"""

MINUTES = """
| crate | its proof | its tests |
|---|---|---|
| `low` | 4.0 | `other` 5.0 |
| `left`, `right` | 2.0 each | |
| `grundbuch` | 1.0 | 1.5 |
"""


def told_by(ran, given=b""):
    """The status, the output and the errors of what was started."""
    output, errors = ran.communicate(given, checks.LIMIT)
    return ran.returncode, output, errors


class Room:
    """A repository of five small crates, with the wrapper and the stand-in."""

    def __init__(self, folder):
        self.folder, self.notes, self.says, self.scratch = folder, folder / "notes", folder / "says", folder / "scratch"
        self.kit, self.source = folder / "kit", folder / "crates" / "grundbuch" / "src"
        out = folder / "crates" / "grundbuch" / "out"
        self.proved, self.unproved, self.logs, self.rooms = out / "grundbuch", out / "unproved" / "grundbuch", out / "logs", out / "rooms"
        shutil.copy(checks.WRAPPER, folder / "grundbuch")
        (folder / "scripts").mkdir()
        for name in ("crates.py", "ending.py", "proof_minutes.py", "rooms.py", "unproved_build.py"):
            shutil.copy(checks.ROOT / "scripts" / name, folder / "scripts" / name)
        (folder / "docs").mkdir()
        (folder / "docs" / "PROVING.md").write_text(MINUTES)
        (folder / "crates.txt").write_text(CRATES)
        for line in CRATES.splitlines()[1:]:
            source = folder / "crates" / line.split(":")[0] / "src"
            source.mkdir(parents=True)
            (source / "lib.rt").write_text("")
        self.scratch.mkdir()
        stand_in_kit.make(self.kit)

    def begin(self, *words):
        """Starts the wrapper."""
        return self.start(self.folder / "grundbuch", *words)

    def start(self, *words, path=None, stdout=subprocess.PIPE):
        """Starts a program in the scratch folder."""
        path = f"{self.kit}/bin:{os.environ['PATH']}" if path is None else path
        told = {"PATH": path, "NOTES": str(self.notes), "SAYS": str(self.says), "TMPDIR": str(self.scratch)}
        streams = {"stdin": subprocess.PIPE, "stdout": stdout, "stderr": subprocess.PIPE}
        around = {name: value for name, value in os.environ.items() if name not in ("PYTHONDONTWRITEBYTECODE", "GLIBC_TUNABLES")}
        return subprocess.Popen(words, cwd=self.scratch, env={**around, **told}, preexec_fn=checks.hear_signals, **streams)

    def run(self, *words, given=b""):
        """The status, the output and the errors of the wrapper."""
        self.notes.write_text("")
        return told_by(self.begin(*words), given)

    def shell(self, *words, redirected, given=b""):
        """The status, the output and the errors of the wrapper in a shell, with streams redirected."""
        return told_by(self.start("sh", "-c", f'"$0" "$@" {redirected}', self.folder / "grundbuch", *words), given)

    def noted(self):
        return self.notes.read_text().split("\n")[:-1]

    def wait_for(self, note):
        """Waits until the stand-in noted this."""
        begun = time.monotonic()
        while note not in self.noted() and time.monotonic() - begun < checks.LIMIT:
            time.sleep(0.01)

    def forget(self):
        """Leaves nothing that was built."""
        for out in self.folder.glob("crates/*/out"):
            shutil.rmtree(out)
