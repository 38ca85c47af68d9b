"""How long proofs take: the minutes of each crate as docs/PROVING.md has them, and how many are left of a build.

No two machines are alike, so the minutes only say how much longer one proof takes than another: what is left
is scaled by what the proofs so far took.
"""

import functools
import pathlib
import re

PAGE = pathlib.Path(__file__).resolve().parent.parent / "docs" / "PROVING.md"

# A row of the page's table: the crates, and the processor minutes of the proof of each.
ROW = re.compile(r"^\| (`\w+`(?:, `\w+`)*) \| (\d+\.\d)(?: each)? \|", re.M)

# What a crate takes that the page does not name.
UNNAMED = 2.0

# A proof that took so small a part of what is said of it was kept.
KEPT = 0.05


def told_minutes():
    """The processor minutes of each crate's proof that the page has."""
    rows = ROW.findall(PAGE.read_text())
    return {name: float(minutes) for names, minutes in rows for name in re.findall(r"\w+", names)}


def minutes_of(crates):
    """The processor minutes of the proof of each of these crates."""
    told = told_minutes()
    return {crate: told.get(crate, UNNAMED) for crate in crates}


def by_urgency(uses, minutes):
    """The crates, those first on which the longest row of proofs waits. `uses` has each with those that it uses."""
    users = {crate: [user for user in uses if crate in uses[user]] for crate in uses}

    @functools.lru_cache(maxsize=None)
    def chain(crate):
        return minutes[crate] + max(map(chain, users[crate]), default=0)

    return sorted(uses, key=lambda crate: (-chain(crate), crate))


def speed(processors, proofs):
    """How fast each of several proofs is beside the others: a second processor helps half as much as the first."""
    return 1 + (max(1, processors / proofs) - 1) / 2


def ends(uses, minutes, at_once, processors):
    """The minute in which each crate is proved, so many at once on so many processors, where all goes as it is told."""
    left, running, ended, now = dict(minutes), [], {}, 0.0
    order = by_urgency(uses, minutes)
    while left:
        ready = [crate for crate in order if crate in left and crate not in running and uses[crate] <= ended.keys()]
        running += ready[: at_once - len(running)]
        pace = speed(processors, len(running))
        step = min(left[crate] for crate in running)
        now += step / pace
        for crate in running:
            left[crate] -= step
        for crate in [crate for crate in running if left[crate] <= 0]:
            running.remove(crate)
            del left[crate]
            ended[crate] = now
    return ended


class Progress:
    """How far a build is."""

    def __init__(self, uses, at_once, processors):
        self.uses, self.at_once, self.processors = uses, at_once, processors
        self.minutes, self.proved = minutes_of(uses), set()
        self.order = by_urgency(uses, self.minutes)

    def note(self, crate, took):
        """That a crate is proved, which took so many minutes of the clock."""
        self.proved.add(crate)
        if took < KEPT * self.minutes[crate]:
            self.minutes[crate] = 0.0

    def left(self, passed):
        """The minutes that are left of a build once so many have passed."""
        # What is proved may have ended in another order than it was told, so the work that is done is looked for in
        # the order that was told: `reached` is the minute by which no more was to be done. How much longer that
        # took is the pace of what is left.
        told = ends(self.uses, self.minutes, self.at_once, self.processors)
        done = sum(self.minutes[crate] for crate in self.proved)
        whole, reached, so_far = max(told.values()), 0.0, 0.0
        for crate in sorted(told, key=told.get):
            if so_far + self.minutes[crate] > done + 1e-6:
                break
            so_far, reached = so_far + self.minutes[crate], told[crate]
        pace = passed / reached if reached else 1.0
        return (whole - reached) * pace

    def told(self, passed):
        """What is said once so many minutes have passed."""
        return f"{len(self.proved)} of {len(self.uses)} crates after {passed:.0f} minutes, about {self.left(passed):.0f} left"
