"""The cent line of a folio, written cent by cent, and what is read of it. It is what docs/rules/exchanges.md,
reservations.md and lowest-bid.md say, tried sum by sum; nothing here is taken from a program.
"""

import dataclasses
import itertools


@dataclasses.dataclass
class Right:
    """A right as it was created; how it ended is None, `consent` or `expired`."""

    receipt: int
    act: int
    group: int
    cents: int
    kind: str
    holder: int
    reserve: int = 0
    ahead_of: "Right" = None
    ended: str = None

    @property
    def name(self):
        return f"{self.receipt}.{self.act}"

    @property
    def place(self):
        return (self.receipt, self.group)

    @property
    def is_live(self):
        return self.ended is None


def in_order(rights):
    return sorted(rights, key=lambda right: (right.receipt, right.group, right.act))


class Line:
    """The line of rights, with the exchanges (receding, rising) in their turn."""

    def __init__(self, rights, exchanges):
        self.live = in_order(right for right in rights if right.is_live)
        self.exchanges = [(recede, rise) for recede, rise in exchanges if rise.is_live and recede.ended != "expired"]
        self.exercises = [right for right in self.live if right.ahead_of and right.ahead_of.is_live]
        receded = [recede for recede, _ in self.exchanges if not recede.is_live]
        written = in_order([*self.live, *{right.name: right for right in receded}.values()])
        cents = [right for right in written for _ in range(right.cents)]
        for recede, rise in self.exchanges:
            cents = exchanged(cents, recede, rise)
        self.cents = [right for right in cents if right.is_live]

    def places(self):
        """The live rights of each place, in order."""
        return [list(rights) for _, rights in itertools.groupby(self.live, key=lambda right: right.place)]

    def equals(self, right):
        """The live rights of its place."""
        return [other for other in self.live if other.place == right.place]

    def shared(self, right, sum_paid):
        """What the right gets of a sum, exercises apart: its cents among the first ones, or its share of the place's."""
        equals = self.equals(right)
        got = sum(cent.place == right.place for cent in self.cents[:sum_paid])
        claims = [other.cents for other in equals]
        if got >= sum(claims):
            return right.cents
        parts = [got * claim // sum(claims) for claim in claims]
        index = next(i for i, other in enumerate(equals) if other is right)
        return parts[index] + (index < got - sum(parts))

    def exercise_of(self, right):
        """The exercised right of the exercise that ties this right, if one does."""
        return next((one for one in self.exercises if right is one or right is one.ahead_of), None)

    def pays(self, right, sum_paid):
        """What the right gets of a sum."""
        exercised = self.exercise_of(right)
        if exercised is None:
            return self.shared(right, sum_paid)
        reserved = self.shared(exercised.ahead_of, max(sum_paid - exercised.cents, 0))
        if right is exercised.ahead_of:
            return reserved
        return self.shared(exercised.ahead_of, sum_paid) + self.shared(exercised, sum_paid) - reserved

    def threshold(self, right):
        """The greatest sum up to which the right and its equals get nothing: each sum is tried."""
        nothing = (t for t in range(len(self.cents)) if any(self.pays(one, t + 1) for one in self.equals(right)))
        return next(nothing)

    def reaches(self, right, sum_paid):
        """Whether no cent of the right stands after the first ones."""
        return all(cent is not right for cent in self.cents[sum_paid:])

    def remains(self, right, cover):
        """What remains on the land of a right without interest, where so many cents are covered (ZVG § 52)."""
        exercised = self.exercise_of(right)
        whole = self.equals(right) if len(self.equals(right)) > 1 else []
        whole = [exercised, exercised.ahead_of] if exercised else whole
        got = self.pays(right, cover)
        if right.kind == "usufruct" and got < right.cents:
            return 0
        return got if all(self.reaches(one, cover) for one in whole) else 0

    def text(self, folio):
        """The rank table."""
        lines = [f"ranks {folio}"]
        lines += [f"rank {rank} {right.name}" for rank, rights in enumerate(self.places(), 1) for right in rights]
        lines += [f"exchange {recede.name} {rise.name}" for recede, rise in self.exchanges]
        lines += [f"exercise {right.ahead_of.name} {right.name}" for right in self.exercises]
        first = 1
        for _, cents in itertools.groupby(self.cents, key=lambda right: right.place):
            cents = list(cents)
            names = [right.name for right in self.equals(cents[0])]
            who = f"group {' '.join(names)}" if len(names) > 1 else names[0]
            lines.append(f"cents {first}-{first + len(cents) - 1} {who}")
            first += len(cents)
        return lines


def exchanged(cents, recede, rise):
    """Each cent of the two becomes one of the rising right while that has cents left, and then one of the receding one."""
    left = sum(cent is rise for cent in cents)
    after = []
    for cent in cents:
        if cent is recede or cent is rise:
            cent = rise if left > 0 else recede
            left -= 1
        after.append(cent)
    return after
