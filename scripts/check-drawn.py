#!/usr/bin/env python3
"""Compares what the built program writes of drawn journals with what plain programs say.

Folios with up to six rights, exchanges, exercised reservations and cancellations: their rank tables, what
each right gets of a bid, and lowest bids, with those of a line that is written cent by cent (cent_lines.py).
The generated journal: its summaries, with those of the same journal as lines (sample_lines.py).
"""

import random

import cent_lines
import checks
import sample_lines
from sample_lines import euro

LINES = ["settle", "--desks", "2", "--lines"]
FOLIOS = 300
GROWING = 60
OWNER = 10
COSTS = 1_000
AHEAD = 100
DAY = "2024-03-01"
SERVED = "2024-01-15"

# Seeds and sizes of generated journals; a folio more is opened for each 16 receipts.
SAMPLES = [(0, 1), (0, 2), (0, 15), (0, 16), (0, 31), (0, 32), (7, 200), (2**32 - 1, 5_000), (5, 200_000)]


class DrawnFolios:
    """A journal of drawn folios, and the rights of each with the exchanges among them."""

    def __init__(self, seed):
        self.draws = random.Random(seed)
        self.items = []
        self.rights = {}
        self.exchanges = {}

    def file(self, folio, acts, persons, docs=()):
        consents = [checks.consent(act, person) for act in range(1, len(acts) + 1) for person in persons]
        acts = [{"act": act.pop("act"), "folio": folio, **act} for act in acts]
        self.items.append(checks.filed(acts, [*consents, *docs], persons[0]))
        return len(self.items)

    def open(self, folio, rights):
        """A filing opens the folio and creates these rights."""
        self.rights[folio], self.exchanges[folio] = [], []
        opening = {name: value for name, value in checks.opening(folio).items() if name != "folio"}
        self.create(folio, rights, [opening])

    def draw_folio(self, folio):
        """Its opening with a right ahead of all, up to six further rights, and what is done with them."""
        self.open(folio, [(AHEAD, "land-charge", 1, 0)])
        count = max(self.draws.randint(1, 6), self.draws.randint(1, 6))
        while len(self.rights[folio]) <= count:
            self.create(folio, self.draw_rights(self.draws.randint(1, count + 1 - len(self.rights[folio]))))
        for _ in range(self.draws.choice([self.draws.randint(0, 6), self.draws.randint(0, 6), self.draws.randint(0, 60)])):
            self.draw_change(folio)

    def draw_rights(self, count):
        """So many rights of a filing. About one filing in three has equal ones, which reserve nothing."""
        groups = [self.draws.randint(1, 2) for _ in range(count)] if self.draws.randint(1, 3) == 1 else range(count, 0, -1)
        kinds = [self.draws.choice(["land-charge", "land-charge", "usufruct"]) for _ in groups]
        alone = [list(groups).count(group) == 1 for group in groups]
        return [(self.draws.randint(1, 9), kind, group, self.draws.choice([0, 0, 9]) if lone else 0)
                for kind, group, lone in zip(kinds, groups, alone)]

    def create(self, folio, rights, ahead=()):
        acts, made = [*ahead], []
        for cents, kind, group, reserve in rights:
            holder = 20 + len(self.rights[folio]) + len(acts)
            acts.append({"act": "create", **described(cents, kind, holder, group), **({"reserve": reserve} if reserve else {})})
            made.append(cent_lines.Right(len(self.items) + 1, len(acts), group, cents, kind, holder, reserve))
        self.file(folio, acts, [OWNER])
        self.rights[folio] += made

    def draw_change(self, folio):
        """An exchange three times in five, else an exercise or a cancellation, where one can be made."""
        drawn = self.draws.randint(1, 10)
        live = [right for right in self.rights[folio][1:] if right.is_live]
        if drawn <= 6:
            self.draw_exchange(folio, [right for right in live if self.is_plain(folio, right)])
        elif drawn <= 8:
            self.draw_exercise(folio, [right for right in live if right.reserve and not self.is_spent(folio, right)])
        elif drawn == 9 and live:
            self.draw_cancellation(folio, self.draws.choice(live))

    def is_plain(self, folio, right):
        """Whether it may be exchanged: it shares its place with no right, reserves nothing and used no reservation."""
        equals = [other for other in self.rights[folio] if other.place == right.place]
        return len(equals) == 1 and not right.reserve and right.ahead_of is None

    def is_spent(self, folio, right):
        return any(other.ahead_of is right for other in self.rights[folio])

    def draw_exchange(self, folio, plain):
        if len(plain) >= 2:
            recede, rise = self.draws.sample(plain, 2)
            self.file(folio, [{"act": "exchange", "recede": named(recede), "rise": named(rise)}], [recede.holder, OWNER])
            self.exchanges[folio].append((recede, rise))

    def draw_exercise(self, folio, reserved):
        if reserved:
            behind, cents = self.draws.choice(reserved), self.draws.randint(1, 9)
            holder = 20 + len(self.rights[folio])
            act = {"act": "exercise", "behind": named(behind), **described(cents, "land-charge", holder, 1)}
            number = self.file(folio, [act], [OWNER])
            self.rights[folio].append(cent_lines.Right(number, 1, 1, cents, "land-charge", holder, 0, behind))

    def draw_cancellation(self, folio, right):
        right.ended = self.draws.choice(["consent", "expired"])
        docs = [{"doc": "expiry", "act": 1}] if right.ended == "expired" else []
        self.file(folio, [{"act": "cancel", "right": named(right)}], [right.holder, OWNER], docs)


def described(cents, kind, holder, group):
    rate = {"rate": 0} if kind == "land-charge" else {}
    return {"kind": kind, **rate, "capital": cents, "holder": holder, "group": group}


def named(right):
    return {"receipt": right.receipt, "act": right.act}


def seizure(folio, right):
    return {"kind": "seize", "folio": folio, "basis": {"type": "right", "right": named(right)}, "served": SERVED}


def call(folio):
    return {"kind": "open-bids", "folio": folio, "costs": COSTS}


def award(folio, bid):
    return {"kind": "award", "folio": folio, "buyer": 30, "bid": bid}


def settled(items):
    """The lines of the report of these items."""
    stamped = ({"day": DAY, "minute": 540, "sender": 1, "reference": n, "item": item} for n, item in enumerate(items, 1))
    status, said, errors = checks.run(LINES, input=checks.text_of(stamped))
    return said.decode().splitlines() if (status, errors) == (0, b"") else []


def part(report, first, folio):
    """The lines of a folio from one that begins so on, up to the next folio or the end."""
    begin = next((n for n, line in enumerate(report) if line == f"folio {folio}"), len(report))
    lines = []
    for line in report[begin + 1 :]:
        if line.startswith(("folio ", "end receipts ")):
            break
        if lines or line.startswith(first):
            lines.append(line)
    return lines


def count_same(look, what, pairs):
    """Whether the program writes of folios what is wanted; names the first of which it does not."""
    wrong = [(folio, got, wanted) for folio, got, wanted in pairs if got != wanted]
    look.same(f"drawn folios, {len(pairs)} texts: {what}", wrong[:1], [])


def check_ranks(look, drawn, lines):
    report = settled(drawn.items)
    verdicts = list(verdicts_in(report).values())
    look.same(f"{len(drawn.items)} drawn receipts: each is entered", verdicts == ["entered"] * len(drawn.items), True)
    count_same(look, "their rank tables", [(folio, part(report, "ranks ", folio), line.text(folio)) for folio, line in lines.items()])


def check_paid(look, drawn, lines, share):
    """Each folio is sold from its first right, at a bid that leaves this share of the others' cents."""
    items, wanted = [*drawn.items], {}
    for folio, line in lines.items():
        money = AHEAD + (len(line.cents) - AHEAD) * share // 4
        items += [seizure(folio, line.live[0]), call(folio), award(folio, COSTS + money), {"kind": "distribute", "folio": folio}]
        wanted[folio] = plan(folio, len(items), line, money)
    report = settled(items)
    pairs = [(folio, part(report, "plan ", folio), text) for folio, text in wanted.items()]
    count_same(look, f"what each right gets of {share} quarters", pairs)


def plan(folio, number, line, money):
    rows = [(right, line.pays(right, money)) for right in line.live]
    left = money - sum(paid for _, paid in rows)
    claims = [f"class 4 right {right.name} person {right.holder} interest 0.00 capital {euro(paid)} remains 0.00" for right, paid in rows]
    head = [f"plan {folio} receipt {number}", f"money {euro(COSTS + money)}", f"costs {euro(COSTS)}"]
    return [*head, *claims, f"owner {OWNER} paid {euro(left)}", "end plan"]


def check_lowest(look, drawn, lines):
    """Each folio is seized from a drawn right: the lowest bid is what stands ahead of it, of which some remains."""
    items, wanted = [*drawn.items], []
    for folio, line in lines.items():
        right = drawn.draws.choice([right for right in line.live if right.kind == "land-charge"])
        items += [seizure(folio, right), call(folio)]
        wanted.append((folio, len(items), lowest(line, right)))
    said = verdicts_in(settled(items))
    count_same(look, "their lowest bids", [(folio, said.get(number), text) for folio, number, text in wanted])


def lowest(line, right):
    """What a call to bid says where the folio is seized from this right."""
    cover = line.threshold(right)
    cash = COSTS + cover - sum(line.remains(one, cover) for one in line.live)
    return f"lowest {euro(COSTS + cover)} cash {euro(cash)}"


def verdicts_in(report):
    """The verdict of each receipt."""
    lines = (line.split(" ", 2) for line in report if line.startswith("receipt "))
    return {int(number): text for _, number, text in lines}


def check_growing(look):
    """Folios in which rights are exchanged again and again, with a call to bid after each exchange."""
    drawn, seized, wanted = DrawnFolios(880), {}, []
    folios = range(1, GROWING + 1)
    for folio in [*(folio for folio in folios for _ in range(6)), *folios, *folios, *folios]:
        if folio not in seized:
            count = drawn.draws.randint(3, 6)
            drawn.open(folio, [(drawn.draws.randint(1, 9), "land-charge", group, 0) for group in range(1, count + 1)])
            seized[folio] = drawn.draws.choice(drawn.rights[folio])
            drawn.items.append(seizure(folio, seized[folio]))
        drawn.draw_exchange(folio, drawn.rights[folio])
        drawn.items.append(call(folio))
        line = cent_lines.Line(drawn.rights[folio], drawn.exchanges[folio])
        wanted.append((folio, len(drawn.items), lowest(line, seized[folio])))
    said = verdicts_in(settled(drawn.items))
    count_same(look, "their lowest bids after each exchange", [(folio, said.get(number), text) for folio, number, text in wanted])


def check_sample(look, seed, size):
    """A generated journal is summed up as the report of its lines says."""
    status, said, errors = checks.run(LINES, input=checks.text_of(sample_lines.journal(seed, size)))
    wanted = sample_lines.summary(said.decode()).encode()
    summed = checks.run(["sample", "--seed", str(seed), "--size", str(size), "--desks", "2"])
    look.same(f"the summary of {size} receipts of seed {seed}", (status, errors, *summed), (0, b"", 0, wanted, b""))


def main():
    checks.build()
    look = checks.Checks()
    drawn = DrawnFolios(881)
    for folio in range(1, FOLIOS + 1):
        drawn.draw_folio(folio)
    lines = {folio: cent_lines.Line(rights, drawn.exchanges[folio]) for folio, rights in drawn.rights.items()}
    check_ranks(look, drawn, lines)
    for share in range(5):
        check_paid(look, drawn, lines, share)
    check_lowest(look, drawn, lines)
    check_growing(look)
    for seed, size in SAMPLES:
        check_sample(look, seed, size)
    look.end()


if __name__ == "__main__":
    main()
