"""Journals that are drawn: items of every kind over a few folios, many of them in two, so that several
desks find something to do, and wait for one another. What is drawn is the same each time.

Receipt n creates its rights in the folio `folio_of` that number, so that a later item finds them.
"""

import datetime
import random

from checks import consent, filed, land_charge, opening

# Who owns the folios that checks.py opens, and applies where it names nobody.
OWNER = 10
HOLDERS = (20, 21, 22)
FIRST_DAY = datetime.date(2024, 3, 1)


class DrawnJournal:
    """Draws the items of a journal with so many folios, which its first receipts open."""

    def __init__(self, seed, folios):
        self.chance = random.Random(seed)
        self.folios = folios
        self.number = 0
        # The items of a story that are still to come, among others.
        self.story = []

    def lines(self, items):
        """The stamped lines: the openings, and so many items, one a day, so that deadlines end between them."""
        for self.number in range(1, self.folios + items + 1):
            item = self.opening() if self.number <= self.folios else self.item()
            day = FIRST_DAY + datetime.timedelta(max(0, self.number - self.folios))
            yield {"day": day.isoformat(), "minute": 540, "sender": 1, "reference": self.number, "item": item}

    def folio_of(self, number):
        return 1 + (number - 1) % self.folios

    def earlier(self):
        return self.chance.randint(1, max(1, self.number - 1))

    def any_folio(self):
        return self.chance.randint(1, self.folios)

    def opening(self):
        return filed([opening(self.number)], [consent(1, OWNER)])

    def agreed(self, act):
        """The owner's consent, one time in four in plain form, with what a transfer wants besides."""
        form = "plain" if self.chance.randrange(4) == 0 else "certified"
        return [consent(act, OWNER, form), {"doc": "agreement", "act": act}, {"doc": "clearance", "act": act}]

    def held(self, act):
        """The consents of all holders, one time in four in plain form."""
        form = "plain" if self.chance.randrange(4) == 0 else "certified"
        return [consent(act, holder, form) for holder in HOLDERS]

    def right(self):
        """A right that an earlier receipt may have created, with its folio."""
        number = self.earlier()
        return {"receipt": number, "act": 1}, self.folio_of(number)

    def spec(self, group=1):
        kind = self.chance.choice(["land-charge", "land-charge", "mortgage", "usufruct", "personal-easement"])
        rate = {"rate": self.chance.choice([0, 500])} if kind in ("land-charge", "mortgage") else {}
        capital = self.chance.randint(1, 9) * 100_000
        return {"kind": kind, **rate, "capital": capital, "holder": self.chance.choice(HOLDERS), "group": group}

    def item(self):
        if self.story and self.chance.randrange(2) == 0:
            return self.story.pop(0)()
        draw = self.chance.choice([
            self.overtaken, self.created, self.created, self.created, self.in_two_folios, self.in_two_folios, self.of_a_right,
            self.of_a_right, self.exchanged, self.exercised,
            self.transferred, self.cured, self.cured, self.lapsed, self.extended, self.extended, self.of_a_sale, self.of_a_sale,
        ])
        return draw()

    def created(self):
        act = {"act": self.chance.choice(["create", "create", "notice"]), "folio": self.folio_of(self.number), **self.spec()}
        if act["act"] == "create" and self.chance.randrange(3) == 0:
            act["reserve"] = 100_000
        return filed([act], self.agreed(1))

    def in_two_folios(self):
        first = {"act": "create", "folio": self.folio_of(self.number), **self.spec()}
        second = {"act": "create", "folio": self.any_folio(), **self.spec(2)}
        return filed([first, second], self.agreed(1) + self.agreed(2))

    def of_a_right(self):
        right, folio = self.right()
        name = self.chance.choice(["convert", "assign", "cancel"])
        more = {"holder": self.chance.choice(HOLDERS)} if name == "assign" else {}
        docs = self.agreed(1) + self.held(1)
        return filed([{"act": name, "folio": folio, "right": right, **more}], docs, self.chance.choice([OWNER, *HOLDERS]))

    def overtaken(self):
        """A charge; then come a filing of it that waits, its cancellation, and a cure of that filing, too late."""
        right, folio = {"receipt": self.number, "act": 1}, self.folio_of(self.number)
        waits = []

        def assigned():
            waits.append(self.number)
            return filed([{"act": "assign", "folio": folio, "right": right, "holder": 22}], [consent(1, 20, "plain")], 20)

        def cancelled():
            return filed([{"act": "cancel", "folio": folio, "right": right}], [consent(1, OWNER), consent(1, 20)])

        def cured():
            return {"kind": "cure", "filing": waits[0], "docs": [consent(1, 20)]}

        if not self.story:
            self.story = [assigned, cancelled, cured]
        return filed([land_charge(folio, 100_000)], [consent(1, OWNER)])

    def exchanged(self):
        recede, folio = self.right()
        rise = {"receipt": max(1, recede["receipt"] - self.folios * self.chance.randint(1, 3)), "act": 1}
        if rise == recede:
            return self.created()
        acts = [{"act": "exchange", "folio": folio, "recede": recede, "rise": rise}]
        return filed(acts, self.agreed(1) + self.held(1))

    def exercised(self):
        behind, folio = self.right()
        spec = {"kind": "land-charge", "rate": 500, "capital": 50_000, "holder": 21, "group": 1}
        return filed([{"act": "exercise", "folio": folio, "behind": behind, **spec}], self.agreed(1))

    def transferred(self):
        docs = self.agreed(1)[: self.chance.randint(1, 3)]
        return filed([{"act": "transfer", "folio": self.any_folio(), "owners": [OWNER, 11]}], docs + [consent(1, 11)])

    def cured(self):
        docs = self.agreed(1) + self.agreed(2) if self.chance.randrange(3) == 0 else [consent(act, OWNER) for act in (1, 2)]
        return {"kind": "cure", "filing": self.earlier(), "docs": docs + [consent(1, 11)] + self.held(1)}

    def lapsed(self):
        return {"kind": "lapse", "filing": self.chance.randint(1, self.number + 2)}

    def extended(self):
        """A later deadline for a filing that may wait, most often one of the last 40, whose deadline may be over."""
        first = 1 if self.chance.randrange(4) == 0 else max(1, self.number - 40)
        number = self.chance.randint(first, self.number + 1)
        return {"kind": "extend", "filing": number, "days": self.chance.choice([1, 29, 30, 60, 90])}

    def of_a_sale(self):
        """A step of a forced sale, in one of two folios, so that some sales come to their end."""
        folio, day = self.chance.randint(1, min(2, self.folios)), FIRST_DAY.isoformat()
        right = {"receipt": self.earlier(), "act": 1}
        what = self.chance.choice([
            {"type": "advance", "person": 31, "amount": 20_000},
            {"type": "charge", "person": 32, "amount": 30_000, "due": day},
            {"type": "arrears", "right": right, "from": "2023-01-01", "until": day},
        ])
        basis = self.chance.choice([{"type": "personal", "creditor": 30, "claim": 50_000}, {"type": "right", "right": right}])
        return self.chance.choice([
            {"kind": "seize", "folio": folio, "basis": basis, "served": day},
            {"kind": "register", "folio": folio, "what": what},
            {"kind": "open-bids", "folio": folio, "costs": 10_000},
            {"kind": "award", "folio": folio, "buyer": OWNER, "bid": 50_000_000},
            {"kind": "distribute", "folio": folio},
        ])
