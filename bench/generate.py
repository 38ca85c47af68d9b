#!/usr/bin/env python3
"""Writes stamped lines that the office takes, for measuring: generate.py SHAPE N

{shapes}

What is drawn is the same each time.
"""
import datetime
import json
import random
import sys

FOLIO = 7
OWNER = 10
FIRST_DAY = "2005-03-01"
BEHIND_THE_DEADLINE = "2005-04-02"
SALE_DAY = "2005-06-09"


# ---- lines

def stamped(number, item, day=FIRST_DAY, sender=1, reference=None):
    reference = number if reference is None else reference
    line = {"day": day, "minute": 600, "sender": sender, "reference": reference, "item": item}
    return json.dumps(line, separators=(",", ":"))


def filing(acts, docs, applicant=OWNER):
    return {"kind": "filing", "applicant": applicant, "conditional": False, "acts": acts, "docs": docs}


def cure(of, docs):
    return {"kind": "cure", "filing": of, "docs": docs}


def lapse(of):
    return {"kind": "lapse", "filing": of}


def extension(of, days):
    return {"kind": "extend", "filing": of, "days": days}


def seizure(basis):
    return {"kind": "seize", "folio": FOLIO, "basis": basis, "served": "2005-04-10"}


# ---- acts and documents

def opening(folio, owner=OWNER):
    return {"act": "open", "folio": folio, "district": 1, "parcel": 1, "sub": 0, "area": 500, "owners": [owner]}


def charge(capital, holder=OWNER, folio=FOLIO, group=1, rate=500):
    return {"act": "create", "folio": folio, "kind": "land-charge", "rate": rate, "capital": capital,
            "holder": holder, "group": group}


def transfer(to):
    return {"act": "transfer", "folio": FOLIO, "owners": [to]}


def of_right(act, receipt, **more):
    return {"act": act, "folio": FOLIO, "right": right(receipt), **more}


def right(receipt):
    return {"receipt": receipt, "act": 1}


def exchange(recede, rise):
    return {"act": "exchange", "folio": FOLIO, "recede": right(recede), "rise": right(rise)}


def consent(person, form="certified", act=1):
    return {"doc": "consent", "act": act, "person": person, "form": form}


def from_right(receipt):
    return {"type": "right", "right": right(receipt)}


AGREEMENT = {"doc": "agreement", "act": 1}
CLEARANCE = {"doc": "clearance", "act": 1}
OPENED = filing([opening(FOLIO)], [consent(OWNER)])
ENTERED_TRANSFER = filing([transfer(OWNER)], [consent(OWNER), AGREEMENT, CLEARANCE])
WAITING_TRANSFER = filing([transfer(OWNER)], [consent(OWNER), AGREEMENT])
PERSONAL = {"type": "personal", "creditor": 61, "claim": 1_000_000}
CALL = {"kind": "open-bids", "folio": FOLIO, "costs": 10_000}
AWARD = {"kind": "award", "folio": FOLIO, "buyer": OWNER, "bid": 2_000_000}
DISTRIBUTION = {"kind": "distribute", "folio": FOLIO}


def charges(upto, rate=500):
    """The opening, and behind it land charges up to this receipt."""
    yield stamped(1, OPENED)
    for number in range(2, upto + 1):
        yield stamped(number, filing([charge(1_000_000 + number, rate=rate)], [consent(OWNER)]))


# ---- shapes

def one_folio(count, draws):
    """one folio, and land charges in it, of which 256 are entered"""
    yield from charges(count)


def many_folios(count, draws):
    """a folio for each four lines, opened and charged with three land charges"""
    for number in range(1, count + 1):
        folio, step = (number - 1) // 4 + 1, (number - 1) % 4
        act = opening(folio) if step == 0 else charge(100_000 + number, folio=folio)
        yield stamped(number, filing([act], [consent(OWNER)]))


def folios(count, draws):
    """a folio a line, its number in no order, opened and charged with seven land charges"""
    for number in range(1, count + 1):
        folio = number * 2_654_435_761 % 2**32 or 1
        acts = [opening(folio), *(charge(1_000 + number, folio=folio, group=group) for group in range(1, 8))]
        yield stamped(number, filing(acts, [consent(OWNER, act=act) for act in range(1, 9)]))


def transfers(count, draws):
    """one folio and nothing but transfers of it"""
    yield stamped(1, OPENED)
    for number in range(2, count + 1):
        yield stamped(number, ENTERED_TRANSFER)


def pending(count, draws):
    """half of the lines wait at one title; then transfers, cures and lapses, at any of them"""
    half = count // 2
    yield stamped(1, OPENED)
    for number in range(2, half + 1):
        yield stamped(number, WAITING_TRANSFER)
    for number in range(half + 1, count + 1):
        one = draws.randint(2, half)
        item = draws.choice([ENTERED_TRANSFER, cure(one, [CLEARANCE]), lapse(one)])
        yield stamped(number, item, BEHIND_THE_DEADLINE)


def of_each_that_waits(count, draws, item_of, day):
    """Half of the lines wait at one title; then comes an item of each of them, in no order."""
    half = count // 2
    yield stamped(1, OPENED)
    for number in range(2, half + 1):
        yield stamped(number, WAITING_TRANSFER)
    order = list(range(2, half + 1))
    draws.shuffle(order)
    for number, one in enumerate(order, half + 1):
        yield stamped(number, item_of(one), day)


def lapses(count, draws):
    """half of the lines wait at one title; then each of them lapses, in no order"""
    yield from of_each_that_waits(count, draws, lapse, BEHIND_THE_DEADLINE)


def extends(count, draws):
    """half of the lines wait at one title; then the deadline of each is extended, in no order"""
    yield from of_each_that_waits(count, draws, lambda one: extension(one, 60), FIRST_DAY)


def extensions(count, draws):
    """one filing that waits, and nothing but extensions of it, of which each fourth sets a later day"""
    yield stamped(1, OPENED)
    yield stamped(2, WAITING_TRANSFER)
    for number in range(3, count + 1):
        day = datetime.date.fromisoformat(FIRST_DAY) + datetime.timedelta(number // 4)
        yield stamped(number, extension(2, 90), str(day))


def notices(count, draws):
    """ever more wait at one title; each hundredth line is entered and gives those before it notices"""
    yield stamped(1, OPENED)
    for number in range(2, count + 1):
        yield stamped(number, ENTERED_TRANSFER if number % 100 == 0 else WAITING_TRANSFER)


def cures(count, draws):
    """one filing and nothing but cures of it in vain, each with consents of three new strangers"""
    yield stamped(1, OPENED)
    yield stamped(2, filing([transfer(11)], [consent(OWNER), AGREEMENT]))
    for number in range(3, count + 1):
        docs = [consent(4 * number + stranger, "plain") for stranger in range(3)]
        yield stamped(number, cure(2, docs))


def others(count, draws):
    """a third of the lines wait at one right; then its cancellations, cured by a consent at a time, in
    plain form and certified"""
    third = count // 3
    yield stamped(1, OPENED)
    yield stamped(2, filing([charge(1_000)], [consent(OWNER)]))
    for number in range(3, third + 1):
        applicant = 1_000 + number
        yield stamped(number, filing([of_right("assign", 2, holder=applicant)], [consent(OWNER, "plain")], applicant))
    cancelled, person = [], 1_002
    for number in range(third + 1, count + 1):
        if (number - third) % 3 == 1:
            named = range(person + 1, min(person + 31, 1_000 + third))
            cancelled.append(number)
            yield stamped(number, filing([of_right("cancel", 2)], [consent(OWNER), *map(consent, named)]))
        else:
            of = cancelled[0] if number % 3 == 0 else draws.choice(cancelled[:3])
            person = person + 1 if person < 1_000 + third else 1_003
            yield stamped(number, cure(of, [consent(person, "plain"), consent(person)]))


def cancel(count, draws):
    """256 rights of one folio, all cancelled in no order; then filings that name three of them"""
    yield from charges(min(count, 257))
    order = list(range(2, 258))
    draws.shuffle(order)
    for number in range(258, count + 1):
        if order:
            yield stamped(number, filing([of_right("cancel", order.pop())], [consent(OWNER)]))
        else:
            one, other, third = draws.sample(range(2, 258), 3)
            yield stamped(number, filing([exchange(one, other), of_right("cancel", third)], []))


def exchanges(count, draws):
    """256 rights of one folio, then exchanges of any two of them"""
    yield from charges(min(count, 257))
    for number in range(258, count + 1):
        one, other = draws.sample(range(2, 258), 2)
        yield stamped(number, filing([exchange(one, other)], [consent(OWNER)]))


def bids(count, draws):
    """256 rights with interest, 8 seizures and 32 arrears; then calls to bid that count all of these"""
    yield from charges(257)
    for number in range(258, 265):
        yield stamped(number, seizure(from_right(257 - 30 * (number - 258))), SALE_DAY)
    yield stamped(265, seizure(PERSONAL), SALE_DAY)
    for number in range(266, 298):
        owed = {"type": "arrears", "right": right(2 + 8 * (number - 266)), "from": "2002-12-22", "until": SALE_DAY}
        yield stamped(number, {"kind": "register", "folio": FOLIO, "what": owed}, SALE_DAY)
    for number in range(298, count + 1):
        yield stamped(number, CALL, SALE_DAY)


def mixed(count, draws):
    """256 rights, and a call to bid for a personal creditor behind every two exchanges of any two of them"""
    yield from calls_between(PERSONAL, count, draws)


def mixright(count, draws):
    """the same for the creditor of one of the rights"""
    yield from calls_between(from_right(130), count, draws)


def calls_between(basis, count, draws):
    yield from charges(257)
    yield stamped(258, seizure(basis), SALE_DAY)
    for number in range(259, count + 1):
        item = CALL if number % 3 == 0 else filing([exchange(*draws.sample(range(2, 258), 2))], [consent(OWNER)])
        yield stamped(number, item, SALE_DAY)


def sales(count, draws):
    """200 rights that remain in one sale after another: every fourth line is a plan of 200 lines"""
    yield from charges(201, rate=0)
    yield from sales_behind(201, count)


def swapsales(count, draws):
    """the same behind exchanges of any two of the rights, which are half of the lines"""
    yield from charges(201, rate=0)
    half = max(201, count // 2)
    for number in range(202, half + 1):
        yield stamped(number, filing([exchange(*draws.sample(range(2, 202), 2))], [consent(OWNER)]))
    yield from sales_behind(half, count)


def sales_behind(number, count):
    """Whole sales, behind this receipt."""
    for number in range(number + 1, count - 3, 4):
        for step, item in enumerate([seizure(PERSONAL), CALL, AWARD, DISTRIBUTION]):
            yield stamped(number + step, item, SALE_DAY)


def wide(count, draws):
    """filings of 8 acts with 32 documents, 32 of them a folio"""
    for number in range(1, count + 1):
        folio = (number - 1) // 32 + 1
        first = opening(folio) if (number - 1) % 32 == 0 else charge(1_000 + number, folio=folio)
        acts = [first, *(charge(1_000 + number, folio=folio, group=group) for group in range(2, 9))]
        docs = [consent(OWNER + person, act=act) for act in range(1, 9) for person in range(4)]
        yield stamped(number, filing(acts, docs))


def senders(count, draws):
    """openings; from the middle on every second one was sent before"""
    for number in range(1, count + 1):
        again = number > count // 2 and number % 2 == 0
        at = draws.randrange(number - 1) + 1 if again else number
        item = filing([opening(at)], [consent(OWNER)])
        yield stamped(number, item, sender=at % 60, reference=at // 60)


def waiting(count, draws):
    """one folio with 255 land charges, and behind them transfers that wait for a clearance"""
    yield from charges(min(count, 256))
    for number in range(257, count + 1):
        yield stamped(number, WAITING_TRANSFER)


class Drawn:
    """The draws of a generated journal, from its seed."""

    def __init__(self, seed):
        self.state = seed

    def below(self, count):
        self.state = (self.state * 6_364_136_223_846_793_005 + 1_442_695_040_888_963_407) % 2**64
        return self.state // 2**33 % count


class Notes:
    """What the generator keeps of a folio."""

    def __init__(self, folio):
        self.folio, self.owner = folio, folio
        self.last, self.before = None, None
        self.waiting, self.step = None, 0

    def of(self, act, *docs):
        return filing([{**act, "folio": self.folio}], list(docs), applicant=self.owner)

    def created(self, number, draws, form="certified"):
        capital, holder = 100_000 * (1 + draws.below(50)), 1_000_001 + draws.below(20)
        item = self.of(charge(capital, holder), consent(self.owner, form))
        if form == "plain":
            self.waiting = number
        else:
            self.before, self.last = self.last, (number, holder)
        return item

    def transferred(self, number):
        owner = 2_000_000 + number
        item = self.of(transfer(owner), consent(self.owner), AGREEMENT, CLEARANCE)
        self.owner = owner
        return item

    def cancelled(self):
        item = self.of(of_right("cancel", self.last[0]), consent(self.last[1]), consent(self.owner))
        self.last, self.before = self.before, None
        return item

    def sold(self, number, day):
        step, self.step = self.step, (self.step + 1) % 4
        if step == 0:
            basis = {"type": "personal", "creditor": 5_000_000, "claim": 1_000_000}
            return {**seizure(basis), "folio": self.folio, "served": str(day - datetime.timedelta(40))}
        if step == 1:
            return {**CALL, "folio": self.folio}
        if step == 2:
            self.owner = 3_000_000 + number
            return {**AWARD, "folio": self.folio, "buyer": self.owner, "bid": 1_000_000_000}
        return {**DISTRIBUTION, "folio": self.folio}

    def next(self, number, day, draws):
        kind = draws.below(11)
        if kind == 5:
            return self.transferred(number)
        if kind == 6:
            return self.created(number, draws, "plain")
        if kind == 7 and self.waiting:
            of, self.waiting = self.waiting, None
            return cure(of, [consent(self.owner)])
        if kind == 8 and self.before:
            return self.of(exchange(self.before[0], self.last[0]), consent(self.before[1]), consent(self.owner))
        if kind == 9 and self.last:
            return self.cancelled()
        if kind == 10:
            return self.sold(number, day)
        return self.created(number, draws)


def sample(count, draws):
    """the receipts of `sample --seed 7`, of this size"""
    drawn = Drawn(7)
    kept = [Notes(folio) for folio in range(1, 2 + count // 16)]
    for number in range(1, count + 1):
        day = datetime.date(2024, 1, 1) + datetime.timedelta(number // 64)
        if number <= len(kept):
            act = {**opening(number, number), "parcel": number}
            item = filing([act], [consent(number)], applicant=number)
        else:
            item = kept[drawn.below(len(kept))].next(number, day, drawn)
        line = {"day": str(day), "minute": 480 + number % 64, "sender": 1, "reference": number, "item": item}
        yield json.dumps(line, separators=(",", ":"))


SHAPES = {shape.__name__.replace("_", "-"): shape for shape in [
    one_folio, many_folios, folios, transfers, pending, lapses, extends, extensions, notices, cures, others, cancel, exchanges, wide,
    senders, waiting, bids, mixed, mixright, sales, swapsales, sample]}


def main():
    if len(sys.argv) != 3 or sys.argv[1] not in SHAPES:
        sys.exit(__doc__.format(shapes="\n".join(f"{name:12} {shape.__doc__}" for name, shape in SHAPES.items())))
    for text in SHAPES[sys.argv[1]](int(sys.argv[2]), random.Random(7)):
        print(text)


if __name__ == "__main__":
    main()
