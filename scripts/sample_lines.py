"""The generated journal as lines, and the summary of a report.

It is told in crates/sample_journals: what each receipt becomes in README.md, the numbers in specs/Draws.antt.
Nothing here is taken from a program.
"""

import datetime

FIRST_DAY = datetime.date(2024, 1, 1)
DEBTORS_SERVED_BEFORE = datetime.timedelta(days=40)
CREDITOR = 5_000_000


class Draws:
    """A linear congruential generator over 64 bits; what is drawn are the upper 31 of them."""

    def __init__(self, seed):
        self.state = seed

    def below(self, bound):
        self.state = (self.state * 6364136223846793005 + 1442695040888963407) % 2**64
        return (self.state >> 33) % bound


class Folio:
    """What the generator keeps of a folio: rights are (number, holder)."""

    def __init__(self, number):
        self.number = self.owner = number
        self.newest = self.second = self.uncertified = None
        self.step = 0


def journal(seed, size):
    """Each stamped line of the journal."""
    draws = Draws(seed)
    folios = [Folio(number) for number in range(1, 2 + size // 16)]
    for k in range(1, size + 1):
        if k <= len(folios):
            item = opened(folios[k - 1])
        else:
            folio = folios[draws.below(len(folios))]
            item = turn(draws.below(11), k, folio, draws)
        yield {"day": str(day_of(k)), "minute": 480 + k % 64, "sender": 1, "reference": k, "item": item}


def day_of(k):
    return FIRST_DAY + datetime.timedelta(days=k // 64)


def turn(kind, k, folio, draws):
    if kind == 5:
        return transferred(k, folio)
    if kind == 6:
        folio.uncertified, item = k, created(folio, draws, "plain")[0]
        return item
    if kind == 7 and folio.uncertified:
        filing, folio.uncertified = folio.uncertified, None
        return {"kind": "cure", "filing": filing, "docs": [consent(folio.owner)]}
    if kind == 8 and folio.second:
        act = {"act": "exchange", "folio": folio.number, "recede": right(folio.second), "rise": right(folio.newest)}
        return filed(folio, act, [consent(folio.second[1]), consent(folio.owner)])
    if kind == 9 and folio.newest:
        gone, folio.newest, folio.second = folio.newest, folio.second, None
        return filed(folio, {"act": "cancel", "folio": folio.number, "right": right(gone)}, [consent(gone[1]), consent(folio.owner)])
    if kind == 10:
        return sale_item(k, folio)
    item, holder = created(folio, draws, "certified")
    folio.newest, folio.second = (k, holder), folio.newest
    return item


def opened(folio):
    n = folio.number
    act = {"act": "open", "folio": n, "district": 1, "parcel": n, "sub": 0, "area": 500, "owners": [n]}
    return filed(folio, act, [consent(n)])


def created(folio, draws, form):
    """A land charge, and its holder."""
    capital, holder = 100_000 * (1 + draws.below(50)), 1_000_001 + draws.below(20)
    act = {"act": "create", "folio": folio.number, "kind": "land-charge", "rate": 500, "capital": capital, "holder": holder, "group": 1}
    return filed(folio, act, [consent(folio.owner, form)]), holder


def transferred(k, folio):
    act = {"act": "transfer", "folio": folio.number, "owners": [2_000_000 + k]}
    item = filed(folio, act, [consent(folio.owner), {"doc": "agreement", "act": 1}, {"doc": "clearance", "act": 1}])
    folio.owner = 2_000_000 + k
    return item


def sale_item(k, folio):
    """The next step of a forced sale."""
    step, folio.step = folio.step, (folio.step + 1) % 4
    if step == 0:
        basis = {"type": "personal", "creditor": CREDITOR, "claim": 1_000_000}
        return {"kind": "seize", "folio": folio.number, "basis": basis, "served": str(day_of(k) - DEBTORS_SERVED_BEFORE)}
    if step == 1:
        return {"kind": "open-bids", "folio": folio.number, "costs": 10_000}
    if step == 2:
        folio.owner = 3_000_000 + k
        return {"kind": "award", "folio": folio.number, "buyer": folio.owner, "bid": 1_000_000_000}
    return {"kind": "distribute", "folio": folio.number}


def filed(folio, act, docs):
    return {"kind": "filing", "applicant": folio.owner, "conditional": False, "acts": [act], "docs": docs}


def consent(person, form="certified"):
    return {"doc": "consent", "act": 1, "person": person, "form": form}


def right(of):
    return {"receipt": of[0], "act": 1}


def cents(amount):
    return int(amount.replace(".", ""))


def euro(amount):
    return f"{amount // 100}.{amount % 100:02}"


def summary(text):
    """The ten lines that a report is summed up in (docs/formats/replies-and-report.md)."""
    lines = [line.split(" ") for line in text.splitlines()]
    verdicts = [words[2:] for words in lines if words[0] == "receipt"]
    first = [words[0] for words in verdicts]
    counts = {word: first.count(word) for word in ("entered", "rejected", "interim", "cured")}
    counts["rejected"] += first.count("filing")
    counts["other"] = len(verdicts) - sum(counts.values())
    rights = [words for words in lines if words[0] == "right"]
    capital = sum(cents(words[5]) for words in rights)
    paid = sum(cents(words[1]) for words in verdicts if words[0] == "distributed")
    folios = sum(words[0] == "folio" for words in lines)
    rows = {"receipts": len(verdicts), **counts, "folios": folios, "rights": len(rights), "capital": euro(capital), "paid": euro(paid)}
    return "".join(f"{word} {number}\n" for word, number in rows.items())
