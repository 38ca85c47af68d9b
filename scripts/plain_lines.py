"""What a line is, told from its bytes alone, and what is replied to it.

The tables are those of docs/formats/lines.md, each object's members in their order; what is replied stands in
docs/formats/replies-and-report.md, and how a journal receives in docs/rules/receiving.md. Nothing here is taken
from a program.
"""

import datetime
import re

import plain_json
import spelling

# The most bytes of a line without its line feed.
LONGEST_LINE = 65_536
MOST_RECEIPTS = 200_000

# The kinds of rights that have a rate, and that exercise a reservation.
CHARGES = ("mortgage", "land-charge")

DATE = re.compile(r"[0-9]{4}-[0-9]{2}-[0-9]{2}")


class Wrong(Exception):
    """The value is no item; it has the path of what is wrong first."""


def joined(path, part):
    return f"{path}.{part}" if path else str(part)


class Whole:
    """A whole number of a range."""

    def __init__(self, low, high):
        self.low, self.high = low, high

    def test(self, value, path):
        if type(value) is not int or not self.low <= value <= self.high:
            raise Wrong(path)


class Day:
    """A date of a range."""

    def __init__(self, first, last):
        self.first, self.last = first, last

    def test(self, value, path):
        try:
            is_date = isinstance(value, str) and DATE.fullmatch(value) and datetime.date.fromisoformat(value)
        except ValueError:
            is_date = False
        if not is_date or not self.first <= value <= self.last:
            raise Wrong(path)


class Truth:
    """True or false."""

    def test(self, value, path):
        if not isinstance(value, bool):
            raise Wrong(path)


class Words:
    """One of these words."""

    def __init__(self, words):
        self.words = list(words)

    def test(self, value, path):
        if value not in self.words:
            raise Wrong(path)


class Array:
    """So many elements of a kind, maybe all different."""

    def __init__(self, kind, least, most, distinct=False):
        self.kind, self.least, self.most, self.distinct = kind, least, most, distinct

    def test(self, value, path):
        if not isinstance(value, list):
            raise Wrong(path)
        for number, element in enumerate(value):
            self.kind.test(element, joined(path, number))
        if not self.least <= len(value) <= self.most or (self.distinct and len(set(value)) < len(value)):
            raise Wrong(path)


class Object:
    """These members in this order and no others, and then the rule over the whole object, if there is one, with
    the member whose path a breach of it gives. `rate` is there exactly for charges, and `reserve` may be absent."""

    def __init__(self, members, rule=None):
        self.members, self.rule = members, rule

    def test(self, value, path):
        if not isinstance(value, dict):
            raise Wrong(path or "line")
        known = 0
        for name, kind in self.members.items():
            if name == "rate" and value["kind"] not in CHARGES:
                continue
            if name in value:
                kind.test(value[name], joined(path, name))
                known += 1
            elif name != "reserve":
                raise Wrong(joined(path, name))
        if known < len(value):
            raise Wrong(joined(path, "*"))
        if self.rule and not self.rule[1](value):
            raise Wrong(joined(path, self.rule[0]))


class OneOf:
    """One of these objects, which the first member tells by its word."""

    def __init__(self, tag, objects):
        self.tag, self.objects = tag, objects
        for one in objects.values():
            one.members = {tag: Words(objects), **one.members}

    def test(self, value, path):
        if not isinstance(value, dict):
            raise Wrong(path)
        word = value.get(self.tag)
        if not isinstance(word, str) or word not in self.objects:
            raise Wrong(joined(path, self.tag))
        self.objects[word].test(value, path)


def named_rights(act):
    """The rights that an act names, by their receipt and act."""
    return [(act[name]["receipt"], act[name]["act"]) for name in ("right", "recede", "rise", "behind") if name in act]


def keeps_rules(filing):
    """The rules over a whole filing."""
    acts = filing["acts"]
    owning = [act["folio"] for act in acts if act["act"] in ("open", "transfer")]
    rights = [right for act in acts for right in named_rights(act)]
    groups = [(act["folio"], act["group"]) for act in acts if "group" in act]
    alone = [(act["folio"], act["group"]) for act in acts if act["act"] == "exercise" or "reserve" in act]
    return (
        len({act["folio"] for act in acts}) <= 2
        and len(set(owning)) == len(owning)
        and len(set(rights)) == len(rights)
        and all(groups.count(group) == 1 for group in alone)
    )


SERIAL = Whole(1, 4_294_967_295)
AMOUNT = Whole(1, 10_000_000_000_000)
DATES = Day("1970-01-01", "2199-12-31")
RIGHT = Object({"receipt": SERIAL, "act": Whole(1, 8)})
OWNERS = Array(SERIAL, 1, 4, distinct=True)
SPEC = {"kind": Words(spelling.RIGHTS), "rate": Whole(0, 2_000), "capital": AMOUNT, "holder": SERIAL, "group": Whole(1, 8)}
LAND = {"district": Whole(1, 65_535), "parcel": Whole(1, 4_294_967_295), "sub": Whole(0, 65_535), "area": Whole(1, 1_000_000_000)}
FOLIO = {"folio": SERIAL}
ACT = OneOf("act", {
    "open": Object({**FOLIO, **LAND, "owners": OWNERS}),
    "transfer": Object({**FOLIO, "owners": OWNERS}),
    "create": Object({**FOLIO, **SPEC, "reserve": AMOUNT}),
    "notice": Object({**FOLIO, **SPEC}),
    "convert": Object({**FOLIO, "right": RIGHT}),
    "assign": Object({**FOLIO, "right": RIGHT, "holder": SERIAL}),
    "cancel": Object({**FOLIO, "right": RIGHT}),
    "exchange": Object({**FOLIO, "recede": RIGHT, "rise": RIGHT}),
    "exercise": Object({**FOLIO, "behind": RIGHT, **SPEC, "kind": Words(CHARGES)}),
})
DOC_ACT = {"act": Whole(1, 8)}
DOCUMENT = OneOf("doc", {
    "consent": Object({**DOC_ACT, "person": SERIAL, "form": Words(spelling.FORMS)}),
    "agreement": Object({**DOC_ACT}),
    "clearance": Object({**DOC_ACT}),
    "expiry": Object({**DOC_ACT}),
})
BASIS = OneOf("type", {
    "personal": Object({"creditor": SERIAL, "claim": AMOUNT}),
    "right": Object({"right": RIGHT}),
})
REGISTRATION = OneOf("type", {
    "advance": Object({"person": SERIAL, "amount": AMOUNT}),
    "charge": Object({"person": SERIAL, "amount": AMOUNT, "due": DATES}),
    "arrears": Object({"right": RIGHT, "from": DATES, "until": DATES}),
})
DOCS = Array(DOCUMENT, 0, 32)
ITEM = OneOf("kind", {
    "filing": Object({"applicant": SERIAL, "conditional": Truth(), "acts": Array(ACT, 1, 8), "docs": DOCS}, ("acts", keeps_rules)),
    "cure": Object({"filing": SERIAL, "docs": DOCS}),
    "lapse": Object({"filing": SERIAL}),
    "extend": Object({"filing": SERIAL, "days": Whole(1, 90)}),
    "seize": Object({**FOLIO, "basis": BASIS, "served": DATES}),
    "register": Object({**FOLIO, "what": REGISTRATION}),
    "open-bids": Object({**FOLIO, "costs": AMOUNT}),
    "award": Object({**FOLIO, "buyer": SERIAL, "bid": AMOUNT}),
    "distribute": Object({**FOLIO}),
})
STAMP = {"day": Day("2000-01-01", "2149-12-31"), "minute": Whole(0, 1_439)}
UNSTAMPED_LINE = Object({"sender": Whole(0, 4_294_967_295), "reference": Whole(0, 18_446_744_073_709_551_615), "item": ITEM})
STAMPED_LINE = Object({**STAMP, **UNSTAMPED_LINE.members})


def is_blank(line):
    return not line.strip(b" \t\r")


def read(text, form):
    """The value of a text that is an item in this form of a line, and none where it is none; and what is replied to it then."""
    try:
        value = plain_json.value_of(text)
        form.test(value, "")
    except plain_json.NotJson:
        return None, "malformed json"
    except Wrong as wrong:
        return None, f"malformed {wrong}"
    return value, None


class Journal:
    """What a journal has, as far as a reply asks for it."""

    def __init__(self):
        # The bytes of the items, by their number less one, and the number of each sender and reference.
        self.items, self.numbers = [], {}

    def received(self, value):
        """What is replied to an item that comes in."""
        key, item = (value["sender"], value["reference"]), spelling.item(value["item"])
        number = self.numbers.get(key)
        if number is not None:
            return f"repeated {number}" if self.items[number - 1] == item else f"differs {number}"
        if len(self.items) == MOST_RECEIPTS:
            return "full"
        self.items.append(item)
        self.numbers[key] = len(self.items)
        return f"accepted {len(self.items)}"

    def receipts(self):
        """The bytes of each receipt behind its stamp."""
        return [spelling.u32(sender) + spelling.u64(reference) + item for (sender, reference), item in zip(self.numbers, self.items)]

    def reply_to(self, line, form):
        """The reply to a line in this form, and none to a blank one."""
        if is_blank(line):
            return None
        if len(line) > LONGEST_LINE:
            return "malformed length"
        value, refusal = read(line, form)
        return refusal or self.received(value)
