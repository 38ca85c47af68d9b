"""Lines of JSON that are no items, each with the path of its first wrong place.

For each kind of item, act, document, basis and registration there is one line that is an item, and for
each member of it the values that it must not have: absent, of another kind, below its range, above
it. The members and their ranges are those of plain_lines.py; nothing here is taken from a program.

    scripts/wrong_lines.py             prints 'PATH<tab>LINE' for each wrong line
    scripts/wrong_lines.py --good      prints the lines that are items
    scripts/wrong_lines.py --lines     prints all lines, also those that are no JSON
    scripts/wrong_lines.py --answers   prints for each of these what it is, as it is handed in and
                                       as a stamped line; an item of a stamped line with its
                                       spelling as a receipt
"""

import copy
import json
import sys

import plain_lines
import spelling

ABSENT = object()

SERIAL = ["7", 0, 4294967296, 7.5]
AMOUNT = [False, 0, 10000000000001]
# Days that February has in other years.
NO_DAYS = ["2023-02-29", "2100-02-29"]
DATE = [
    20240301, "", "1969-12-31", "2200-01-01", "2024-3-01", "2024-03-01 ", "2024/03/01", "2O24-03-01", "+024-03-01", "2024-00-01",
    "2024-13-01", "2024-03-00", "2024-02-30", "2024-04-31", *NO_DAYS,
]
STAMP_DAY = DATE + ["1999-12-31", "2150-01-01"]
TRUTH = [0, "false", None]
OBJECT = ["right", [], None]
ARRAY = [{}, None, 1]
ARRAYS = {"acts": ARRAY + [[]], "docs": ARRAY, "owners": ARRAY + [[], [1, 2, 3, 4, 5], [10, 10]]}

# Members whose values stand in a text elsewhere, and these texts.
QUOTED = {"sender": "1", "reference": "1", "minute": "9"}

# A word that is none, by the first of the right ones.
OTHER_WORDS = {
    "open": "sell", "personal-easement": "Mortgage", "mortgage": "Mortgage", "consent": "will", "certified": "sealed",
    "personal": "public", "advance": "costs", "filing": "deed",
}


def wrong_values(name, kind):
    """Values that a member of this name and kind must not have."""
    if kind is plain_lines.SERIAL:
        return SERIAL
    if kind is plain_lines.AMOUNT:
        return AMOUNT
    match kind:
        case plain_lines.Whole():
            return [QUOTED.get(name), kind.low - 1, kind.high + 1]
        case plain_lines.Words():
            return [1, "", OTHER_WORDS[kind.words[0]]]
        case plain_lines.Day():
            return DATE if kind is plain_lines.DATES else STAMP_DAY
        case plain_lines.Truth():
            return TRUTH
        case plain_lines.Array():
            return ARRAYS[name]
    return OBJECT


def values_of(one):
    """The members of an object in their order, with values that are wrong."""
    values = {name: wrong_values(name, kind) for name, kind in one.members.items()}
    if "reserve" in values:
        values["reserve"] = AMOUNT + [None]
    return values


def values_of_each(kinds):
    return {word: values_of(one) for word, one in kinds.objects.items()}


RIGHT = values_of(plain_lines.RIGHT)
ACTS = values_of_each(plain_lines.ACT)
ACTS["open"]["owners"] = ACTS["open"]["owners"] + [[1, 2, 1]]
# A notice of a right that has no rate.
WITHOUT_RATE = {name: values for name, values in ACTS["notice"].items() if name != "rate"}
DOCS = values_of_each(plain_lines.DOCUMENT)
BASES = values_of_each(plain_lines.BASIS)
REGISTRATIONS = values_of_each(plain_lines.REGISTRATION)
ITEMS = values_of_each(plain_lines.ITEM)
LINE = values_of(plain_lines.UNSTAMPED_LINE)
STAMPED = values_of(plain_lines.STAMPED_LINE)

# One of each.
A_RIGHT = {"receipt": 3, "act": 2}
A_CHARGE = {"kind": "land-charge", "rate": 500, "capital": 10000000, "holder": 20, "group": 1}
AN_ACT = {
    "open": {"act": "open", "folio": 7, "district": 12, "parcel": 345, "sub": 6, "area": 800, "owners": [10]},
    "transfer": {"act": "transfer", "folio": 7, "owners": [10, 11]},
    "create": {"act": "create", "folio": 7, **A_CHARGE, "reserve": 5000000},
    "notice": {"act": "notice", "folio": 7, **A_CHARGE},
    "convert": {"act": "convert", "folio": 7, "right": A_RIGHT},
    "assign": {"act": "assign", "folio": 7, "right": A_RIGHT, "holder": 20},
    "cancel": {"act": "cancel", "folio": 7, "right": A_RIGHT},
    "exchange": {"act": "exchange", "folio": 7, "recede": A_RIGHT, "rise": {"receipt": 3, "act": 1}},
    "exercise": {"act": "exercise", "folio": 7, "behind": A_RIGHT, **A_CHARGE},
}
A_DOC = {
    "consent": {"doc": "consent", "act": 1, "person": 10, "form": "certified"},
    "agreement": {"doc": "agreement", "act": 1},
    "clearance": {"doc": "clearance", "act": 1},
    "expiry": {"doc": "expiry", "act": 1},
}
A_BASIS = {
    "personal": {"type": "personal", "creditor": 20, "claim": 1},
    "right": {"type": "right", "right": A_RIGHT},
}
A_REGISTRATION = {
    "advance": {"type": "advance", "person": 20, "amount": 1},
    "charge": {"type": "charge", "person": 20, "amount": 1, "due": "2024-02-29"},
    "arrears": {"type": "arrears", "right": A_RIGHT, "from": "2023-01-01", "until": "2024-01-01"},
}


def filing(acts, docs):
    return {"kind": "filing", "applicant": 10, "conditional": False, "acts": acts, "docs": docs}


AN_ITEM = {
    "filing": filing([AN_ACT["open"]], [A_DOC["consent"]]),
    "cure": {"kind": "cure", "filing": 1, "docs": [A_DOC["consent"]]},
    "lapse": {"kind": "lapse", "filing": 1},
    "extend": {"kind": "extend", "filing": 1, "days": 30},
    "seize": {"kind": "seize", "folio": 7, "basis": A_BASIS["personal"], "served": "2024-03-01"},
    "register": {"kind": "register", "folio": 7, "what": A_REGISTRATION["advance"]},
    "open-bids": {"kind": "open-bids", "folio": 7, "costs": 1},
    "award": {"kind": "award", "folio": 7, "buyer": 30, "bid": 1},
    "distribute": {"kind": "distribute", "folio": 7},
}


def line(item):
    return {"sender": 1, "reference": 1, "item": item}


def stamped(item):
    return {"day": "2024-03-01", "minute": 540, **line(item)}


def compact(value):
    return json.dumps(value, separators=(",", ":"))


def at(value, path):
    for part in path:
        value = value[part]
    return value


def named(path):
    return ".".join(str(part) for part in path)


def wrong_members(good, path, members):
    """The wrong values of each member of the object at this place of the line, and one member more."""
    for name, values in members.items():
        optional = name == "reserve"
        for value in ([] if optional else [ABSENT]) + values:
            bad = copy.deepcopy(good)
            owner = at(bad, path)
            if value is ABSENT:
                del owner[name]
            else:
                owner[name] = value
            yield named(path + [name]), bad
    bad = copy.deepcopy(good)
    at(bad, path)["x"] = 1
    yield named(path + ["*"]), bad


def wrong_elements(good, path, values):
    """Elements after the first that are wrong."""
    for value in values:
        bad = copy.deepcopy(good)
        at(bad, path).append(value)
        yield named(path + [len(at(good, path))]), bad


def good_lines():
    """Each kind of line, with the way to the object that is peculiar to it, and that one's members."""
    for name, item in AN_ITEM.items():
        yield line(item), ["item"], ITEMS[name]
    for name, act in AN_ACT.items():
        yield line(filing([act], [])), ["item", "acts", 0], ACTS[name]
    for name in ("personal-easement", "usufruct"):
        act = {"act": "notice", "folio": 7, "kind": name, "capital": 1, "holder": 20, "group": 8}
        yield line(filing([act], [])), ["item", "acts", 0], WITHOUT_RATE
    mortgage = {**AN_ACT["create"], "kind": "mortgage", "rate": 0}
    yield line(filing([mortgage], [])), ["item", "acts", 0], ACTS["create"]
    for name, doc in A_DOC.items():
        yield line(filing([AN_ACT["open"]], [doc])), ["item", "docs", 0], DOCS[name]
    docs = [dict(A_DOC["consent"]) for _ in range(32)]
    yield line({"kind": "cure", "filing": 1, "docs": docs}), ["item", "docs", 31], DOCS["consent"]
    for name, basis in A_BASIS.items():
        yield line({**AN_ITEM["seize"], "basis": basis}), ["item", "basis"], BASES[name]
    for name, registration in A_REGISTRATION.items():
        yield line({**AN_ITEM["register"], "what": registration}), ["item", "what"], REGISTRATIONS[name]
    for act, name in [("convert", "right"), ("exchange", "recede"), ("exchange", "rise"), ("exercise", "behind")]:
        yield line(filing([AN_ACT[act]], [])), ["item", "acts", 0, name], RIGHT
    yield line(AN_ITEM["lapse"]), [], LINE
    yield stamped(AN_ITEM["lapse"]), [], STAMPED


def wrong_arrays():
    acts = line(filing([AN_ACT["open"]], []))
    yield from wrong_elements(acts, ["item", "acts"], [1, "open", None, []])
    owners = line(filing([AN_ACT["transfer"]], []))
    yield from wrong_elements(owners, ["item", "acts", 0, "owners"], [0, "10", 4294967296, None])
    docs = line(AN_ITEM["cure"])
    yield from wrong_elements(docs, ["item", "docs"], [1, "consent", None, []])
    # All elements are tested before they are counted.
    many = [AN_ACT["assign"]] * 9
    yield "item.acts", line(filing(many, []))
    yield "item.acts.8.folio", line(filing(many[:8] + [{"act": "cancel", "folio": 0}], []))
    yield "item.docs", line(filing([AN_ACT["open"]], [A_DOC["consent"]] * 33))
    yield "item.docs.33.doc", line(filing([AN_ACT["open"]], [A_DOC["consent"]] * 33 + [{}]))
    yield "item.acts.0.owners.4", line(filing([{**AN_ACT["transfer"], "owners": [1, 1, 2, 3, 0]}], []))


def wrong_specs():
    usufruct = {"act": "create", "folio": 7, "kind": "usufruct", "capital": 1, "holder": 20, "group": 1}
    for rate in (0, 500, 2001, "x"):
        yield "item.acts.0.*", line(filing([{**usufruct, "rate": rate}], []))
    yield "item.acts.0.*", line(filing([{**AN_ACT["notice"], "reserve": 1}], []))
    yield "item.acts.0.*", line(filing([{**AN_ACT["exercise"], "reserve": 1}], []))
    for kind in ("personal-easement", "usufruct"):
        yield "item.acts.0.kind", line(filing([{**AN_ACT["exercise"], "kind": kind}], []))


def wrong_filings():
    """The rules over a whole filing."""
    opening = AN_ACT["open"]
    three = [{**opening, "folio": folio} for folio in (7, 8, 9)]
    twice = [opening, {"act": "transfer", "folio": 7, "owners": [11]}]
    same_right = [AN_ACT["cancel"], {**AN_ACT["assign"], "folio": 8}]
    swap = [{**AN_ACT["exchange"], "rise": A_RIGHT}]
    reserved = [AN_ACT["create"], {"act": "notice", "folio": 7, **A_CHARGE}]
    exercised = [{**A_CHARGE, "act": "create", "folio": 7}, AN_ACT["exercise"]]
    for acts in (three, twice, same_right, swap, reserved, exercised):
        yield "item.acts", line(filing(acts, []))


def wrong_order():
    """Of two wrong places the first is named."""
    bad_act = {**AN_ACT["convert"], "x": 1}
    twice = [AN_ACT["open"], AN_ACT["transfer"]]
    yield "item.acts.0.*", line(filing([bad_act], 5))
    yield "item.docs", line(filing(twice, 5))
    yield "item.*", line({**filing(twice, []), "x": 1})
    yield "item.acts", {**line(filing(twice, [])), "x": 1}
    yield "item.applicant", line({**filing([], []), "applicant": 0})
    yield "item.kind", line({"folio": 0})
    yield "item.acts.0.act", line(filing([{"folio": 0}], []))
    yield "item.acts.0.right.receipt", line(filing([{**AN_ACT["assign"], "right": {"act": 9}, "holder": 0}], []))


def wrong_texts():
    """Lines that no value of Python writes: numbers that are whole only by their value, and no objects."""
    good = compact(line(AN_ITEM["lapse"]))
    for number in ("1.0", "1e0", "1E3", "10e-1", "-1", "-0", "1.5"):
        yield "item.filing", good.replace('"filing":1', '"filing":' + number)
    for text in ("[1]", "1", '"line"', "null", "true"):
        yield "line", text


def nested(depth):
    """Arrays that nest so deep, with nothing inside."""
    return "[" * depth + "]" * depth


def with_array(number):
    """A line with one member more, which has this number in an array."""
    return compact(line(AN_ITEM["distribute"])).replace('"folio":7', f'"folio":7,"x":[{number}]')


def wrong_readings():
    """Lines that a reader of JSON may take for others: how deep they nest, numbers beyond what a double
    holds, and a name that comes twice, of which the last value counts."""
    yield "line", nested(127)
    for number in ("1e308", "-1e308", "18446744073709551616"):
        yield "item.*", with_array(number)
    good = compact(stamped(AN_ITEM["lapse"]))
    yield "minute", good.replace('"sender":1', '"sender":0,"minute":"x","sender":1')
    yield "item.filing", good.replace('"filing":1', '"filing":1,"filing":0')


def right_readings():
    """Lines that are items, though they are not written as Python writes them, each with its value."""
    filed = stamped(AN_ITEM["filing"])
    escaped = compact(filed).replace('"kind":"filing","applicant"', '"k\\u0069nd":"fil\\u0069ng","\\u0061pplicant"')
    yield escaped, filed
    yield compact(filed).replace('"minute":540', '"minute":"x","minute":540'), filed
    yield compact(filed).replace('"area":800', '"area":0,"area":800'), filed
    spaced = json.dumps(dict(reversed(filed.items())), separators=(" ,\t", " : "))
    yield f" {spaced}\t", filed


def lines_at_the_ends():
    """Stamped lines whose values are the least and the greatest, and dates around the ends of months."""
    most = 4294967295
    last_right = {"receipt": most, "act": 8}
    land = {"district": 65535, "parcel": most, "sub": 65535, "area": 1000000000, "owners": [most, 1, 2, 3]}
    charge = {"kind": "mortgage", "rate": 2000, "capital": 10000000000000, "holder": most, "group": 8}
    acts = [
        {"act": "open", "folio": most, **land},
        {"act": "create", "folio": most, **charge, "reserve": 10000000000000},
        {"act": "assign", "folio": 1, "right": last_right, "holder": most},
    ]
    docs = [{"doc": "consent", "act": 8, "person": most, "form": "plain"}, {"doc": "expiry", "act": 8}]
    yield {**line({**filing(acts, docs), "applicant": most, "conditional": True}), "day": "2149-12-31", "minute": 1439, "sender": most}
    least = {"act": "open", "folio": 1, "district": 1, "parcel": 1, "sub": 0, "area": 1, "owners": [1]}
    yield {**line({**filing([least], []), "applicant": 1}), "day": "2000-01-01", "minute": 0, "sender": 0, "reference": 0}
    yield {**stamped({"kind": "lapse", "filing": most}), "reference": 18446744073709551615}
    yield stamped({"kind": "extend", "filing": most, "days": 90})
    yield stamped({**AN_ITEM["extend"], "days": 1})
    yield stamped({"kind": "award", "folio": most, "buyer": most, "bid": 10000000000000})
    yield stamped({**AN_ITEM["seize"], "basis": {"type": "right", "right": last_right}})
    for date in (
        "1970-01-01", "1999-12-31", "2000-01-01", "2000-02-29", "2024-01-01", "2024-02-29", "2024-12-31", "2025-02-28", "2100-02-28",
        "2100-03-01", "2149-12-31", "2199-12-31",
    ):
        yield stamped({**AN_ITEM["register"], "what": {**A_REGISTRATION["charge"], "due": date}})


NO_JSON = [
    "", " ", "{", "[1,]", "{'a':1}", "nul", "01", "1 2", '{"sender":1,}', nested(128), with_array("1e309"), with_array("-1e309"),
]


def wrong_lines():
    """Pairs of a path and a line that is JSON and no item."""
    for good, path, members in good_lines():
        for wrong, value in wrong_members(good, path, members):
            yield wrong, compact(value)
    for cases in (wrong_arrays(), wrong_specs(), wrong_filings(), wrong_order()):
        for wrong, value in cases:
            yield wrong, compact(value)
    yield from wrong_texts()
    yield from wrong_readings()


def right_lines():
    for good, _, _ in good_lines():
        yield compact(good)


def is_stamped(text):
    """Whether a line was made from a stamped one."""
    return '"day":' in text or '"minute":' in text


def stamped_lines():
    """A stamped line of each kind of item, with other numbers in each."""
    for number, (good, _, _) in enumerate(good_lines()):
        yield {**stamped(good["item"]), "minute": number, "sender": number << 24, "reference": number << 56}
    yield from lines_at_the_ends()


def answers():
    """Triples of a line and what it is, as it is handed in and as a stamped line."""
    for text in right_lines():
        if not is_stamped(text):
            yield text, "item", "malformed day"
    written = [(compact(value), value) for value in stamped_lines()]
    for text, value in [*written, *right_readings()]:
        yield text, "malformed *", "item " + spelling.receipt(value).hex()
    for path, text in wrong_lines():
        wrong = "malformed " + path
        if not is_stamped(text):
            yield text, wrong, wrong if path == "line" else "malformed day"
        elif path in ("day", "minute", "*"):
            yield text, "malformed *", wrong
        else:
            yield text, wrong, wrong
    for text in NO_JSON:
        yield text, "malformed json", "malformed json"


def main():
    word = sys.argv[1] if len(sys.argv) > 1 else ""
    if word == "--lines":
        for text, _, _ in answers():
            print(text)
    elif word == "--answers":
        for _, handed_in, stamped_line in answers():
            print(handed_in + "\t" + stamped_line)
    elif word == "--good":
        for text in right_lines():
            print(text)
    else:
        for path, text in wrong_lines():
            print(path + "\t" + text)


if __name__ == "__main__":
    main()
