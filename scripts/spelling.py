"""The bytes of a receipt, from the value of its stamped line.

The table is that of docs/formats/receipts.md; nothing here is taken from a program.
"""

import datetime

KINDS = ["filing", "cure", "lapse", "seize", "register", "open-bids", "award", "distribute", "extend"]
ACTS = ["open", "transfer", "create", "notice", "convert", "assign", "cancel", "exchange", "exercise"]
DOCS = ["consent", "agreement", "clearance", "expiry"]
FORMS = ["certified", "plain"]
RIGHTS = ["personal-easement", "usufruct", "mortgage", "land-charge"]
BASES = ["personal", "right"]
REGISTRATIONS = ["advance", "charge", "arrears"]


def u8(value):
    return value.to_bytes(1, "big")


def u16(value):
    return value.to_bytes(2, "big")


def u32(value):
    return value.to_bytes(4, "big")


def u64(value):
    return value.to_bytes(8, "big")


def tag(names, name):
    """The number of a name in its table, from 1."""
    return u8(names.index(name) + 1)


def counted(spell, values):
    return u8(len(values)) + b"".join(spell(value) for value in values)


def day(date):
    return u32((datetime.date.fromisoformat(date) - datetime.date(1970, 1, 1)).days)


def owners(persons):
    return counted(u32, persons)


def right(value):
    return u32(value["receipt"]) + u8(value["act"])


def spec(value):
    rate = u16(value["rate"]) if value["kind"] in ("mortgage", "land-charge") else b""
    return tag(RIGHTS, value["kind"]) + rate + u64(value["capital"]) + u32(value["holder"]) + u8(value["group"])


def reserve(value):
    return u8(1) + u64(value["reserve"]) if "reserve" in value else u8(0)


def inventory(value):
    return u16(value["district"]) + u32(value["parcel"]) + u16(value["sub"]) + u32(value["area"])


def act(value):
    what = {
        "open": lambda: inventory(value) + owners(value["owners"]),
        "transfer": lambda: owners(value["owners"]),
        "create": lambda: spec(value) + reserve(value),
        "notice": lambda: spec(value),
        "convert": lambda: right(value["right"]),
        "assign": lambda: right(value["right"]) + u32(value["holder"]),
        "cancel": lambda: right(value["right"]),
        "exchange": lambda: right(value["recede"]) + right(value["rise"]),
        "exercise": lambda: right(value["behind"]) + spec(value),
    }[value["act"]]
    return tag(ACTS, value["act"]) + u32(value["folio"]) + what()


def document(value):
    consent = u32(value["person"]) + tag(FORMS, value["form"]) if value["doc"] == "consent" else b""
    return tag(DOCS, value["doc"]) + u8(value["act"]) + consent


def basis(value):
    what = {
        "personal": lambda: u32(value["creditor"]) + u64(value["claim"]),
        "right": lambda: right(value["right"]),
    }[value["type"]]
    return tag(BASES, value["type"]) + what()


def registration(value):
    what = {
        "advance": lambda: u32(value["person"]) + u64(value["amount"]),
        "charge": lambda: u32(value["person"]) + u64(value["amount"]) + day(value["due"]),
        "arrears": lambda: right(value["right"]) + day(value["from"]) + day(value["until"]),
    }[value["type"]]
    return tag(REGISTRATIONS, value["type"]) + what()


def filing(value):
    head = u32(value["applicant"]) + u8(value["conditional"])
    return head + counted(act, value["acts"]) + counted(document, value["docs"])


def item(value):
    body = {
        "filing": lambda: filing(value),
        "cure": lambda: u32(value["filing"]) + counted(document, value["docs"]),
        "lapse": lambda: u32(value["filing"]),
        "seize": lambda: u32(value["folio"]) + basis(value["basis"]) + day(value["served"]),
        "register": lambda: u32(value["folio"]) + registration(value["what"]),
        "open-bids": lambda: u32(value["folio"]) + u64(value["costs"]),
        "award": lambda: u32(value["folio"]) + u32(value["buyer"]) + u64(value["bid"]),
        "distribute": lambda: u32(value["folio"]),
        "extend": lambda: u32(value["filing"]) + u16(value["days"]),
    }[value["kind"]]
    return tag(KINDS, value["kind"]) + body()


def receipt(line):
    """The spelling of a stamped line that is an item."""
    head = day(line["day"]) + u16(line["minute"]) + u32(line["sender"]) + u64(line["reference"])
    return head + item(line["item"])
