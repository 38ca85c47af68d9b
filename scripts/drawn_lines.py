"""Lines that are drawn: items of each kind with values at their limits and between them, the same and other items
under numbers that came before, and all of these spoiled, in their members, their numbers, their words or their bytes.

What a line is and what is replied to it is not known here: plain_lines.py tells it from the bytes.
"""

import copy
import datetime
import itertools
import json

import plain_lines

# How many lines are kept to be sent again.
KEPT = 200

DAYS = [
    "1970-01-01", "1999-12-31", "2000-01-01", "2000-02-29", "2024-02-29", "2024-12-31", "2100-02-28", "2149-12-31", "2150-01-01",
    "2199-12-31",
]

# What is written in the place of a value: no such value, or no JSON at all.
VALUES = [
    "null", "true", "false", '""', '"x"', "[]", "{}", "[[]]", '{"x":1}', "0", "1", "9", "33", "-1", "-0", "-7", "0.0", "1.0", "7.5", "1e0",
    "1e2", "1E+2", "10e-1", "-1e-3", "65535", "65536", "4294967295", "4294967296", "10000000000000", "10000000000001",
    "18446744073709551615", "18446744073709551616", "1e308", "-1e308", "1.7976931348623157e308", "1.7976931348623158e308",
    "1e-999", "0e99999999999999999999", "9" * 308, "0." + "0" * 400 + "1e400", "1" + "0" * 400 + "e-200",
    '"2023-02-29"', '"1969-12-31"', '"1999-12-31"', '"2150-01-01"', '"2200-01-01"', '"2024-3-01"', '"2024-03-01T"', '"0000-01-01"',
    '"٢٠٢٤-03-01"', '"\\u0032024-03-01"', '"mortgage"', '"usufruct"', '"Filing"', '"lapse "', '"\\ud83d\\ude00"', '"\x7f\u0080\ufeff\U0010ffff"',
    '"\\/\\b\\f\\n\\r\\t\\"\\\\"', '"\\u0000"', "[" * 100 + "]" * 100, '{"a":' * 100 + "1" + "}" * 100,
]
NO_VALUES = [
    "", "01", "-01", "+1", "1.", ".5", "1e", "1e+", "-", "--1", "1_000", "0x1", "NaN", "Infinity", "-Infinity", "nul", "True", "1 2", "1e309",
    "-1e309", "1.7976931348623159e308", "9" * 309, "1" + "0" * 400, "'x'", '"', '"\t"', '"\x00"', '"\\x"', '"\\u12"', '"\\u12g4"', '"\\ud800"',
    '"\\udc00"', '"\\ude00\\ud83d"', '"\\ud800x"', "[1,]", "[,1]", "[1", "{}}", '{"a"}', '{"a":}', '{a:1}', '{"a":1,}', '{"a" 1}', "[1 2]",
    "/**/1", "[" * 130 + "]" * 130, '{"a":' * 130 + "1" + "}" * 130,
]
# How deep arrays may nest depends on where they stand.
DEEP = range(118, 129)

PIECES = [
    b"\xef\xbb\xbf", b"\xff", b"\xc0\x80", b"\xed\xa0\x80", b"\xf4\x90\x80\x80", b"\xc3", b"\xe2\x82", b"\xf0\x9f\x98\x80", b"\xc2\xa0", b"\xe2\x80\xa8",
    b"\x00", b"\x0b", b"\x0c", b"\r", b"\t", b" ", b",", b":", b'"', b"\\", b"{", b"}", b"[", b"]", b"0", b"-", b".", b"e", b"x", b"//", b"#",
]
TEXTS = [
    b"null", b"true", b"1", b"-0", b"1e999", b'"line"', b"[]", b"[1]", b"{}", b"{", b"}", b'{"":1}', b'{"item":{}}', b"\xef\xbb\xbf{}", b"\x00", b"\x0b", b"\xc2\xa0",
    b"accepted 1", b"GET / HTTP/1.1",
]
BLANKS = [b"", b" ", b"\t", b"\r", b" \t\r", b"\r\r", b" " * plain_lines.LONGEST_LINE, b"\r" * (plain_lines.LONGEST_LINE + 1)]


class Written(str):
    """A value that is written as it stands."""


class Twice:
    """The two values of a member that comes twice."""

    def __init__(self, first, second):
        self.values = first, second


def day_beside(day, days):
    """The day that is so many later."""
    return str(datetime.date.fromisoformat(day) + datetime.timedelta(days))


def both(name, value):
    """The members that stand for this one."""
    return [(name, each) for each in (value.values if isinstance(value, Twice) else (value,))]


def places(value):
    """Each place in a value."""
    for name, inner in value.items() if isinstance(value, dict) else enumerate(value):
        yield value, name
        if isinstance(inner, (dict, list)):
            yield from places(inner)


class DrawnLines:
    """Draws lines of a form, with this white space between their parts. Some come again, as they were or with something else."""

    def __init__(self, chance, form, space=" \t\r"):
        self.chance, self.form, self.space = chance, form, space
        self.kept = []
        # How many values are drawn until one is beyond its limit; 0 where none is to be.
        self.left = 0

    def line(self):
        """The bytes of the next line, without its line feed."""
        draw = self.chance.randrange(100)
        if draw < 1:
            return self.text()
        value = self.known() if self.kept and draw < 20 else self.fresh()
        if draw < 58:
            return self.written(value).encode()
        if draw < 64:
            return self.written(self.beyond()).encode()
        text = (self.written(self.spoiled(value), is_whole=False) if draw < 90 else self.written(value)).encode()
        return self.spoiled_bytes(text) if draw >= 88 else text

    def text(self):
        """No object, or a line whose length is at the limit."""
        draw = self.chance.randrange(60)
        if draw:
            return self.chance.choice(TEXTS if draw < 40 else BLANKS[:-2])
        line = self.written(self.fresh()).encode()
        size = plain_lines.LONGEST_LINE + self.chance.randint(-1, 1)
        return self.chance.choice([line.ljust(size), line.rjust(size), line[:-1].ljust(size - 1) + line[-1:], *BLANKS[-2:]])

    # ---- items

    def fresh(self):
        """A line whose number seldom came before."""
        value = self.value(self.form)
        if self.chance.randrange(8):
            value["reference"] = self.chance.randrange(2**64)
        self.kept.append(value)
        if len(self.kept) > KEPT:
            self.kept.pop(self.chance.randrange(KEPT))
        return value

    def beyond(self):
        """A line in which a value is just beyond its limit, if there are so many values before it."""
        self.left = self.chance.randint(1, 30)
        value = self.value(self.form)
        self.left = 0
        return value

    def is_beyond(self):
        """Whether the value that is drawn now is the one that is to be beyond its limit."""
        self.left -= 1
        return self.left == 0

    def known(self):
        """A line that came before: as it was, with another stamp, or with another item."""
        value = dict(self.chance.choice(self.kept))
        draw = self.chance.randrange(6)
        if draw < 2 and "day" in value:
            value["day"] = self.value(self.form.members["day"])
        if draw == 2:
            value["item"] = self.value(plain_lines.ITEM)
        if draw == 3:
            value = copy.deepcopy(value)
            owner, name = self.place(value)
            if type(owner[name]) is int:
                owner[name] += self.chance.choice([-1, 1])
        return value

    def value(self, kind):
        """A value of a kind, often at a limit of its range."""
        chance = self.chance
        match kind:
            case plain_lines.Whole():
                if self.is_beyond():
                    return chance.choice([kind.low - 1, kind.high + 1])
                near = chance.randint(kind.low, min(kind.low + 3, kind.high))
                return chance.choice([near, near, near, kind.low, kind.high, chance.randint(kind.low, kind.high)])
            case plain_lines.Day():
                if self.is_beyond():
                    return chance.choice([day_beside(kind.first, -1), day_beside(kind.last, 1)])
                among = [*DAYS, day_beside("1970-01-01", chance.randrange(84_006)), kind.first, kind.last]
                return chance.choice([day for day in among if kind.first <= day <= kind.last])
            case plain_lines.Words():
                return chance.choice(kind.words)
            case plain_lines.Array():
                return self.array(kind)
            case plain_lines.OneOf():
                words = list(kind.objects)
                word = words[0] if kind is plain_lines.ITEM and chance.randrange(2) else chance.choice(words)
                return self.object(kind.objects[word], {kind.tag: word})
            case plain_lines.Object():
                return self.object(kind, {})
        return chance.choice([False, True])

    def array(self, kind):
        count = self.chance.choice([kind.least, 1, 1, 1, 1, 2, 2, 3, 4, self.chance.choice([kind.least, kind.most])])
        if self.is_beyond():
            count = self.chance.choice([kind.most + 1, max(0, kind.least - 1)])
        values = [self.value(kind.kind) for _ in range(count)]
        if kind.distinct:
            values = list(dict.fromkeys(values)) if count <= kind.most else list(range(1, count + 1))
        if kind.kind is plain_lines.ACT and self.chance.randrange(4):
            values = self.acts_by_the_rules(values)
        return values

    def acts_by_the_rules(self, acts):
        """As many acts, mostly of one folio, each of which keeps the rules with the ones before it; fewer where the
        draws do not bring them."""
        kept, others = [], (self.value(plain_lines.ACT) for _ in range(2 * len(acts)))
        for act in itertools.chain(acts, others):
            if len(kept) == len(acts):
                break
            if kept and self.chance.randrange(4):
                act["folio"] = self.chance.choice(kept)["folio"]
            if plain_lines.keeps_rules({"acts": [*kept, act]}):
                kept.append(act)
        return kept

    def object(self, kind, value):
        """The value with the members that it lacks."""
        for name, of in kind.members.items():
            if name == "rate" and value["kind"] not in plain_lines.CHARGES or name == "reserve" and self.chance.randrange(2):
                continue
            if name not in value:
                value[name] = self.value(of)
        return value

    # ---- spoiling

    def place(self, value):
        """A place in a value, mostly in its item: the object or array, and the name or number of what stands there."""
        if isinstance(value.get("item"), dict) and value["item"] and self.chance.randrange(6):
            value = value["item"]
        return self.chance.choice(list(places(value)))

    def spoiled(self, value):
        """The value with something else at one place of it, or at two."""
        value = copy.deepcopy(value)
        for _ in range(self.chance.choice([1, 1, 1, 2])):
            if not value:
                break
            owner, name = self.place(value)
            if not isinstance(owner[name], Twice):
                self.chance.choice([self.other_value, self.other_value, self.absent, self.twice, self.renamed, self.more])(owner, name)
        return value

    def other_value(self, owner, name):
        old = owner[name]
        draw = self.chance.randrange(8)
        if draw == 0:
            owner[name] = self.chance.choice([[old], {str(name): old}, [], {}])
        elif draw == 1 and type(old) in (int, str):
            numbers = [Written(text.format(old)) for text in ("{}.0", "{}.", "{}e0", "{}E", "-{}", "+{}", "0{}")]
            owner[name] = self.chance.choice([f"{old}", f"{old} ", *numbers])
        elif draw == 2 and type(old) is int:
            owner[name] = old + self.chance.choice([-1, 1])
        elif draw == 3 and isinstance(old, list):
            owner[name] = self.chance.choice([old * 2, old * 9, old + [0], old[:-1]])
        elif draw == 4:
            depth = self.chance.choice(DEEP)
            owner[name] = Written("[" * depth + "]" * depth)
        else:
            owner[name] = Written(self.chance.choice(VALUES if self.chance.randrange(4) else NO_VALUES))

    def absent(self, owner, name):
        del owner[name]

    def twice(self, owner, name):
        """The member comes twice, with two values."""
        old, other = owner[name], Written(self.chance.choice(VALUES))
        if isinstance(owner, list):
            owner.append(old)
        else:
            owner[name] = self.chance.choice([Twice(other, old), Twice(old, other), Twice(old, old)])

    def renamed(self, owner, name):
        if isinstance(owner, dict):
            other = self.chance.choice([name.upper(), name + " ", name[:-1], name + "\0", "\u017f" + name[1:], self.some_name()])
            owner[other] = owner.pop(name)

    def more(self, owner, name):
        if isinstance(owner, dict):
            owner.setdefault(self.some_name(), Written(self.chance.choice(VALUES)))
        else:
            owner.insert(name, Written(self.chance.choice(VALUES)))

    def some_name(self):
        return self.chance.choice(["x", "", "kind", "act", "rate", "reserve", "day", "minute", "sender", "folio", "owners", "docs", "right", "due"])

    def spoiled_bytes(self, text):
        """The bytes with a piece put in, taken out or changed, or cut short."""
        at, piece = self.chance.randint(0, len(text)), self.chance.choice([*PIECES, bytes([self.chance.randrange(11, 256)])])
        size = self.chance.choice([1, 1, 1, 2, 5])
        return self.chance.choice([
            text[:at], text[:at] + piece + text[at:], text[:at] + text[at + size :], text[:at] + piece + text[at + len(piece) :],
            piece + text, text + piece, text + text, text + b"\r", self.chance.choice([text, text[:-1]]) + b" " * size,
        ])

    # ---- writing

    def written(self, value, is_whole=True):
        """The value as JSON: mostly as short as can be, and else with white space, another order of members and escapes."""
        draw = self.chance.randrange(5)
        if draw > 1 and is_whole:
            return json.dumps(value, ensure_ascii=False, separators=(",", ":"))
        if draw > 1:
            return self.json(value, lambda: "", lambda text: json.dumps(text, ensure_ascii=False))
        return self.json(value, self.blank, self.quoted if draw else json.dumps, mixed=True)

    def json(self, value, blank, quoted, mixed=False):
        if isinstance(value, Written):
            return value
        if isinstance(value, str):
            return quoted(value)
        if isinstance(value, dict):
            pairs = [pair for member in value.items() for pair in both(*member)]
            if mixed and len({name for name, _ in pairs}) == len(pairs):
                self.chance.shuffle(pairs)
            parts = [f"{quoted(name)}{blank()}:{blank()}{self.json(inner, blank, quoted, mixed)}" for name, inner in pairs]
        elif isinstance(value, list):
            parts = [self.json(inner, blank, quoted, mixed) for inner in value]
        else:
            return json.dumps(value)
        begin, end = "{}" if isinstance(value, dict) else "[]"
        return begin + blank() + f"{blank()},{blank()}".join(parts) + blank() + end

    def blank(self):
        size = self.chance.choice([0, 0, 1, 2])
        return "".join(self.chance.choices(self.space, k=size)) if size else ""

    def quoted(self, text):
        """A string with some of its characters as escapes."""
        return '"' + "".join(self.escape(sign) if self.chance.randrange(8) == 0 else json.dumps(sign)[1:-1] for sign in text) + '"'

    def escape(self, sign):
        code = f"{ord(sign):04x}"
        return "\\u" + self.chance.choice([code, code.upper()]) if len(code) == 4 else sign
