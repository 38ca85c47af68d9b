"""Reads JSON as RFC 8259 and docs/formats/lines.md have it, in plain steps; nothing here is taken from a program.

An object becomes a `dict`, in which the last value of a name stays. A number that is written with digits alone
becomes an `int`, and every other one a `float`, so a whole number is told by its type.
"""

import math
import re

# Arrays and objects nest at most so deep.
DEEPEST = 127

SPACE = re.compile(r"[ \t\n\r]*+")
STRING = re.compile(r'"((?:[^"\\\x00-\x1f]++|\\(?:["\\/bfnrt]|u[0-9A-Fa-f]{4}))*+)"')
ESCAPE = re.compile(r"\\(?:u(....)|(.))")
NUMBER = re.compile(r"-?(?:0|[1-9][0-9]*+)(?:\.[0-9]++)?(?:[eE][+-]?[0-9]++)?")
CONTROLS = {"b": "\b", "f": "\f", "n": "\n", "r": "\r", "t": "\t"}
WORDS = {"true": True, "false": False, "null": None}


class NotJson(Exception):
    """The bytes are no JSON text."""


def value_of(text):
    """The value that these bytes are."""
    try:
        text = text.decode()
    except UnicodeDecodeError:
        raise NotJson from None
    value, at = value_at(text, after_space(text, 0), DEEPEST)
    if after_space(text, at) != len(text):
        raise NotJson
    return value


def after_space(text, at):
    return SPACE.match(text, at).end()


def value_at(text, at, room):
    """The value that begins here, and where it ends. Arrays and objects have so much room to nest in."""
    first = text[at : at + 1]
    if first == '"':
        return string_at(text, at)
    if first in ("[", "{"):
        if not room:
            raise NotJson
        return (array_at if first == "[" else object_at)(text, after_space(text, at + 1), room - 1)
    for word, value in WORDS.items():
        if text.startswith(word, at):
            return value, at + len(word)
    return number_at(text, at)


def array_at(text, at, room):
    values = []
    if text.startswith("]", at):
        return values, at + 1
    while True:
        value, at = value_at(text, at, room)
        values.append(value)
        at = after_space(text, at)
        if text.startswith("]", at):
            return values, at + 1
        at = after(text, ",", at)


def object_at(text, at, room):
    members = {}
    if text.startswith("}", at):
        return members, at + 1
    while True:
        name, at = string_at(text, at)
        at = after(text, ":", after_space(text, at))
        members[name], at = value_at(text, at, room)
        at = after_space(text, at)
        if text.startswith("}", at):
            return members, at + 1
        at = after(text, ",", at)


def after(text, sign, at):
    """The place after this sign and what white space follows it."""
    if not text.startswith(sign, at):
        raise NotJson
    return after_space(text, at + 1)


def string_at(text, at):
    found = STRING.match(text, at)
    if not found:
        raise NotJson
    return without_escapes(found[1]), found.end()


def without_escapes(text):
    """What the escapes stand for. Those of two surrogates in order are one character, and no surrogate stands alone."""
    if "\\" not in text:
        return text
    text = ESCAPE.sub(lambda escape: chr(int(escape[1], 16)) if escape[1] else CONTROLS.get(escape[2], escape[2]), text)
    try:
        return text.encode("utf-16", "surrogatepass").decode("utf-16")
    except UnicodeDecodeError:
        raise NotJson from None


def number_at(text, at):
    """A number; none rounds beyond the greatest double."""
    found = NUMBER.match(text, at)
    if not found or math.isinf(float(found[0])):
        raise NotJson
    return int(found[0]) if found[0].isdigit() else float(found[0]), found.end()
