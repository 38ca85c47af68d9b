"""What is written to connections, told from their bytes alone in the order in which they are served, and from what
the journal has.

It is written from docs/formats/http.md; what an item is plain_lines.py says, and nothing is taken from a program.
A text that a GET asks for is not worked out here: `Text` says its path and of how many receipts it is, and who
compares takes it from what `settle` prints of these receipts.
"""

import collections
import re

import checks
import plain_lines
from asking import BAD_REQUEST, NOT_FOUND, NOT_JSON, TOO_LONG, WRONG_METHOD, reply

LONGEST_HEAD = 8_192
LONGEST_BODY = 65_536
MOST_HEADERS = 64

# The grammar of a head: its tokens, its target, and the values of its headers.
TOKEN = rb"[!#$%&'*+\-.^_`|~0-9A-Za-z]++"
TARGET = rb"[\x21-\x7e\x80-\xff]++"
VALUE = rb"[\t\x20-\x7e\x80-\xff]*+"
END = rb"\r?\n"
FIELD = TOKEN + rb":" + VALUE + END
BLANKS = rb"(?:\r?\n)*+"
LINE = rb"(?P<method>" + TOKEN + rb") (?P<target>" + TARGET + rb") HTTP/1\.(?P<minor>[01])"
HEAD = re.compile(BLANKS + LINE + END + rb"(?P<fields>(?:" + FIELD + rb")*+)" + END)
HEADER = re.compile(rb"(" + TOKEN + rb"):(" + VALUE + rb")" + END)
LENGTH = re.compile(rb"[0-9]{1,8}")

# What may become a head: one that is cut off, in each of its parts. One that ends in the target is not judged there.
CUT_VERSION = rb"(?:" + b"|".join(re.escape(b"HTTP/1."[:size]) for size in range(8)) + rb")"
CUT_FIELDS = rb"(?:" + FIELD + rb")*+(?:\r|" + TOKEN + rb"(?::" + VALUE + rb"\r?)?)?"
CUT_HEADS = [
    re.compile(BLANKS + front)
    for front in (rb"\r?", TOKEN, TOKEN + rb" (?:" + TARGET + rb")?", rb"(?P<method>" + TOKEN + rb") (?P<target>" + TARGET + rb") " + CUT_VERSION,
                  LINE + rb"\r?", LINE + END + CUT_FIELDS)
]

# Where a line end follows a line that is not empty.
EMPTY_LINE = re.compile(rb"\n\r?\n")

# What stands at the front of a connection's bytes where it is no request.
NOTHING, CUT, REFUSED, BODY_TOO_LONG = "nothing", "a part of a request", "a refused head", "too long a body"

Head = collections.namedtuple("Head", "method target minor headers size")
Request = collections.namedtuple("Request", "method target body is_last size")

# The reply to a GET of this path, where so many receipts stand.
Text = collections.namedtuple("Text", "path receipts")

RECEIVED = {"accepted": (201, "Created"), "repeated": (200, "OK"), "differs": (409, "Conflict"), "full": (403, "Forbidden")}

# A number as it is printed.
NUMBER = "([1-9][0-9]{0,9})"
MOST_NUMBER = 4_294_967_295
ROUTES = [
    (method, re.compile(re.sub(r"{\w}", NUMBER, path)))
    for method, path in (route.split(" ") for route, _ in checks.routes_of_page())
]


def text_of(part):
    """These bytes as UTF-8, and None where they are none."""
    try:
        return part.decode()
    except UnicodeDecodeError:
        return None


# ---- heads


def head_of(data):
    """The head that the bytes begin with, if they begin with one."""
    found = HEAD.match(data)
    target = text_of(found["target"]) if found else None
    if target is None:
        return None
    headers = [(name.lower(), value.strip(b" \t")) for name, value in HEADER.findall(found["fields"])]
    return Head(found["method"].decode(), target, found["minor"], headers, found.end())


def may_become_head(data):
    """Whether bytes may follow that make these a head, or these end inside the target."""
    for front in CUT_HEADS:
        found = front.fullmatch(data)
        if found:
            target = found.groupdict().get("target")
            return target is None or text_of(target) is not None
    return False


def values_of(head, name):
    return [value for other, value in head.headers if other == name]


def length_of(head):
    """The length of the body of a head, and None where the head is refused."""
    lengths = values_of(head, b"content-length")
    if len(head.headers) > MOST_HEADERS or values_of(head, b"transfer-encoding") or len(lengths) > 1:
        return None
    if not lengths:
        return 0
    return int(lengths[0]) if LENGTH.fullmatch(lengths[0]) else None


def is_last(head):
    return head.minor == b"0" or any(value.lower() == b"close" for value in values_of(head, b"connection"))


def front_of(data):
    """What stands at the front of all the bytes of a connection that are left."""
    if not data:
        return NOTHING
    head = head_of(data[:LONGEST_HEAD])
    if head is None:
        return CUT if len(data) < LONGEST_HEAD and may_become_head(data) else REFUSED
    length = length_of(head)
    if length is None:
        return REFUSED
    if length > LONGEST_BODY:
        return BODY_TOO_LONG
    size = head.size + length
    if len(data) < size:
        return CUT
    return Request(head.method, head.target, data[head.size : size], is_last(head), size)


def judged_at(data):
    """How many of these bytes are read before a head is refused."""
    first = re.match(BLANKS, data).end()
    empty = EMPTY_LINE.search(data, first)
    return min(LONGEST_HEAD, empty.end() if empty else len(data))


# ---- replies


def route_of(target):
    """The method of the route that has this target, if there is one."""
    for method, path in ROUTES:
        found = path.fullmatch(target)
        if found and all(int(number) <= MOST_NUMBER for number in found.groups()):
            return method
    return None


class Office:
    """A server, and what its journal has."""

    def __init__(self, journal):
        self.journal = journal

    def answer(self, request):
        """The reply to a whole request."""
        method = route_of(request.target)
        if method is None:
            return NOT_FOUND
        if method != request.method:
            return WRONG_METHOD
        if method == "GET":
            return Text(request.target, len(self.journal.items))
        value, refusal = plain_lines.read(request.body, plain_lines.UNSTAMPED_LINE)
        if refusal == "malformed json":
            return NOT_JSON
        if refusal:
            return reply(422, "Unprocessable Entity", f"{refusal}\n".encode())
        told = self.journal.received(value)
        return reply(*RECEIVED[told.split(" ")[0]], f"{told}\n".encode())

    def serve(self, data):
        """The replies to a connection that sends these bytes, and how many of them are read before the program
        closes it: all, where it ends itself."""
        replies, at = [], 0
        while True:
            front = front_of(data[at:])
            if front in (NOTHING, CUT):
                return replies, len(data)
            if front is REFUSED:
                return [*replies, BAD_REQUEST], at + judged_at(data[at:])
            if front is BODY_TOO_LONG:
                return [*replies, TOO_LONG], at + head_of(data[at:]).size
            at += front.size
            replies.append(self.answer(front))
            if front.is_last:
                return replies, at
