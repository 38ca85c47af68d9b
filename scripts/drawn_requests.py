"""Connections that are drawn: requests with right and spoiled heads and bodies in a row, some of them cut off.

What is written to them is not known here: plain_requests.py tells it from the bytes.
"""

import re

import checks
import plain_lines
from drawn_lines import DrawnLines
from plain_requests import LONGEST_BODY, LONGEST_HEAD, MOST_HEADERS

# Of each pair the first has what a client writes, and is drawn mostly.
BLANKS = [b""], [b"\r\n", b"\n", b"\n\r\n\n", b"\r", b"\r\r\n", b" ", b" \r\n", b"\t", b"\x00", b"\xef\xbb\xbf", b"\n" * 8_180]
METHODS = [b"GET", b"POST"], [
    b"HEAD", b"PUT", b"DELETE", b"OPTIONS", b"PATCH", b"TRACE", b"CONNECT", b"get", b"GETS", b"G", b"brew-!#$%&'*+.^_`|~9", b"", b"GE T",
    b"G\xc3\xa4T", b"GET\t", b"GET ", b"(GET)", b"GET:", b"GET\x00", b"\xffGET", b"GE\rT", b"GE\nT", b"A" * 8_000,
]
# Paths that are asked for by a number, which stands for {}.
NUMBERED = [re.sub(r"{\w}", "{}", route.split(" ")[1]) for route, _ in checks.routes_of_page() if "{" in route]
NUMBERS = ["4294967295", "4294967296", "9999999999", "10000000000", "0", "00", "01", "+1", "-1", "1.0", "1e0", "%31", "", "x", "{n}", "1 ", "\uff11", "1/", "/1"]
TARGETS = [b"/receipts", b"/report"], [
    b"*", b"/", b"//", b"report", b"/report/", b"//report", b"/Report", b"/report?x=1", b"/report#x", b"/report;x", b"/./report", b"/x/../report", b"/%72eport",
    b"/receipts/", b"/receipts/1/ranks", b"/folios", b"/folios/1/csv", b"/folios//ranks", b"/folios/1/rank", b"/folios/1/RANKS", b"/plans/1/csv/", b"/plans/1/ranks",
    b"http://127.0.0.1:7117/report", b"http://a/b?c=d#e", b"127.0.0.1:7117", b"/{n}", b"/:n", b"/*x", b"/\xc3\xa4\xf0\x9f\x98\x80", b'/"<>\\^`{|}',
    b"", b"/a\t", b"/\x7f", b"/\x00", b"/\x1f", b"/a b", b"/\xff", b"/\xc3", b"/\xc0\xaf", b"/\xed\xa0\x80", b"/\xf4\x90\x80\x80", b"/a\r", b"/a\n", b"/" + b"a" * 8_100,
]
VERSIONS = [b"HTTP/1.1"], [
    b"HTTP/1.0", b"HTTP/1.0", b"HTTP/1.2", b"HTTP/2.0", b"HTTP/1.10", b"HTTP/1.", b"HTTP/1", b"HTTP/", b"HTTP", b"H", b"", b"http/1.1", b"HTTP/1.1 ", b" HTTP/1.1",
    b"HTTP/1.1\t", b"HTTP/1.1\x00", b"HTTPS/1.1", b"HTTP/1,1", b"HTTP/01.1",
]
ENDS = [b"\r\n", b"\n"], [b"\r", b"\r\r\n", b"\n\r", b"", b" \r\n", b"\t\n", b"\x00\r\n", b"\x0b\n", b"\x85\n"]
HEADERS = [b"Host: 127.0.0.1:7117", b"Connection: keep-alive", b"Accept: */*", b"Content-Type: application/json", b"User-Agent: a/1 (b; c)"], [
    b"Connection: close", b"connection:cLOSE\t", b"CONNECTION:  close  ", b"Connection: keep-alive", b"Connection: keep-alive, close", b"Connection: close,",
    b"Connection: close;", b"Connection: closed", b"Connection:", b"Connection: upgrade", b"Connexion: close", b"Proxy-Connection: close", b"Close: connection",
    b"Expect: 100-continue", b"expect: x", b"Upgrade: h2c", b"A:", b"A: \t b c \t ", b"!#$%&'*+-.^_`|~9: \xff\x80", b"A: \"\\(){}", b"Cookie: " + b"c" * 2_000,
    b"Transfer-Encoding: chunked", b"transfer-encoding:", b"TRANSFER-ENCODING: identity", b"Transfer-Encodin: chunked", b"Transfer_Encoding: chunked",
    b"A : b", b" A: b", b"\tb", b" ", b": b", b"A: b\x00", b"A: \x1f", b"A: \x7f", b"A: b\r c", b"A: b\x0bc", b"A", b"A b: c", b"A\xc3\xa4: b", b"A(: b", b"\xff: b", b"A\t: b",
    b"Host", b"GET / HTTP/1.1", b"{}",
]
# A wrong Content-Length, of a body that has {} bytes.
LENGTHS = [
    "Content-Length:{}", "content-length: \t{} ", "CONTENT-LENGTH: 0{}", "Content-Length: 0000{}", "Content-Length: 000000{}", "Content-Length: {0}\r\nContent-Length: {0}",
    "Content-Length: {}\nContent-Length: 1", "Content-Length: {0}, {0}", "Content-Length: +{}", "Content-Length: -{}", "Content-Length: {}.0", "Content-Length: {}x",
    "Content-Length: 0x{}", "Content-Length: 1 {}", "Content-Length:", "Content-Length: \u0661", "Content-Length : {}", "Content-Lengths: {}", "Content_Length: {}",
    "X-Content-Length: {}", "Content-Length: 65537", "Content-Length: 99999999", "Content-Length: 100000000", "Content-Length: 18446744073709551617",
    "Transfer-Encoding: chunked\r\nContent-Length: {}", "Content-Length: {}\r\nConnection: close", "Content-Length: {}\r\nExpect: 100-continue",
]
PIECES = [b"\r", b"\n", b"\r\n", b"\r\n\r\n", b"\n\n", b" ", b"\t", b":", b"\x00", b"\x7f", b"\xff", b"\xc3", b"0", b"A", b"/", b"%"]


class DrawnConnections:
    """Draws the bytes of connections. The items of a story are posted in order, among drawn bodies; the texts that are
    asked for are mostly those of the receipts that there are then, and of these folios."""

    def __init__(self, chance, story, receipts, folios):
        self.chance, self.story, self.receipts, self.folios = chance, story, receipts, folios
        self.lines = DrawnLines(chance, plain_lines.UNSTAMPED_LINE, space=" \t\r\n")
        self.posted = []

    def connection(self, most):
        """The bytes of a connection with up to so many requests, and their number."""
        count = self.chance.randint(1, min(most, 20 if self.chance.randrange(8) == 0 else 6))
        data = b"".join(self.request() for _ in range(count))
        if self.chance.randrange(5) == 0:
            data = data[: self.chance.randrange(len(data)) or None]
        return data, count

    def request(self):
        """The bytes of a request. One head in four is spoiled in one of its parts, and a few in their bytes."""
        chance = self.chance
        spoiled = chance.choice(["blanks", "method", "target", "version", "end", "headers", "headers", "length"]) if chance.randrange(4) == 0 else ""
        method, target = self.asked()
        if spoiled == "method":
            method = chance.choice(METHODS[1])
        if spoiled == "target":
            target = chance.choice(TARGETS[1])
        body = self.body() if method == b"POST" or spoiled == "length" else b""
        end = chance.choice(ENDS[0])
        lines = [
            self.part(BLANKS, spoiled == "blanks") + method + b" " + target + b" " + self.part(VERSIONS, spoiled == "version"),
            *(chance.choice(HEADERS[0]) for _ in range(chance.choice([0, 1, 2]))),
        ]
        more = chance.choices(HEADERS[1], k=chance.choice([1, 1, 1, 2])) if spoiled == "headers" else []
        for line in self.lengths(body, spoiled == "length") + more:
            lines.insert(chance.randint(1, len(lines)), line)
        ends = [chance.choice(ENDS[0]) for _ in lines]
        if spoiled == "end":
            ends[chance.randrange(len(ends))] = chance.choice(ENDS[1])
        head = b"".join(line + after for line, after in zip(lines, ends)) + end
        if chance.randrange(100) == 0:
            head = self.at_limit(head, end)
        if chance.randrange(50) == 0:
            head = self.spoiled_bytes(head)
        return head + body

    def part(self, parts, is_spoiled):
        return self.chance.choice(parts[1 if is_spoiled else 0])

    def asked(self):
        """A method and a target that go together, or nearly."""
        chance = self.chance
        draw = chance.randrange(20)
        if draw < 8:
            return b"POST", b"/receipts"
        if draw < 9:
            return b"GET", b"/report"
        if draw < 10:
            return chance.choice(METHODS[0]), chance.choice(TARGETS[0])
        route = chance.choice(NUMBERED)
        known = self.folios if "folios" in route else range(1, self.receipts() + 2)
        number = chance.choice(NUMBERS) if draw == 19 else chance.choice(known)
        return b"GET" if chance.randrange(20) else b"POST", route.format(number).encode()

    def body(self):
        """A body: the next item of the story, a drawn line, one that came before, or a long one."""
        draw = self.chance.randrange(10)
        if draw < 4 and self.story:
            body = self.story.pop(0)
        elif draw < 5 and self.posted:
            return self.chance.choice(self.posted)
        elif draw == 5 and self.chance.randrange(16) == 0:
            return self.lines.line().ljust(self.chance.choice([LONGEST_BODY - 1, LONGEST_BODY, LONGEST_BODY + 1]))
        else:
            body = self.lines.line()
        self.posted.append(body)
        return body

    def lengths(self, body, is_spoiled):
        """The line that says how long a body is, where one says it."""
        size = len(body)
        if not is_spoiled:
            return [b"Content-Length: %d" % size] if size or self.chance.randrange(4) == 0 else []
        draw = self.chance.randrange(6)
        if draw == 0:
            return []
        if draw == 1:
            return [b"Content-Length: %d" % max(0, size + self.chance.choice([-5, -1, 1, 20]))]
        return [self.chance.choice(LENGTHS).format(size).encode()]

    def at_limit(self, head, end):
        """The head with so many lines or bytes that it is at the limit, or one off."""
        off = self.chance.choice([-1, 0, 1])
        front = head[: -len(end)]
        if self.chance.randrange(2):
            lines = MOST_HEADERS + off - front.count(b"\n") + 1
            return front + b"a:\n" * lines + end
        return front + b"a:".ljust(LONGEST_HEAD + off - len(head) - 1, b"x") + b"\n" + end

    def spoiled_bytes(self, head):
        """The head with a piece put in, taken out or changed."""
        at, piece = self.chance.randrange(len(head)), self.chance.choice([*PIECES, bytes([self.chance.randrange(256)])])
        size = self.chance.choice([1, 1, 2, 5])
        return self.chance.choice([head[:at] + piece + head[at:], head[:at] + head[at + size :], head[:at] + piece + head[at + len(piece) :]])
