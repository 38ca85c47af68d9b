"""What the checks share that ask the built program over TCP: the program as it serves, connections to it,
requests and the bytes of replies.

Nothing is sent to another machine. One program at a time has the port.
"""

import contextlib
import socket
import subprocess
import time

import checks

HOST, PORT = "127.0.0.1", 7117


def is_free():
    """Whether no other program has the port."""
    with socket.socket() as door:
        door.setsockopt(socket.SOL_SOCKET, socket.SO_REUSEADDR, 1)
        try:
            door.bind((HOST, PORT))
        except OSError:
            return False
    return True


def connected(seconds=checks.LIMIT):
    """A connection to the program, once it has opened its port. What it sends goes out at once."""
    last = time.monotonic() + seconds
    while True:
        try:
            link = socket.create_connection((HOST, PORT), timeout=checks.LIMIT)
        except ConnectionRefusedError:
            if time.monotonic() > last:
                raise
            time.sleep(0.01)
        else:
            link.setsockopt(socket.IPPROTO_TCP, socket.TCP_NODELAY, 1)
            return link


def opens_port(child):
    """Whether a program that begins to serve opens its port, and has not ended before."""
    while child.poll() is None:
        with contextlib.suppress(ConnectionRefusedError):
            connected(0).close()
            return True
        time.sleep(0.001)
    return False


@contextlib.contextmanager
def serving(folder, requests=1_000_000, before=(), env=None, desks=1):
    """The program, which serves in a folder; it is killed in the end where it still runs."""
    words = [*before, checks.PROGRAM, "serve", "--desks", str(desks), "--requests", str(requests)]
    child = subprocess.Popen(words, cwd=folder, env=env, stdin=subprocess.DEVNULL, stdout=subprocess.PIPE, stderr=subprocess.PIPE)
    try:
        yield child
    finally:
        child.kill()
        child.communicate()


def head(method, path, body=b"", version="1.1", more=""):
    length = f"Content-Length: {len(body)}\r\n" if body else ""
    return f"{method} {path} HTTP/{version}\r\n{length}{more}\r\n".encode() + body


def reply(status, phrase, body):
    return f"HTTP/1.1 {status} {phrase}\r\nContent-Type: text/plain\r\nContent-Length: {len(body)}\r\n\r\n".encode() + body


BAD_REQUEST = reply(400, "Bad Request", b"bad request\n")
NOT_JSON = reply(400, "Bad Request", b"malformed json\n")
NOT_FOUND = reply(404, "Not Found", b"not found\n")
WRONG_METHOD = reply(405, "Method Not Allowed", b"method not allowed\n")
TOO_LONG = reply(413, "Payload Too Large", b"payload too large\n")
NO_SENDER = reply(422, "Unprocessable Entity", b"malformed sender\n")
UNAVAILABLE = reply(503, "Service Unavailable", b"service unavailable\n")


def posted(number):
    return head("POST", "/receipts", checks.plain(number).encode())


def all_of(link):
    """All bytes that come until the program ends the connection."""
    pieces = []
    while piece := link.recv(65536):
        pieces.append(piece)
    return b"".join(pieces)


def what_came(link):
    """The bytes of a connection up to its end, also where the program is gone."""
    told = b""
    with contextlib.suppress(ConnectionResetError):
        while piece := link.recv(65536):
            told += piece
    return told


def some_of(link):
    """The next bytes of a connection; none at its end."""
    with contextlib.suppress(ConnectionResetError):
        return link.recv(65536)
    return b""


def so_many_of(link, count):
    """So many bytes of a connection that stays open; fewer where it ends."""
    told = b""
    while len(told) < count and (piece := link.recv(count - len(told))):
        told += piece
    return told


def send(link, sent, size=0):
    """Sends this over a connection, whole or in pieces of so many bytes."""
    for at in range(0, len(sent), size or len(sent) or 1):
        link.sendall(sent[at : at + (size or len(sent))])


def said(sent, size=0):
    """What the program writes to a connection that sends this, whole or in pieces of so many bytes, and no more."""
    with connected() as link:
        send(link, sent, size)
        # The program may have closed its end by now, where it refuses what is still sent.
        with contextlib.suppress(OSError):
            link.shutdown(socket.SHUT_WR)
        return all_of(link)
