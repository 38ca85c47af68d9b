#!/usr/bin/env python3
"""Measures `serve` over a journal of many receipts, beside a server of python's standard library that
answers fixed bytes: requests a second, and the slowest of a thousand. Then `serve` and, where it is installed,
nginx with a fixed answer, asked by 1, 8 and 64 clients at once, over connections that are kept and over one for
each request: requests a second, and the slowest of all.

serving.py [--receipts N] [--requests N] [--crowd N]

The journal has the receipts of `generate.py sample`, 190,000 where nothing is said; what is posted
comes on top. Folio 1 is read. Each kind of request is made N times, 1,000 where nothing is said, over one
connection:

    extract     GET /folios/1, with nothing written in between
    ranks       GET /folios/1/ranks, so too
    verdict     GET /receipts/1, so too
    filing      POST of a filing that opens a folio of its own
    then read   a filing, and GET /folios/1 behind it

Clients at once make --crowd requests together, 10,000 where nothing is said, all from one process, which can be
slower than what it asks.
"""

import argparse
import json
import multiprocessing
import pathlib
import select
import shutil
import socket
import subprocess
import sys
import tempfile
import time

ROOT = pathlib.Path(__file__).resolve().parent.parent
sys.path.insert(0, str(ROOT / "scripts"))

import checks  # noqa: E402
import generate  # noqa: E402
import spelling  # noqa: E402

PORT = 7117
NGINX_PORT = 7118
CLIENTS = (1, 8, 64)

# One process, as the program is one.
NGINX = """daemon off; master_process off; error_log stderr crit; pid nginx.pid;
events { worker_connections 1024; }
http {
    access_log off; keepalive_requests 1000000; default_type text/plain;
    client_body_temp_path body; proxy_temp_path proxy; fastcgi_temp_path fastcgi; uwsgi_temp_path uwsgi; scgi_temp_path scgi;
    server { listen 127.0.0.1:%d; location / { return 200 "receipt 1 entered\\n"; } }
}
"""
FIXED = b"HTTP/1.1 200 OK\r\nContent-Type: text/plain\r\nContent-Length: 3\r\n\r\nok\n"


def answer_fixed(ready):
    """A server that answers each request with the same bytes."""
    door = socket.create_server(("127.0.0.1", 0))
    ready.send(door.getsockname()[1])
    link, _ = door.accept()
    link.setsockopt(socket.IPPROTO_TCP, socket.TCP_NODELAY, 1)
    held = b""
    while piece := link.recv(65536):
        held += piece
        while b"\r\n\r\n" in held:
            head, held = held.split(b"\r\n\r\n", 1)
            length = int(next((line.split(b":")[1] for line in head.split(b"\r\n") if line.startswith(b"Content-Length:")), b"0"))
            while len(held) < length:
                held += link.recv(65536)
            held = held[length:]
            link.sendall(FIXED)


class Client:
    """A connection on which one request is made after another."""

    def __init__(self, port):
        last = time.monotonic() + 120
        while True:
            try:
                self.link = socket.create_connection(("127.0.0.1", port), timeout=120)
                break
            except ConnectionRefusedError:
                if time.monotonic() > last:
                    raise
                time.sleep(0.05)
        self.link.setsockopt(socket.IPPROTO_TCP, socket.TCP_NODELAY, 1)

    def ask(self, request):
        """The reply, and the seconds that it took."""
        start = time.perf_counter()
        self.link.sendall(request)
        held = b""
        while b"\r\n\r\n" not in held:
            held += self.piece()
        head, body = held.split(b"\r\n\r\n", 1)
        length = int(head.rsplit(b"Content-Length: ", 1)[1])
        while len(body) < length:
            body += self.piece()
        return head.split(b" ")[1], time.perf_counter() - start

    def piece(self):
        found = self.link.recv(1 << 20)
        if not found:
            raise ConnectionError("the connection was ended")
        return found


def get(path):
    return f"GET {path} HTTP/1.1\r\n\r\n".encode()


def post(number):
    item = checks.filing(number, checks.opening(1_000_000_000 + number))
    line = {"sender": 99, "reference": number, "item": item["item"]}
    body = json.dumps(line, separators=(",", ":")).encode()
    return f"POST /receipts HTTP/1.1\r\nContent-Length: {len(body)}\r\n\r\n".encode() + body


def said(kind, times):
    times.sort()
    slowest = times[-max(1, len(times) // 1000)]
    print(f"{kind:10} {len(times) / sum(times):10,.0f} a second, the slowest of a thousand {slowest * 1000:.2f} ms", flush=True)


def measure(kind, client, requests, wanted):
    times = []
    for request in requests:
        status, seconds = client.ask(request)
        if wanted and status != wanted:
            sys.exit(f"{kind}: {status.decode()}")
        times.append(seconds)
    said(kind, times)


class Asking:
    """A client among others: it asks, and once it has the reply it asks again."""

    def __init__(self, crowd):
        self.crowd, self.link = crowd, None

    def ask(self):
        self.start, self.held = time.perf_counter(), b""
        if self.link is None:
            self.link = socket.create_connection(("127.0.0.1", self.crowd.port))
            self.link.setsockopt(socket.IPPROTO_TCP, socket.TCP_NODELAY, 1)
            self.crowd.watch(self)
        self.link.sendall(self.crowd.request)

    def hear(self):
        """Whether the reply is whole."""
        piece = self.link.recv(65536)
        self.held += piece
        if self.crowd.keeps:
            if not piece:
                raise ConnectionError("the connection was ended")
            head, _, body = self.held.partition(b"\r\n\r\n")
            return bool(_) and len(body) == int(head.rsplit(b"Content-Length: ", 1)[1].split(b"\r\n")[0])
        return not piece

    def let_go(self):
        if not self.crowd.keeps:
            self.crowd.unwatch(self)
            self.link.close()
            self.link = None


class Crowd:
    """Clients that ask at once, so many requests together."""

    def __init__(self, port, clients, requests, keeps):
        self.port, self.keeps, self.left, self.times = port, keeps, requests, []
        more = "" if keeps else "Connection: close\r\n"
        self.request = f"GET /receipts/1 HTTP/1.1\r\nHost: 127.0.0.1\r\n{more}\r\n".encode()
        self.poll, self.asking = select.epoll(), {}
        self.clients = [Asking(self) for _ in range(clients)]

    def watch(self, client):
        self.asking[client.link.fileno()] = client
        self.poll.register(client.link, select.EPOLLIN)

    def unwatch(self, client):
        self.poll.unregister(client.link)
        del self.asking[client.link.fileno()]

    def next(self, client):
        if self.left:
            self.left -= 1
            client.ask()

    def run(self):
        """Requests a second, and the seconds of the slowest."""
        requests, start = self.left, time.perf_counter()
        for client in self.clients:
            self.next(client)
        while len(self.times) < requests:
            for number, _ in self.poll.poll(60):
                client = self.asking[number]
                if client.hear():
                    if b" 200 " not in client.held[:20]:
                        raise ConnectionError(client.held[:40])
                    self.times.append(time.perf_counter() - client.start)
                    client.let_go()
                    self.next(client)
        seconds = time.perf_counter() - start
        for client in self.clients:
            if client.link:
                client.link.close()
        return requests / seconds, max(self.times)


def measure_crowds(what, port, requests):
    for keeps in (True, False):
        for clients in CLIENTS:
            rate, slowest = Crowd(port, clients, requests, keeps).run()
            how = "kept" if keeps else "one each"
            print(f"{what:10} {clients:3} at once, {how:8} {rate:10,.0f} a second, the slowest of all {slowest * 1000:.1f} ms", flush=True)


def measure_nginx(requests):
    if not shutil.which("nginx"):
        print("nginx is not installed")
        return
    with tempfile.TemporaryDirectory() as folder:
        (pathlib.Path(folder) / "nginx.conf").write_text(NGINX % NGINX_PORT)
        child = subprocess.Popen(["nginx", "-p", folder, "-c", "nginx.conf"])
        try:
            Client(NGINX_PORT).link.close()
            measure_crowds("nginx", NGINX_PORT, requests)
        finally:
            child.kill()
            child.wait()


def make_journal(receipts, folder):
    bodies = [spelling.receipt(json.loads(line)) for line in generate.sample(receipts, None)]
    (folder / checks.JOURNAL).write_bytes(checks.journal(bodies))


def main():
    words = argparse.ArgumentParser(description=__doc__, formatter_class=argparse.RawDescriptionHelpFormatter)
    words.add_argument("--receipts", type=int, default=190_000)
    words.add_argument("--requests", type=int, default=1000)
    words.add_argument("--crowd", type=int, default=10_000)
    given = words.parse_args()
    count = given.requests
    with tempfile.TemporaryDirectory() as name:
        folder = pathlib.Path(name)
        make_journal(given.receipts, folder)
        print(f"{given.receipts:,} receipts, {count:,} requests of each kind", flush=True)
        child = subprocess.Popen([checks.PROGRAM, "serve", "--desks", "1", "--requests", "1000000"], cwd=folder)
        try:
            client = Client(PORT)
            start = time.perf_counter()
            client.ask(get("/receipts/1"))
            print(f"the first read: {time.perf_counter() - start:.2f} s")
            measure("extract", client, [get("/folios/1")] * count, b"200")
            measure("ranks", client, [get("/folios/1/ranks")] * count, b"200")
            measure("verdict", client, [get("/receipts/1")] * count, b"200")
            measure("filing", client, map(post, range(1, count + 1)), b"201")
            pairs = [request for n in range(count + 1, 2 * count + 1) for request in (post(n), get("/folios/1"))]
            measure("then read", client, pairs, None)
            client.link.close()
            measure_crowds("serve", PORT, given.crowd)
        finally:
            child.kill()
            child.wait()
    here, there = multiprocessing.Pipe()
    server = multiprocessing.Process(target=answer_fixed, args=(there,), daemon=True)
    server.start()
    fixed = Client(here.recv())
    measure("fixed", fixed, [get("/folios/1")] * count, b"200")
    measure("fixed POST", fixed, map(post, range(1, count + 1)), b"200")
    server.kill()
    measure_nginx(given.crowd)


if __name__ == "__main__":
    main()
