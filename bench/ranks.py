#!/usr/bin/env python3
"""Measures the rank table of a folio with 256 rights and many exchanges, beside a plain Rust program.

ranks.py [N]     runs the built program over 0, 1,000 and N exchanges (20,000), between neighbours and
                 at random: its seconds are those of the whole run, judging and entering among them.
                 ranks.rs makes the same exchanges alone; both must leave as many pieces.
"""
import json
import random
import subprocess
import sys
import tempfile
import time
from pathlib import Path

HERE = Path(__file__).resolve().parent
PROGRAM = HERE.parent / "grundbuch"
RIGHTS = 256
OWNER, HOLDER = 10, 20


def line(number, acts):
    docs = [{"doc": "consent", "act": act + 1, "person": person, "form": "certified"} for act in range(len(acts)) for person in (OWNER, HOLDER)]
    item = {"kind": "filing", "applicant": OWNER, "conditional": False, "acts": acts, "docs": docs}
    return json.dumps({"day": "2024-03-01", "minute": 540, "sender": 1, "reference": number, "item": item})


def right(index):
    return {"receipt": 2 + index, "act": 1}


def opening():
    return {"act": "open", "folio": 7, "district": 12, "parcel": 345, "sub": 6, "area": 800, "owners": [OWNER]}


def creation(cents):
    return {"act": "create", "folio": 7, "kind": "land-charge", "rate": 500, "capital": cents, "holder": HOLDER, "group": 1}


def exchanges(random_pairs, count, choose):
    for _ in range(count):
        if random_pairs:
            yield tuple(choose.sample(range(RIGHTS), 2))
        else:
            first = choose.randrange(RIGHTS - 1)
            yield (first, first + 1) if choose.random() < 0.5 else (first + 1, first)


def filings(pairs):
    """Up to eight exchanges in a filing, which names no right twice."""
    acts, named = [], set()
    for recede, rise in pairs:
        if len(acts) == 8 or named & {recede, rise}:
            yield acts
            acts, named = [], set()
        acts.append({"act": "exchange", "folio": 7, "recede": right(recede), "rise": right(rise)})
        named |= {recede, rise}
    if acts:
        yield acts


def measure(peer, random_pairs, count):
    choose = random.Random(count)
    claims = [choose.randint(1, 1_000_000) for _ in range(RIGHTS)]
    pairs = list(exchanges(random_pairs, count, choose))
    acts = [[opening()]] + [[creation(cents)] for cents in claims] + list(filings(pairs))
    text = "\n".join(line(number + 1, one) for number, one in enumerate(acts)).encode()
    start = time.monotonic()
    run = subprocess.run([PROGRAM, "settle", "--desks", "1", "--lines"], input=text, capture_output=True, check=True)
    seconds = time.monotonic() - start
    pieces = run.stdout.count(b"\ncents ")
    plain = "\n".join([" ".join(map(str, claims))] + [f"{recede} {rise}" for recede, rise in pairs]).encode()
    left, milliseconds = map(int, subprocess.run([peer], input=plain, capture_output=True, check=True).stdout.split())
    if left != pieces:
        sys.exit(f"{pieces} pieces, and {left} by the plain program")
    order = "at random" if random_pairs else "between neighbours"
    print(f"{count} exchanges {order}, {len(acts)} lines: {seconds:.2f} s in all, {pieces} pieces; plain exchanges {milliseconds / 1000:.2f} s")


def main():
    most = int(sys.argv[1]) if len(sys.argv) > 1 else 20_000
    subprocess.run([PROGRAM, "--build"], check=True)
    with tempfile.TemporaryDirectory() as folder:
        peer = Path(folder) / "ranks"
        subprocess.run(["rustc", "-O", "-o", peer, HERE / "ranks.rs"], check=True)
        for random_pairs in (False, True):
            for count in (0, 1_000, most):
                measure(peer, random_pairs, count)


if __name__ == "__main__":
    main()
