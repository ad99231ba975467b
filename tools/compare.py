#!/usr/bin/env python3
"""Compares the program with tools/oracle.py on random halls, whole and damaged.

    tools/compare.py [HOW MANY] [FIRST NUMBER]

It says how many differ, and keeps each that does as /tmp/differs-N.hall."""
import random
import subprocess
import sys
from math import gcd
from pathlib import Path

import oracle

HALL = Path(__file__).resolve().parent.parent / "crates/hall/out/hall"


def hall(r):
    """A random graph in one piece that mostly balances: rates from counts chosen first."""
    n = r.randint(1, r.choice([2, 3, 5, 16]))
    longest = r.choice([1, 4, 30, 400, 4095])
    reps = [r.choice([1, 1, 2, 3, 4, 6, 12]) for _ in range(n)]
    ends = [(r.randrange(a), a) if r.random() < 0.8 else (a, r.randrange(a)) for a in range(1, n)]
    while len(ends) < 32 and r.random() < 0.6:
        ends.append((r.randrange(n), r.randrange(n)))
    out = bytes([1, 0, 2, n, len(ends)])
    for a in range(n):
        out += b"\x02\x00\x0a" + f"a{a}".encode().ljust(8, b"\0") + r.randint(1, longest).to_bytes(2, "big")
    for s, d in ends[:32]:
        g = gcd(reps[s], reps[d])
        p, q = reps[d] // g, reps[s] // g
        if r.random() < 0.02:
            p += 1
        cap = r.randint(max(p, q), 3 * (p + q)) if r.random() < 0.9 else r.randint(1, 4096)
        tok = r.choice([0, 0, r.randint(0, cap), cap])
        out += bytes([3, 0, 8, s, d, p, q]) + cap.to_bytes(2, "big") + tok.to_bytes(2, "big")
    return out


def damaged(r, data):
    data = bytearray(data)
    for _ in range(r.choice([1, 1, 2])):
        at = r.randrange(len(data))
        kind = r.randrange(4)
        if kind == 0:
            data[at] = r.randrange(256)
        elif kind == 1:
            del data[at:]
            data += b"\0" if not data else b""
        elif kind == 2:
            data.insert(at, r.randrange(256))
        else:
            data += bytes(r.randrange(1, 600))
    return bytes(data)


def main():
    many = int(sys.argv[1]) if len(sys.argv) > 1 else 2000
    first = int(sys.argv[2]) if len(sys.argv) > 2 else 0
    differ, kinds = 0, {}
    for number in range(first, first + many):
        r = random.Random(number)
        data = hall(r)
        if r.random() < 0.3:
            data = damaged(r, data)
        want = "\n".join(oracle.lines(data)) + "\n"
        got = subprocess.run([HALL], input=data, stdout=subprocess.PIPE).stdout.decode()
        kind = want.split("\n")[0].split()
        kind = " ".join(kind[:2] if kind[1] in ("stop", "none") else kind[:1] if kind[0] == "RATE" else kind[:3])
        kinds[kind] = kinds.get(kind, 0) + 1
        if got != want:
            differ += 1
            Path(f"/tmp/differs-{number}.hall").write_bytes(data)
            print(f"{number}: {got!r}, not {want!r}")
    print(f"{many} halls, {differ} differ; " + ", ".join(f"{k}: {v}" for k, v in sorted(kinds.items())))


main()
