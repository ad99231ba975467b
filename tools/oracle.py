#!/usr/bin/env python3
"""An independent reading of a hall's file, to compare the program with.

    tools/oracle.py FILE          what the program should print for the file (- for standard input)
    tools/oracle.py --damage FILE what crates/vectors should print for it: every cut, every damaged byte

It shares no text with the crates: the rules are those of docs/, written again."""
import sys
from fractions import Fraction
from math import gcd


class Refused(Exception):
    def __init__(self, layer, number, place):
        self.line = f"FAULT {layer} {number} {place}"


def parse(data):
    at, number = 0, 0

    def field(tag, length):
        nonlocal at, number
        if len(data) - at < 3:
            raise Refused("fields", 1, number)
        if data[at] != tag:
            raise Refused("fields", 2, number)
        if data[at + 1] * 256 + data[at + 2] != length:
            raise Refused("fields", 3, number)
        if len(data) - at - 3 < length:
            raise Refused("fields", 1, number)
        value = data[at + 3:at + 3 + length]
        at += 3 + length
        number += 1
        return value, number - 1

    (n, m), _ = field(1, 2)
    if not (1 <= n <= 16 and m <= 32):
        raise Refused("graph", 5, 0)
    actors, channels = [], []
    for _ in range(n):
        v, f = field(2, 10)
        name, time = v[:8], v[8] * 256 + v[9]
        letters = name.rstrip(b"\0")
        if not letters or any(not 33 <= b <= 126 for b in letters):
            raise Refused("graph", 6, f)
        if name in [a for a, _ in actors]:
            raise Refused("graph", 7, f)
        if not 1 <= time <= 4095:
            raise Refused("graph", 8, f)
        actors.append((name, time))
    for _ in range(m):
        v, f = field(3, 8)
        s, d, p, q = v[:4]
        cap, tok = v[4] * 256 + v[5], v[6] * 256 + v[7]
        if s >= n or d >= n:
            raise Refused("graph", 9, f)
        if p < 1 or q < 1 or not 1 <= cap <= 4096 or tok > cap:
            raise Refused("graph", 10, f)
        channels.append((s, d, p, q, cap, tok))
    if at < len(data):
        raise Refused("fields", 4, number)
    return actors, channels


def counts(actors, channels):
    """Repetition counts as fractions of actor 0's, spread over the channels, then scaled."""
    share = {0: Fraction(1)}
    grown = True
    while grown:
        grown = False
        for s, d, p, q, _, _ in channels:
            if s in share and d not in share:
                share[d], grown = share[s] * p / q, True
            elif d in share and s not in share:
                share[s], grown = share[d] * q / p, True
    apart = [a for a in range(len(actors)) if a not in share]
    if apart:
        raise Refused("graph", 11, apart[0])
    if any(share[s] * p != share[d] * q for s, d, p, q, _, _ in channels):
        raise Refused("graph", 12, 0)
    scale = 1
    for f in share.values():
        scale = scale * f.denominator // gcd(scale, f.denominator)
    whole = [int(share[a] * scale) for a in range(len(actors))]
    least = 0
    for w in whole:
        least = gcd(least, w)
    whole = [w // least for w in whole]
    if max(whole) > 4096:
        raise Refused("graph", 12, 0)
    return whole


LAST, ROWS = 10_000_000, 256


def rate(channels, times, rep):
    """Rate of the run with these times, leaping from one end of a firing to the next."""
    n = len(times)
    tokens = [c[5] for c in channels]
    free = [c[4] - c[5] for c in channels]
    left, count, rows = [0] * n, [0] * n, []
    tick, due = 0, True
    while True:
        can = [left[a] == 0 for a in range(n)]
        for c, (s, d, p, q, _, _) in enumerate(channels):
            can[d] = can[d] and tokens[c] >= q
            can[s] = can[s] and free[c] >= p
        for c, (s, d, p, q, _, _) in enumerate(channels):
            tokens[c] -= q if can[d] else 0
            free[c] -= p if can[s] else 0
        for a in range(n):
            left[a] = times[a] if can[a] else left[a]
        if not any(left):
            return f"stop {tick}"
        if due:
            state = (tuple(tokens), tuple(left))
            for r, (t, seen) in enumerate(rows):
                if seen == state:
                    return f"{t} {tick - t} {len(rows) - r}"
            if len(rows) == ROWS:
                return "none 17"
            rows.append((tick, state))
        leap = min(x for x in left if x)
        if tick + leap > LAST:
            return "none 18"
        tick += leap
        ends = [x == leap for x in left]
        for a in range(n):
            left[a] = max(left[a] - leap, 0)
            count[a] += ends[a]
        for c, (s, d, p, q, _, _) in enumerate(channels):
            tokens[c] += p if ends[s] else 0
            free[c] += q if ends[d] else 0
        due = ends[0] and count[0] % rep == 0


def held(channels, times, rep):
    """The run that a slice of 2 in 5 over a ring of all promises."""
    whole = sum(times)
    promise = whole + 3 * -(-whole // 2)
    if promise > 65535:
        return "none 15"
    return rate(channels, [promise] * len(times), rep)


def lines(data):
    try:
        actors, channels = parse(data)
        rep = counts(actors, channels)[0]
    except Refused as r:
        return [r.line]
    times = [t for _, t in actors]
    return ["RATE " + rate(channels, times, rep), "HELD " + held(channels, times, rep)]


def damage(data):
    for cut in range(len(data)):
        print(f"cut {cut}: " + "\n".join(lines(data[:cut])))
    for at in range(len(data)):
        said, start = None, 0
        for value in range(257):
            new = None
            if value < 256:
                new = "\n".join(lines(data[:at] + bytes([value]) + data[at + 1:]))
            if value and new != said:
                print(f"byte {at}, {start} to {value - 1}: {said}")
                start = value
            said = new


if __name__ == "__main__":
    name = sys.argv[-1]
    data = sys.stdin.buffer.read() if name == "-" else open(name, "rb").read()
    if sys.argv[1] == "--damage":
        damage(data)
    else:
        print("\n".join(lines(data)))
