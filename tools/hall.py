#!/usr/bin/env python3
"""Turns a hall written as text into its file.

    tools/hall.py HALL.txt > HALL

A line is `actor NAME TIME`, or `channel SOURCE DEST P Q CAPACITY TOKENS` with the actors by name; '#' begins a comment.
It checks nothing: the program does."""
import sys

names, actors, channels = [], [], []
for line in open(sys.argv[1]):
    words = line.split("#")[0].split()
    if not words:
        continue
    if words[0] == "actor":
        names.append(words[1])
        actors.append(b"\x02\x00\x0a" + words[1].encode().ljust(8, b"\0") + int(words[2]).to_bytes(2, "big"))
    else:
        s, d = names.index(words[1]), names.index(words[2])
        p, q, cap, tok = map(int, words[3:])
        channels.append(bytes([3, 0, 8, s, d, p, q]) + cap.to_bytes(2, "big") + tok.to_bytes(2, "big"))
sys.stdout.buffer.write(bytes([1, 0, 2, len(actors), len(channels)]) + b"".join(actors + channels))
