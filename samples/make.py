#!/usr/bin/env python3
"""Writes the sample records and logs beside this file, the same bytes each time."""
import os

HERE = os.path.dirname(os.path.abspath(__file__))
SILENT, WORKING, DOWN, EMPTY = 0, 1, 254, 255


def record(n, status, links):
    """Length, kind 1, n, 2^n status bytes, 2^n link words, all little-endian."""
    body = (1).to_bytes(2, "little") + bytes([n]) + bytes(status) + b"".join(w.to_bytes(2, "little") for w in links)
    return len(body).to_bytes(2, "little") + body


def cabinet(n, lost, links):
    """A cabinet whose boards work, but for those in lost; links maps a node to its link word."""
    nodes = range(2**n)
    return record(n, [lost.get(a, WORKING) for a in nodes], [links.get(a, 0) for a in nodes])


def scrambled(a):
    """A number that looks random but depends on a alone."""
    x = (a + 1) * 2654435761 % 2**32
    x ^= x >> 15
    x = x * 2246822519 % 2**32
    return x ^ (x >> 13)


def full():
    """1,024 boards: one in 80 of each class that isn't working, ages 1 to 4 for the others, and one bad link in 64 boards."""
    lost, links = {}, {}
    for a in range(1024):
        x = scrambled(a)
        classes = [SILENT, 5 + x // 80 % 249, DOWN, EMPTY]
        lost[a] = classes[x % 80] if x % 80 < 4 else 1 + x // 80 % 4
        if x // 2**16 % 64 == 0:
            links[a] = 2 ** (x // 2**22 % 10)
    return cabinet(10, lost, links)


def log(entries):
    """Records of a status log: length 6, kind 2, sweep, node, all little-endian."""
    return b"".join(x.to_bytes(2, "little") for sweep, node in entries for x in (6, 2, sweep, node))


def swept():
    """A log of cabinet F up to sweep 2: nodes 3, 4, 6 and 9 have no record, an old one, one from the future, one of five sweeps ago."""
    entries = [(65000, 4), (9, 6)]
    for sweep in (65533, 65534, 65535, 0, 1, 2):
        for a in range(16):
            if a not in (3, 4, 6, 9) and (a + sweep) % 3 == 0 or a == 9 and sweep == 65533:
                entries.append((sweep, a))
    return log(entries)


SAMPLES = {
    "cabinet-f.record": cabinet(4, {a: DOWN for a in (3, 4, 6, 9)}, {}),
    "cabinet-f.log": swept(),
    "cabinet-l.record": cabinet(4, {11: DOWN}, {0: 2, 12: 1}),
    "wu-5-cube.record": cabinet(5, {a: DOWN for a in (13, 14, 17, 20, 21, 24, 25)}, {}),
    "four-boards.record": cabinet(2, {2: SILENT}, {}),
    "full-1024.record": full(),
}

for name, data in SAMPLES.items():
    with open(os.path.join(HERE, name), "wb") as out:
        out.write(data)
