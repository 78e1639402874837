#!/usr/bin/env python3
"""The cases of the program `cases_run`, and what it must print by the rules of tests/rules.py.

  tests/cases.py            exit status 1, and the first line that differs, unless crates/cases_run/stdin and stdout are just that
  tests/cases.py --write    writes both

A case is a line of `stdin`, and its answer the line of `stdout` with the same number:

  TITLE: JOB N A B b LIST l LIST v LIST m LIST w LIST
  TITLE: ANSWER, NAME OF LENT MEMORY WORDS

A list is its length, then its numbers; those that are left out are 99, as all lent memory is before a job but Update's. What each job takes
stands at the head of crates/cases_run/src/main.rt. Lent memory is printed with the place behind it, which is 99; `unchanged` if all is 99.
"""
import itertools
import os
import struct
import sys

sys.dont_write_bytecode = True
import rules
from rules import LENT

FOLDER = os.path.join(os.path.dirname(os.path.abspath(__file__)), "..", "crates", "cases_run")
given, wanted = [], []


# ---- how a case is written and printed


def words(values):
    return "".join(" %d" % v for v in values)


def case(title, job, n, numbers, answer, **lists):
    """A list is its numbers, or how many places of 99 are lent."""
    text = "%s: %s %d%s" % (title, job, n, words(numbers))
    for letter, values in lists.items():
        text += " %s %d" % (letter, values) if isinstance(values, int) else " %s %d%s" % (letter, len(values), words(values))
    given.append(text)
    wanted.append("%s: %s" % (title, answer))


def lent(name, values):
    """Lent memory after a job, and the place behind it."""
    return ", %s%s" % (name, " unchanged" if all(v == LENT for v in values) else words(values + [LENT]))


def said(x):
    """A refusal's number, a text, or a kind with its mask and hops."""
    if isinstance(x, int):
        return "refused %d" % x
    if isinstance(x, str):
        return x
    return "home" if x[0] == "home" else "%s, mask %d, hops %d" % x[:3]


# ---- one case of each job


def address(title, i, s, d):
    nav = rules.crossed(s ^ d, i)
    case(title, "a", i, [s, d], "address %d, weight %d, leads to %d" % (nav, rules.weight(nav), s ^ nav))


def fill(title, n, status, links, places):
    by, vectors = rules.fill(n, status, links, places)
    case(title, "f", n, [], said(by or "done") + lent("vectors", vectors), b=status, l=links, v=places)


def decide(title, n, status, links, vectors, s, d):
    answer = said(rules.decide(n, status, links, vectors, s, d))
    case("%s, %d to %d" % (title, s, d), "d", n, [s, d], answer, b=status, l=links, v=vectors)


def hop(title, n, status, links, vectors, a, nav):
    answer = said(rules.hop(n, status, links, vectors, a, nav))
    case("%s, at %d by %d" % (title, a, nav), "h", n, [a, nav], answer, b=status, l=links, v=vectors)


def journey(title, n, status, links, places, picks, steps, s, d):
    trip, vectors, path = rules.journey(n, status, links, places, picks, steps, s, d)
    came = "" if isinstance(trip, int) else ", came by %d" % trip[3]
    answer = said(trip) + came + lent("vectors", vectors) + lent("path", path)
    case("%s, %d to %d" % (title, s, d), "j", n, [s, d], answer, b=status, l=links, v=places, m=picks, w=steps)


def open_(title, data, places, link_places):
    by, n, status, links = rules.opened(data, places, link_places)
    answer = said(by or "cube %d" % n) + lent("status", status) + lent("links", links)
    case(title, "o", 0, [], answer, b=data, v=link_places, m=places)


def refresh(title, n, sweep, records, places, length=None):
    """A log, cut to a length if there is one."""
    data = log(records)[:length]
    answer, status = rules.refresh(n, sweep, data, [LENT] * places)
    head = "%s, n=%d, sweep %d, log%s" % (title, n, sweep, shown(records))
    case(head, "r", n, [sweep], answer + lent("status", status), b=data, m=places)


def update(title, n, sweep, part, before):
    """One more part of a log, over the status bytes that the parts before gave. Answers the log so far."""
    old = rules.refresh(n, sweep, before, [0] * 2**n)[1]
    answer, so_far, status = rules.update(n, sweep, log(part), before)
    case(title, "u", n, [sweep], answer + lent("status", status), b=log(part), m=old)
    return so_far


def listing(title, data):
    case(title, "l", 0, [], "".join(line + "|" for line in rules.listing(data)), b=data)


# ---- cabinets, records and logs


def cabinet(nodes, lost):
    return [254 if a in lost else 1 for a in range(nodes)]


def marks(nodes, marked):
    return [marked.get(a, 0) for a in range(nodes)]


def with_byte(data, at, byte):
    return data[:at] + bytes([byte]) + data[at + 1 :]


def log(records):
    return b"".join(struct.pack("<4H", *r) for r in records)


def shown(records):
    return "".join(" (%d %d %d %d)" % r for r in records)


def good(sweep, node=2):
    return (6, 2, sweep % 65536, node)


# One place more than cabinet F has nodes, so that too long a slice can be lent.
STATUS_F, SOUND = cabinet(17, (3, 4, 6, 9)), marks(17, {})
VECTORS_F = [11, 5, 13, 0, 0, 11, 0, 13, 15, 0, 15, 13, 15, 15, 15, 15, 0]
STATUS_L, LINKS_L = cabinet(16, (11,)), marks(16, {0: 2, 12: 1})
VECTORS_L = rules.vectors_of(4, STATUS_L, LINKS_L)
FOUR = bytes([15, 0, 1, 0, 2, 1, 1, 0, 1] + [0] * 8)
RECORD_F = bytes([51, 0, 1, 0, 4] + STATUS_F[:16] + [0] * 32)
CLASSES = bytes([27, 0, 1, 0, 3, 0, 1, 4, 5, 253, 254, 255, 2] + [0] * 16)
SIX = [good(4701, 1), good(4712, 1), good(4707, 1), good(4400, 2), good(37479, 0), good(4711, 2)]


# ---- the cases


def addresses():
    for i in (0, 1, 2, 10, 11, 4294967295):
        address("address 5, crossing %d" % i, i, 0, 5)
    for s, d in ((1, 12), (1023, 0), (7, 7)):
        address("node %d to %d" % (s, d), 0, s, d)


def fills():
    for n, status, links, places, word in (
        (0, 16, 16, 16, 0),
        (11, 16, 16, 16, 0),
        (4294967295, 16, 16, 16, 0),
        (11, 15, 16, 16, 0),
        (3, 16, 16, 16, 0),
        (4, 15, 16, 16, 0),
        (4, 16, 17, 16, 0),
        (4, 16, 16, 15, 0),
        (4, 16, 16, 17, 16),
        (4, 16, 16, 16, 16),
        (4, 16, 16, 16, 32768),
        (4, 16, 16, 16, 0),
        (4, 16, 16, 16, 15),
    ):
        title = "fill n=%d, lengths %d %d %d, last word %d" % (n, status, links, places, word)
        fill(title, n, STATUS_F[:status], marks(17, {15: word})[:links], places)
    fill("fill L", 4, STATUS_L, LINKS_L, 16)
    for word in (1, 4):
        fill("fill F, word %d at node 3, which is down" % word, 4, STATUS_F[:16], marks(16, {3: word}), 16)


def sized(job, n, status, links, vectors, a, b):
    """Decide or Hop in cabinet F over slices of these lengths."""
    title = "%s n=%d, lengths %d %d %d" % (job.__name__, n, status, links, vectors)
    job(title, n, STATUS_F[:status], SOUND[:links], VECTORS_F[:vectors], a, b)


def decisions():
    for lengths in ((0, 16, 16, 16), (11, 16, 16, 16), (11, 16, 16, 17), (4, 15, 16, 16), (4, 16, 17, 16), (4, 16, 16, 15)):
        sized(decide, *lengths, 1, 12)
    sized(decide, 4, 16, 16, 15, 16, 12)
    for s, d in ((16, 12), (1, 16), (3, 16), (3, 12), (3, 4), (3, 3), (1, 3), (1, 11), (0, 0), (1, 12), (0, 11), (2, 7)):
        sized(decide, 4, 16, 16, 16, s, d)
    for vector, word, s, d in ((8, 0, 0, 15), (12, 0, 0, 15), (0, 0, 0, 15), (8, 0, 0, 7), (0, 0, 0, 1), (0, 1, 0, 1), (65520, 65520, 0, 1), (65535, 65535, 0, 1)):
        title = "decide n=4, every vector %d, every link word %d" % (vector, word)
        decide(title, 4, STATUS_F[:16], [word] * 16, [vector] * 16, s, d)
    for s, d in ((12, 13), (14, 9)):
        decide("decide L", 4, STATUS_L, LINKS_L, VECTORS_L, s, d)


def hops():
    for lengths in ((0, 16, 16, 16), (11, 16, 16, 16), (11, 16, 17, 16), (4, 15, 16, 16), (4, 16, 17, 16), (4, 16, 16, 15)):
        sized(hop, *lengths, 0, 12)
    sized(hop, 4, 16, 16, 15, 16, 12)
    for a, nav in ((16, 12), (0, 16), (3, 16), (3, 12), (3, 5), (0, 3), (1, 7), (1, 10), (0, 0), (0, 12), (10, 13), (14, 1)):
        sized(hop, 4, 16, 16, 16, a, nav)
    for a, nav in ((12, 1), (12, 5)):
        hop("hop L", 4, STATUS_L, LINKS_L, VECTORS_L, a, nav)


def journeys():
    for n, places, picks, steps, word, s, d in (
        (0, 16, 5, 6, 0, 1, 12),
        (11, 15, 5, 6, 0, 1, 12),
        (3, 16, 5, 6, 0, 1, 12),
        (4, 15, 5, 6, 0, 1, 12),
        (4, 17, 5, 6, 0, 1, 12),
        (4, 16, 4, 6, 0, 1, 12),
        (4, 16, 5, 5, 0, 1, 12),
        (4, 16, 5, 5, 16, 1, 12),
        (4, 16, 5, 6, 16, 1, 12),
        (4, 16, 5, 6, 16, 16, 12),
        (4, 16, 5, 6, 0, 16, 12),
        (4, 16, 5, 6, 0, 3, 16),
        (4, 16, 5, 6, 0, 3, 4),
        (4, 16, 5, 6, 0, 1, 3),
        (4, 16, 5, 6, 0, 1, 11),
        (4, 16, 17, 17, 0, 1, 12),
    ):
        title = "journey n=%d, vectors %d, picks %d, path %d, last word %d" % (n, places, picks, steps, word)
        journey(title, n, STATUS_F[:16], marks(16, {15: word}), places, [0] * picks, steps, s, d)
    for pick, s, d in ((0, 1, 11), (0, 0, 0), (0, 1, 12), (1, 1, 12), (255, 1, 12), (3, 15, 0), (0, 0, 11), (0, 0, 7), (1, 2, 7)):
        journey("journey F, every pick %d" % pick, 4, STATUS_F[:16], SOUND[:16], 16, [pick] * 5, 6, s, d)
    for s, d in ((14, 9), (12, 13), (5, 10)):
        journey("journey L, picks 0 1 2 3 4 5", 4, STATUS_L, LINKS_L, 16, [0, 1, 2, 3, 4, 5], 6, s, d)


def pairs():
    """Two working boards and the link between them, marked by neither, by one and by both, in every job that reads the mark."""
    for links in ([0, 0], [0, 1], [1, 0], [1, 1]):
        pair = " of two boards, words %d %d" % tuple(links)
        vectors = rules.vectors_of(1, [1, 1], links)
        fill("fill" + pair, 1, [1, 1], links, 2)
        for s, d in ((0, 1), (1, 0)):
            decide("decide" + pair, 1, [1, 1], links, vectors, s, d)
            hop("hop" + pair, 1, [1, 1], links, vectors, s, 1)
            journey("journey" + pair, 1, [1, 1], links, 2, [0, 0], 3, s, d)


def records():
    for length in (0, 4, 5, 16):
        open_("open the example's first %d" % length, FOUR[:length], 6, 6)
    for length, kind, n, word in (
        (15, 1, 2, 0),
        (14, 1, 2, 0),
        (15, 2, 2, 0),
        (15, 257, 2, 0),
        (14, 1, 0, 0),
        (15, 2, 11, 0),
        (15, 1, 0, 0),
        (15, 1, 11, 0),
        (15, 1, 255, 4),
        (15, 1, 3, 0),
        (15, 1, 1, 4),
        (15, 1, 2, 4),
        (15, 1, 2, 256),
        (15, 1, 2, 3),
    ):
        data = bytes([length, 0, kind % 256, kind // 256, n]) + FOUR[5:15] + word.to_bytes(2, "little")
        open_("open length %d, kind %d, n=%d, last word %d" % (length, kind, n, word), data, 6, 6)
    for places, link_places, word in ((4, 4, 0), (3, 4, 0), (4, 3, 0), (4, 3, 4)):
        title = "open over %d status bytes and %d link words, last word %d" % (places, link_places, word)
        open_(title, FOUR[:15] + bytes([word, 0]), places, link_places)


def damage():
    """The record of cabinet F, cut at every place and changed in every byte."""
    open_("record F", RECORD_F, 16, 16)
    for length in range(len(RECORD_F)):
        open_("record F cut to %d bytes" % length, RECORD_F[:length], 16, 16)
    for change in (1, 8, 255):
        for at in range(len(RECORD_F)):
            open_("record F, byte %d xor %d" % (at, change), with_byte(RECORD_F, at, RECORD_F[at] ^ change), 16, 16)


def cubes():
    """Wu's 5-cube, a board of every class, and a pattern of faults for each n."""
    fill("Wu's 5-cube", 5, cabinet(32, (13, 14, 17, 20, 21, 24, 25)), [0] * 32, 32)
    listing("listing of a board of every class", CLASSES)
    for n in range(1, 11):
        nodes = 2**n
        status = [254 if (a * 5 + n) % 7 == 3 else 1 for a in range(nodes)]
        links = [(nodes - 1 - a) % 8 if (a * 3 + n) % 31 == 5 else a if (a * 7 + n) % 37 == 11 else 0 for a in range(nodes)]
        fill("pattern n=%d" % n, n, status, links, nodes)


def ages():
    """Sweeps around the wrap, the byte of each age, and several records of one node in another order."""
    for present in (0, 1, 2, 65534, 65535):
        for own in (65533, 65534, 65535, 0, 1, 2):
            refresh("wrap", 2, present, [good(own)], 4)
    for present in (4711, 3):
        for age in (0, 1, 2, 3, 4, 5, 251, 252, 253, 254, 32766, 32767, 32768, 65534, 65535):
            refresh("age %d" % age, 2, present, [good(present - age)], 4)
    for pair in ((3, 200), (200, 3), (300, 400), (40000, 7), (7, 40000), (40000, 50000)):
        refresh("ages %d %d" % pair, 2, 4711, [good(4711 - age) for age in pair], 4)
    a, b, c = good(4701, 1), good(4707, 1), good(4704, 2)
    for order in ((a, b, c), (a, c, b), (b, a, c), (b, c, a), (c, a, b), (c, b, a)):
        refresh("another order", 2, 4711, order, 4)


def log_refusals():
    """Nodes that a cube doesn't have, records cut short or of another length or kind, and the order of the refusals."""
    for n in (1, 2, 10):
        for node in (2**n - 1, 2**n, 65535):
            refresh("node %d" % node, n, 4711, [good(4711, node)], 2**n)
    first, second = good(4710, 1), good(4709, 2)
    for length in range(17):
        refresh("cut to %d" % length, 2, 4711, [first, second], 4, length)
    for shape in ((5, 2), (7, 2), (0, 2), (262, 2), (6, 1), (6, 3), (6, 0), (6, 258)):
        refresh("another shape", 2, 4711, [shape + (4711, 1), second], 4)
        refresh("another shape", 2, 4711, [first, shape + (4711, 1)], 4)
    both, near, outside, short = (5, 2, 4711, 4), good(4711, 1), good(4711, 4), (5, 2, 4711, 1)
    for record in (both, (6, 3, 4711, 65535), (7, 2, 4712, 1), good(4712, 4)):
        refresh("one record", 2, 4711, [record], 4)
    for two in ((outside, short), (short, outside), (near, outside), (near, short)):
        refresh("file order", 2, 4711, two, 4)
    for n, places, record in (
        (0, 4, near),
        (11, 4, near),
        (4294967295, 4, near),
        (0, 3, both),
        (11, 3, both),
        (2, 3, both),
        (2, 5, outside),
        (2, 3, near),
        (2, 5, near),
        (2, 0, near),
    ):
        refresh("over %d bytes" % places, n, 4711, [record], places)


def in_parts(title, sizes):
    """The six records in parts of these sizes."""
    so_far, start = b"", 0
    for number, size in enumerate(sizes):
        so_far = update("%s, part %d" % (title, number + 1), 2, 4711, SIX[start : start + size], so_far)
        start += size


def updates():
    """A log that comes in parts, and parts that are refused between two that are not."""
    refresh("six records", 2, 4711, SIX, 4)
    for first in (1, 3, 5):
        in_parts("update by %d and %d" % (first, 6 - first), (first, 6 - first))
    in_parts("update record by record", [1] * 6)
    so_far = b""
    for part in (
        [good(4710, 1), good(4710, 2)],
        [good(4711, 3), good(4711, 4)],
        [good(4711, 3), (6, 3, 4711, 0)],
        [good(4709, 3), good(4709, 1)],
    ):
        so_far = update("update with" + shown(part), 2, 4711, part, so_far)


def compare(name, lines):
    """Tells the first line of a file that isn't as wanted."""
    path = os.path.join(FOLDER, name)
    found = open(path).read().split("\n") if os.path.exists(path) else []
    for number, (want, have) in enumerate(itertools.zip_longest(lines + [""], found, fillvalue=""), 1):
        if want != have:
            at = len(os.path.commonprefix([want, have]))
            near = slice(max(0, at - 60), at + 60)
            print("cases: crates/cases_run/%s, line %d differs from column %d on" % (name, number, at + 1))
            sys.exit("  wanted: %s\n  found:  %s" % (want[near] or "(nothing)", have[near] or "(nothing)"))


for group in (addresses, fills, decisions, hops, journeys, pairs, records, damage, cubes, ages, log_refusals, updates):
    group()
if len(set(wanted)) != len(wanted):
    sys.exit("cases: a case stands twice")
if sys.argv[1:] == ["--write"]:
    for name, lines in (("stdin", given), ("stdout", wanted)):
        open(os.path.join(FOLDER, name), "w").write("\n".join(lines) + "\n")
elif sys.argv[1:]:
    sys.exit(__doc__)
else:
    compare("stdin", given)
    compare("stdout", wanted)
    print("cases: %d lines as the rules have them" % len(given))
