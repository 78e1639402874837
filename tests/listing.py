#!/usr/bin/env python3
"""Runs the program `listing` on good and bad input, and compares all that it writes."""
import os
import pty
import random
import subprocess
import sys

ROOT = os.path.dirname(os.path.dirname(os.path.abspath(__file__)))
PROGRAM = os.path.join(ROOT, "crates", "listing", "out", "listing")
BOARDS = b"\2\1\1\0\1"
FOUR = "cube 2\n0 working 11\n1 working 11\n2 silent 00\n3 working 11\n"
runs = 0


def words(*numbers):
    return b"".join(x.to_bytes(2, "little") for x in numbers)


def expect(name, got, out, err):
    global runs
    if got != (out.encode(), err):
        sys.exit("listing: %s: not as expected; it wrote %r" % (name, got))
    runs += 1


def run(**how):
    done = subprocess.run([PROGRAM], stderr=subprocess.PIPE, **{"stdout": subprocess.PIPE, **how})
    return done.stdout or b"", done.stderr.decode()


def lists(name, data, text):
    """This text, and nothing on standard error."""
    expect(name, run(input=data), text, "")


def refuses(name, data, number, meaning):
    """The number on standard output, and on standard error what it means."""
    expect(name, run(input=data), "refused %d\n" % number, "listing: refused %d: %s\n" % (number, meaning))


def sample(name):
    with open(os.path.join(ROOT, "samples", name), "rb") as data:
        return data.read()


def cabinet(*vectors):
    """The text for a cabinet of dimension 4 with these words; a word of 0 is a board that is down."""
    rows = ["%d %s %s\n" % (a, "working" if w else "down", "".join(str(w >> k & 1) for k in range(4))) for a, w in enumerate(vectors)]
    return "cube 4\n" + "".join(rows)


def good():
    lists("document 01, example", words(15, 1) + BOARDS + bytes(8), FOUR)
    lists("n = 1", words(9, 1) + b"\1\1\377" + bytes(4), "cube 1\n0 working 1\n1 empty 0\n")
    marked = "cube 1\n0 working 0\n1 working 0\n"
    lists("two boards, marked by the first", words(9, 1) + b"\1\1\1" + words(1, 0), marked)
    lists("two boards, marked by the second", words(9, 1) + b"\1\1\1" + words(0, 1), marked)
    lists("two boards, marked by one that is down", words(9, 1) + b"\1\1\376" + words(0, 1), "cube 1\n0 working 0\n1 down 0\n")
    lists("cabinet F", sample("cabinet-f.record"), cabinet(11, 5, 13, 0, 0, 11, 0, 13, 15, 0, 15, 13, 15, 15, 15, 15))
    lists("cabinet L", sample("cabinet-l.record"), cabinet(10, 15, 10, 13, 13, 15, 15, 15, 13, 13, 13, 0, 10, 10, 15, 13))


def refused():
    def announces(told, came):
        return "the record's first two bytes announce %d bytes after them, and %d came" % (told, came)

    def dimension(n):
        return "the record's dimension n, its fifth byte, is %d, and n is from 1 to 10" % n

    kind = "the record's kind, its third and fourth byte, is %d, and a report's is 1"
    four = "a record of 4 boards has 17 bytes, and %d came"
    wide = "the link word of node %d marks a dimension above n = 2"
    over = "a record has at most 3077 bytes, and more than 4096 came"
    refuses("empty input", b"", 10, "no bytes came")
    refuses("four bytes", words(3, 1), 10, "a record has at least 5 bytes, and 4 came")
    refuses("one byte short", words(15, 1) + BOARDS + bytes(7), 10, announces(15, 14))
    refuses("one byte long", words(15, 1) + BOARDS + bytes(9), 10, announces(15, 16))
    refuses("one byte short, and says so", words(14, 1) + BOARDS + bytes(7), 10, four % 16)
    refuses("one byte long, and says so", words(16, 1) + BOARDS + bytes(9), 10, four % 18)
    refuses("length with its bytes exchanged", words(15 * 256, 1) + BOARDS + bytes(8), 10, announces(15 * 256, 15))
    refuses("kind 2", words(15, 2) + BOARDS + bytes(8), 10, kind % 2)
    refuses("kind 257", words(15, 257) + BOARDS + bytes(8), 10, kind % 257)
    refuses("n = 0", words(3, 1) + b"\0", 1, dimension(0))
    refuses("n = 0, as long as its one node asks", words(6, 1) + b"\0\1\0\0", 1, dimension(0))
    refuses("n = 11", words(3, 1) + b"\13", 1, dimension(11))
    refuses("n = 255", words(3, 1) + b"\377", 1, dimension(255))
    refuses("n = 11 and kind 2", words(3, 2) + b"\13", 10, kind % 2)
    refuses("n = 2 with no boards", words(3, 1) + b"\2", 10, four % 5)
    refuses("a link word with the bit of weight 4", words(15, 1) + BOARDS + words(4, 0, 0, 0), 3, wide % 0)
    refuses("a link word with the bit of weight 256", words(15, 1) + BOARDS + words(0, 0, 0, 256), 3, wide % 3)
    refuses("4,096 bytes and n = 0", words(4094, 1) + bytes(4092), 1, dimension(0))
    refuses("4,097 bytes and n = 0", words(4095, 1) + bytes(4093), 10, over)
    refuses("4,097 zeros", bytes(4097), 10, over)
    refuses("100,000 zeros", bytes(100000), 10, over)
    rows = random.Random(7)
    data = bytes(33 + rows.randrange(90) for _ in range(600))
    refuses("random bytes", data, 10, announces(int.from_bytes(data[:2], "little"), 598))


def by_keyboard():
    """At a terminal one Ctrl-D on an empty line is the end, and nothing more is read."""
    master, slave = pty.openpty()
    with subprocess.Popen([PROGRAM], stdin=slave, stdout=subprocess.PIPE, stderr=subprocess.PIPE) as program:
        os.close(slave)
        os.write(master, b"abc\n\4more")
        out, err = program.communicate(timeout=10)
    os.close(master)
    expect("the keyboard", (out, err.decode()), "refused 10\n", "listing: refused 10: a record has at least 5 bytes, and 4 came\n")


def in_pieces():
    """A record that comes byte by byte."""
    with subprocess.Popen([PROGRAM], stdin=subprocess.PIPE, stdout=subprocess.PIPE, stderr=subprocess.PIPE, bufsize=0) as program:
        for byte in words(15, 1) + BOARDS + bytes(8):
            program.stdin.write(bytes([byte]))
        out, err = program.communicate(timeout=10)
    expect("byte by byte", (out, err.decode()), FOUR, "")


def failures():
    folder = os.open(ROOT, os.O_RDONLY)
    expect("a folder", run(stdin=folder), "", "listing: standard input can't be read\n")
    os.close(folder)
    expect("a closed input", run(preexec_fn=lambda: os.close(0)), "", "listing: standard input can't be read\n")
    unwritten = "listing: standard output can't be written\n"
    record = sample("full-1024.record")
    with open("/dev/full", "wb") as full:
        expect("a full disk", run(input=record, stdout=full), "", unwritten)
        expect("a full disk and a refusal", run(input=b"", stdout=full), "", unwritten)
    expect("a closed output", run(input=record, stdout=None, preexec_fn=lambda: os.close(1)), "", unwritten)


good()
refused()
by_keyboard()
in_pieces()
failures()
print("listing: %d runs as expected" % runs)
