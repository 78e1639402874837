#!/usr/bin/env python3
"""Runs the program `refresh` on good and bad arguments, records and logs, and compares all that it writes."""
import os
import resource
import subprocess
import sys
import tempfile
import threading

ROOT = os.path.dirname(os.path.dirname(os.path.abspath(__file__)))
PROGRAM = os.path.join(ROOT, "crates", "refresh", "out", "refresh")
WORK = tempfile.TemporaryDirectory()
runs = 0


def words(*numbers):
    return b"".join(x.to_bytes(2, "little") for x in numbers)


def log(*entries):
    """A log of records, each given by its sweep and its node."""
    return b"".join(words(6, 2, sweep, node) for sweep, node in entries)


def record(status, links=(1, 0, 2, 0)):
    """A record of a cube of dimension 2."""
    body = words(1) + bytes([2]) + bytes(status) + words(*links)
    return words(len(body)) + body


STALE = record([9, 254, 255, 1])


def place(data, name="cabinet.log"):
    path = os.path.join(WORK.name, name)
    with open(path, "wb") as out:
        out.write(data)
    return path


def limited():
    resource.setrlimit(resource.RLIMIT_AS, (16 << 20, 16 << 20))


def run(arguments, given=STALE, **more):
    done = subprocess.run([PROGRAM] + arguments, input=given, stdout=subprocess.PIPE, stderr=subprocess.PIPE, **more)
    return done.stdout, os.fsdecode(done.stderr)


def expect(name, got, out, err):
    global runs
    if got != (out, err):
        sys.exit("refresh: %s: not as expected; it wrote %r" % (name, got))
    runs += 1


def says(name, arguments, line, given=STALE):
    """One line on standard error, and nothing on standard output."""
    expect(name, run(arguments, given), b"", line + "\n")


def refuses(name, data, number, meaning, given=STALE):
    """The number and what it means on standard error, and no record."""
    says(name, ["2", place(data)], "refresh: refused %d: %s" % (number, meaning), given)


def makes(name, sweep, data, status, skipped, given=STALE):
    """The record given with these status bytes, how many records were read and skipped, and how the boards stand."""
    wanted = given[:5] + bytes(status) + given[5 + len(status) :]
    expect(name, run([str(sweep), place(data)], given), wanted, told(int(sweep), len(data) // 8, skipped, status))


def told(sweep, read, skipped, status):
    silent = sum(byte == 0 for byte in status)
    working = sum(1 <= byte <= 4 for byte in status)
    lines = "refresh: records read: %d, of these from the future and skipped: %d\n" % (read, skipped)
    lines += "refresh: boards silent: %d, working: %d, late: %d\n" % (silent, working, len(status) - silent - working)
    if working == 0:
        lines += "refresh: warning: no board works at sweep %d; is that the present sweep?\n" % sweep
    return lines


def by_pipe(name, pieces, read, status, skipped):
    """A log that comes through a pipe in pieces, so that it can be read only once, to a program that may use 16 MiB."""
    pipe = os.path.join(WORK.name, "pipe")
    os.mkfifo(pipe)

    def write():
        with open(pipe, "wb", buffering=0) as out:
            for piece in pieces:
                out.write(piece)

    writer = threading.Thread(target=write)
    writer.start()
    got = run(["2", pipe], preexec_fn=limited)
    writer.join()
    os.remove(pipe)
    expect(name, got, STALE[:5] + bytes(status) + STALE[9:], told(2, read, skipped, status))


def good():
    makes("an empty log", 2, b"", [0, 0, 0, 0], 0)
    makes("ages 0 to 3 round the wrap", 2, log((2, 0), (1, 1), (0, 2), (65535, 3)), [1, 2, 3, 4], 0)
    makes("ages 4 and 252 to 254", 252, log((248, 0), (0, 1), (65535, 2), (65534, 3)), [5, 253, 253, 253], 0)
    makes("ages 251, 32767, 32768 and 65535", 251, log((0, 0), (33020, 1), (33019, 2), (252, 3)), [252, 253, 0, 0], 2)
    makes("the younger first, and last", 2, log((65535, 0), (2, 0), (2, 1), (65535, 1)), [1, 1, 0, 0], 0)
    makes("the future beside the past", 2, log((3, 0), (1, 0), (1, 1), (3, 1)), [2, 2, 0, 0], 2)
    makes("leading zeros of the sweep", "00002", log((2, 0)), [1, 0, 0, 0], 0)
    makes("the last sweep", 65535, log((65535, 3)), [0, 0, 0, 1], 0)
    parts = log(*[(2, a % 3) for a in range(8192)])
    makes("a record past the first part", 2, parts + log((1, 3)), [1, 1, 1, 2], 0)
    makes("a record of the first part that a later one doesn't better", 2, log((2, 3)) + parts + log((1, 3)), [1, 1, 1, 1], 0)
    makes("the future in three parts", 2, log((3, 3)) + parts + log((3, 3)) + parts + log((3, 3)), [1, 1, 1, 0], 3)
    makes("a whole number of parts", 2, parts + parts, [1, 1, 1, 0], 0)
    makes("the largest cube", 2, log((2, 1023)), [0] * 1023 + [1], 0, open(os.path.join(ROOT, "samples", "full-1024.record"), "rb").read())
    four = log((0, 0), (9, 1), (65535, 2), (1, 2))
    by_pipe("a long log through a pipe", [four * 4096] * 200, 4 * 4096 * 200, [3, 0, 2, 0], 4096 * 200)
    by_pipe("a log in pieces of seven bytes", [four[k : k + 7] for k in range(0, 32, 7)], 4, [3, 0, 2, 0], 1)


def refused():
    def cut(record, came):
        return "the log ends within its record %d: %d of 8 bytes came" % (record, came)

    def head(record, length, kind):
        return "the log's record %d has length %d and kind %d, and a status record has 6 and 2" % (record, length, kind)

    def lacks(record, node):
        return "the log's record %d names node %d, which a cabinet of 4 boards lacks" % (record, node)

    two = log((2, 0), (2, 1))
    for length in [k for k in range(16) if k % 8]:
        refuses("a log cut at %d" % length, two[:length], 11, cut(1 + length // 8, length % 8))
    refuses("another length", words(7, 2, 2, 0), 11, head(1, 7, 2))
    refuses("another kind", two + words(6, 1, 2, 0), 11, head(3, 6, 1))
    refuses("bytes exchanged", two[::-1], 11, head(1, 256, 512))
    refuses("node 4 of four", log((2, 4)), 12, lacks(1, 4))
    refuses("node 65,535 of four", two + log((2, 65535)), 12, lacks(3, 65535))
    refuses("node 4 from the future", log((3, 4)), 12, lacks(1, 4))
    refuses("11 before 12", words(6, 1, 2, 4), 11, head(1, 6, 1))
    refuses("12 in an earlier record", log((2, 4)) + words(6, 1, 2, 0), 12, lacks(1, 4))
    refuses("11 in an earlier record", words(6, 1, 2, 0) + log((2, 4)), 11, head(1, 6, 1))
    refuses("a node past the first part", log((2, 3)) * 8192 + log((2, 4)), 12, lacks(8193, 4))
    refuses("a log cut past the first part", log((2, 3)) * 8193 + b"\6", 11, cut(8194, 1))
    refuses("a record of no bytes", two, 10, "no bytes came", b"")
    announced = "the record's first two bytes announce 15 bytes after them, and 14 came"
    refuses("a record cut short", two, 10, announced, STALE[:-1])
    refuses("a record of 4,097 bytes", two, 10, "a record has at most 3077 bytes, and more than 4096 came", bytes(4097))
    refuses("n = 11", two, 1, "the record's dimension n, its fifth byte, is 11, and n is from 1 to 10", words(3, 1) + b"\13")
    wide = record([1, 1, 1, 1], (0, 0, 4, 0))
    refuses("a link word too wide", two, 3, "the link word of node 2 marks a dimension above n = 2", wide)
    refuses("a refused record before a refused log", b"\6", 10, "no bytes came", b"")


def arguments():
    path = place(log((2, 0)))
    give = "refresh: give the present sweep and the log's file name"
    sweep = "refresh: the present sweep is a number from 0 to 65535"
    says("no arguments", [], give)
    says("one argument", ["2"], give)
    says("three arguments", ["2", path, path], give)
    for text in ("", "x", "-1", "+2", " 2", "2 ", "2.0", "0x2", "65536", "99999999999999999999"):
        says("the sweep %r" % text, [text, path], sweep)
    missing = os.path.join(WORK.name, "missing.log")
    says("a missing log", ["2", missing], "refresh: the log %s: No such file or directory" % missing)
    says("a folder for a log", ["2", WORK.name], "refresh: the log can't be read")
    says("an empty name", ["2", ""], "refresh: the log's file name is empty")
    says("a long name", ["2", "x" * 5000], "refresh: the log's file name is too long")
    says("a name that is not UTF-8", ["2", b"\xff.log"], "refresh: the log %s: its name is not UTF-8" % os.fsdecode(b"\xff.log"))


def failures():
    path = place(log((2, 0)))

    def runs_on(name, line, **how):
        done = subprocess.run([PROGRAM, "2", path], stderr=subprocess.PIPE, **{"stdout": subprocess.PIPE, **how})
        expect(name, (done.stdout or b"", done.stderr.decode()), b"", line + "\n")

    unread, unwritten = "refresh: standard input can't be read", "refresh: standard output can't be written"
    folder = os.open(WORK.name, os.O_RDONLY)
    runs_on("a folder for a record", unread, stdin=folder)
    os.close(folder)
    runs_on("a closed input", unread, preexec_fn=lambda: os.close(0))
    with open("/dev/full", "wb") as full:
        runs_on("a full disk", unwritten, input=STALE, stdout=full)
    runs_on("a closed output", unwritten, input=STALE, stdout=None, preexec_fn=lambda: os.close(1))


good()
refused()
arguments()
failures()
print("refresh: %d runs as expected" % runs)
