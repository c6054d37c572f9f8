#!/usr/bin/env python3
"""Writes the texts that the program figures_tests replays.

    tools/figures_vectors.py [OUT]

OUT is the crate's folder (default: crates/figures_tests beside this script's folder). Written are stdin, the texts with their answers, and
stdout, what the program must print. A case is a line `SIZE,ROOM,LENGTH`, SIZE bytes of text and LENGTH bytes of answer: the annex, or the line
`refused,NUMBER,LINE`. ROOM is the length of the buffer that is lent.

The answers are written from the request's own words and document 01's number form, with Python's fractions; they share nothing with the
definitions that the code is proved against.
"""
import os
import random
import re
import sys
from fractions import Fraction

DONE = re.compile(rb"done,(0|[1-9][0-9]*),(0|[1-9][0-9]*),(0|[1-9][0-9]*)\Z")


def figures(numbers):
    n = len(numbers)
    mean = Fraction(sum(numbers), n)
    variance = sum((x - mean) ** 2 for x in numbers) / n
    shown = [f"{f.numerator}/{f.denominator}" for f in (mean, Fraction(variance))]
    return ",".join([str(n), str(min(numbers)), str(max(numbers))] + shown) + "\n"


def answer(text, room):
    if not text:
        return b"refused,41,0\n"
    counted, line = [], 0
    while text:
        line += 1
        if line > 1000:
            return b"refused,41,%d\n" % line
        head, feed, text = text.partition(b"\n")
        match = DONE.match(head)
        if not feed or not match:
            return b"refused,42,%d\n" % line
        instructions, storages, following = (int(x) for x in match.groups())
        if max(instructions, storages) > 65535 or following >= 2**64:
            return b"refused,42,%d\n" % line
        counted.append((instructions, storages))
    annex = (figures([i for i, _ in counted]) + figures([s for _, s in counted])).encode()
    return annex if len(annex) <= room else b"refused,28,0\n"


def lines(rows):
    return b"".join(b"done,%d,%d,%d\n" % row for row in rows)


def cases():
    """(text, room): room None stands for exact and one short, and for a text that is not long also for none and more."""
    # one line, all alike, extremes
    for row in [(0, 0, 0), (3, 2, 2), (65535, 65535, 2**64 - 1), (0, 65535, 1), (65535, 0, 9), (1, 0, 10**19)]:
        yield lines([row]), None
    for n in (2, 3, 7, 10, 999, 1000):
        yield lines([(5, 9, 1)] * n), None
    yield lines([(0, 65535, 0), (65535, 0, 0)]), None
    yield lines([(0, 65535, 0), (65535, 65535, 0), (65534, 1, 0)]), None
    yield lines([(65535, 0, 0)] * 500 + [(0, 65535, 0)] * 500), None
    yield lines([(65535, 65535, 0)] * 1000), None
    yield lines([(i % 2, i % 3, i) for i in range(1000)]), None
    yield lines([(65535 - i, i, i) for i in range(1000)]), None
    # means and variances that reduce, and that do not
    for a in ([1, 2], [2, 4], [1, 2, 3], [1, 1, 2], [2, 2, 2, 6], [1, 2, 4, 8], [6, 10, 15], [0, 0, 0, 1], [3, 3, 6], [7, 11, 13, 17, 19]):
        yield lines([(x, 100 - x, x) for x in a]), None
    # least and greatest first, in the middle, last
    for a in ([1, 5, 9], [9, 5, 1], [5, 1, 9], [5, 9, 1], [9, 1, 5], [1, 9, 5]):
        yield lines([(x, 2 * x, 0) for x in a]), None
    # 41
    yield b"", 256
    yield b"", 0
    good = b"done,5,9,1\n"
    for behind in (good, b"x", b"\n", b"done,65536,0,0\n", b"done,5,9,1", b"\x00", b"\xff\n", good * 2):
        yield good * 1000 + behind, 256
    yield good * 1000 + good, 0
    # 42: forms
    bad = [
        b"\n", b"done\n", b"done,\n", b"done,1\n", b"done,1,2\n", b"done,1,2,\n", b"done,1,2,3,\n", b"done,1,2,3,4\n", b",1,2,3\n", b"don,1,2,3\n",
        b"Done,1,2,3\n", b"done ,1,2,3\n", b" done,1,2,3\n", b"done,1,2,3 \n", b"done, 1,2,3\n", b"done,01,2,3\n", b"done,1,02,3\n", b"done,1,2,03\n",
        b"done,00,2,3\n", b"done,1,00,3\n", b"done,1,2,00\n", b"done,,2,3\n", b"done,1,,3\n", b"done,-1,2,3\n", b"done,1,+2,3\n", b"done,1.0,2,3\n",
        b"done,0x1,2,3\n", b"done,1,2,1_0\n", b"done,1,2,3\r\n", b"done,1;2,3\n", b"done,65536,2,3\n", b"done,1,65536,3\n", b"done,65536,65536,3\n",
        b"done,18446744073709551616,2,3\n", b"done,1,18446744073709551616,3\n", b"done,1,2,18446744073709551616\n",
        b"done,18446744073709551615,2,3\n", b"done,1,2,99999999999999999999\n", b"done,1,2,184467440737095516150\n", b"done,4294967296,2,3\n",
        b"done,1,65537,3\n", b"storage,1,2,2,0,0,36\n", b"done,1,2,3\x00\n", b"\x00\n", b"\xff\xfe\n", b"done,\xb2,2,3\n", b"done:1,2,3\n",
        b"done,a,2,3\n", b"done,1,b,3\n", b"done,1,2,c\n", b"done,1,2,3/1\n", b"donedone,1,2,3\n",
    ]
    for text in bad:
        yield text, 256
    # a last line with no line feed
    for text in (b"done,1,2,3", b"d", b"done", b"done,1,2,", b"x", b",", b" "):
        yield text, 256
        yield good + text, 256
    yield good * 999 + b"done,1,2,3", 256
    # at the first, middle and last line; two faults
    for fault in (b"done,1,2\n", b"done,65536,0,0\n", b"done,1,2,3,4\n"):
        yield fault + good * 9, 256
        yield good * 5 + fault + good * 4, 256
        yield good * 9 + fault, 256
        yield fault * 2, 256
        yield good + fault + good + b"x\n", 0
    yield good * 999 + b"x\n", 256
    yield good + b"x\n" + b"done,65536,1,1\n", 256
    yield good + b"done,1,2,3,4\n" + good * 1000, 256
    yield b"x\n" + good * 1000, 256
    # the greatest numbers that are taken
    for row in [(65535, 1, 0), (1, 65535, 0), (1, 1, 2**64 - 1)]:
        yield lines([row, (1, 1, 1)]), None
    # drawn at random
    draw = random.Random(11)
    for _ in range(60):
        top = draw.choice([1, 3, 10, 100, 1000, 65535])
        n = draw.choice([1, 2, 3, 4, 5, 6, 8, 12, 30, 60])
        yield lines([(draw.randint(0, top), draw.randint(0, top), draw.randint(0, 2**64 - 1)) for _ in range(n)]), None
    for _ in range(40):
        text = bytearray(lines([(draw.randint(0, 99), draw.randint(0, 99), draw.randint(0, 99)) for _ in range(draw.randint(1, 5))]))
        text[draw.randrange(len(text))] = draw.choice(b"0,\nx9d\x00\xff")
        yield bytes(text), 256


def main():
    here = os.path.dirname(os.path.dirname(os.path.abspath(__file__)))
    out = sys.argv[1] if len(sys.argv) > 1 else os.path.join(here, "crates", "figures_tests")
    written, count = [], 0
    for text, room in cases():
        full = answer(text, 256)
        rooms = [len(full), len(full) - 1, 0, len(full) + 1, 256]
        for r in [room] if room is not None else rooms[:2] if len(text) > 4000 else rooms:
            a = answer(text, r)
            written.append(b"%d,%d,%d\n" % (len(text), r, len(a)) + text + a)
            count += 1
    with open(os.path.join(out, "stdin"), "wb") as f:
        f.write(b"".join(written))
    with open(os.path.join(out, "stdout"), "w") as f:
        f.write(f"{count} texts, 0 failed\n")


main()
