#!/usr/bin/env python3
"""Writes the cases that the program blocks_tests runs.

    tools/blocks_vectors.py [OUT]

OUT is the crate's folder (default: crates/blocks_tests beside this script's folder). Written are stdin, the cases, and stdout, what the
program must print. A case is a header of 32 bytes, `CALL,LENGTH,ROOM,NUMBER,LINE` and line feeds behind it, then LENGTH bytes of input and
the ROOM bytes that the output must hold after the call. CALL is 0 to transpose, 1 to transpose back, 2 to mirror; NUMBER 0 says that the
call is accepted. Before the call byte i of the output is (31 * i + 7) % 256.

The answers come from change request E10 alone: a day's mask is a number of 64 bits, its eight bytes lowest first, with valve v as bit v - 1.
"""
import os
import random
import sys


def transposed(block):
    masks = [int.from_bytes(block[8 * day:8 * day + 8], "little") for day in range(8)]
    return bytes(sum((masks[day] >> valve & 1) << day for day in range(8)) for valve in range(64))


def transposed_back(block):
    masks = [sum((block[valve] >> day & 1) << valve for valve in range(64)) for day in range(8)]
    return b"".join(mask.to_bytes(8, "little") for mask in masks)


def mirrored(block):
    return bytes(int(format(byte, "08b")[::-1], 2) for byte in block)


CALLS = [transposed, transposed_back, mirrored]


def case(call, data, room):
    before = bytes((31 * i + 7) % 256 for i in range(room))
    if len(data) % 64:
        number, after = 39, before
    elif room < len(data):
        number, after = 40, before
    else:
        done = b"".join(CALLS[call](data[at:at + 64]) for at in range(0, len(data), 64))
        number, after = 0, done + before[len(done):]
    header = b"%d,%d,%d,%d,0\n" % (call, len(data), room, number)
    return header.ljust(32, b"\n") + data + after


def cases():
    # every valve, and every day eight times
    for valve in range(64):
        mask = 1 << valve
        day = (5 * valve + 3) % 8
        yield case(0, b"".join((mask if d == day else 0).to_bytes(8, "little") for d in range(8)), 64)
        yield case(1, bytes(1 << day if v == valve else 0 for v in range(64)), 64)
    # every byte
    yield case(2, bytes(range(256)), 256)
    some = random.Random(10)
    for call in range(3):
        for length in (0, 1, 63, 64, 65, 127, 128, 192, 256):
            data = bytes(some.randrange(256) for _ in range(length))
            for room in sorted({0, max(length - 64, 0), max(length - 1, 0), length, length + 1, length + 64}):
                yield case(call, data, room)
        for _ in range(40):
            data = bytes(some.randrange(256) for _ in range(64 * some.randrange(5)))
            yield case(call, data, len(data) + some.choice((0, 0, 1, 7, 63, 64)))


def main():
    here = os.path.dirname(os.path.dirname(os.path.abspath(__file__)))
    out = sys.argv[1] if len(sys.argv) > 1 else os.path.join(here, "crates", "blocks_tests")
    made = list(cases())
    with open(os.path.join(out, "stdin"), "wb") as f:
        f.write(b"".join(made))
    with open(os.path.join(out, "stdout"), "w") as f:
        f.write("%d cases, 0 failed\n" % len(made))


main()
