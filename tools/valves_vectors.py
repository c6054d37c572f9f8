#!/usr/bin/env python3
"""Writes the valve maps that the program valves_tests replays.

    tools/valves_vectors.py [OUT]

OUT is the crate's folder (default: crates/valves_tests beside this script's folder). Written are stdin, the maps with their answers, and
stdout, what the program must print. A case is a header of 48 bytes, `KIND,N,ROOM,LENGTH,LENGTH` and line feeds behind it, then the map and the
expected answer. KIND 0 is a mask, 1 a list.

The answers come from the functions below, written from the request and document 01 alone; they share nothing with the definitions that the code
is proved against.
"""
import os
import random
import re
import sys

TICKET = """f,0,0
t,bool
t,pointer
t,bits,{n}
s,2,{size},1,36
v,0,0,2,0
p,variable,0
n,2,read,0
n,2,int,{constant}
n,2,binary,8,0,1
"""


def named(kind, text):
    """The valves of a map in the order given, or None where a list's field is no number."""
    if kind == 0:
        bits = int.from_bytes(text, "little")
        return [v for v in range(1, 65) if bits >> (v - 1) & 1]
    if text == b"":
        return []
    valves = []
    for field in text.split(b","):
        if not re.fullmatch(rb"0|[1-9][0-9]*", field) or int(field) >= 2 ** 64:
            return None
        valves.append(int(field))
    return valves


def answer(kind, n, text, room):
    if not 1 <= n <= 64:
        return b"refused,35,0\n"
    if kind == 0 and len(text) != 8:
        return b"refused,36,0\n"
    valves = named(kind, text)
    if valves is None or any(not 1 <= v <= n for v in valves) or any(a >= b for a, b in zip(valves, valves[1:])):
        return b"refused,35,0\n"
    ticket = TICKET.format(n=n, size=-(-n // 8), constant=sum(1 << (v - 1) for v in valves)).encode()
    return ticket if len(ticket) <= room else b"refused,28,0\n"


def mask(valves):
    return sum(1 << (v - 1) for v in valves).to_bytes(8, "little")


def listed(valves):
    return ",".join(map(str, valves)).encode()


def cases():
    rng = random.Random(9)
    # every board: no valve, the first, the last, all, one over, and valves at random, as mask and as list
    for n in range(1, 65):
        some = sorted(rng.sample(range(1, n + 1), rng.randint(1, n)))
        for valves in ([], [1], [n], list(range(1, n + 1)), some):
            yield 0, n, mask(valves), 256
            yield 1, n, listed(valves), 256
        if n < 64:
            yield 0, n, mask([n + 1]), 256
            yield 0, n, mask(some + [64]), 256
        yield 1, n, listed([n + 1]), 256
        yield 1, n, listed(some + [n + 1]), 256
    # boards there are none of, before all else
    for n in (0, 65, 100, 255, 256, 2 ** 32 + 12, 2 ** 63, 2 ** 64 - 1):
        for room in (0, 256):
            yield 0, n, mask([1]), room
            yield 0, n, b"", room
            yield 0, n, b"\xff" * 9, room
            yield 1, n, b"1", room
            yield 1, n, b"", room
            yield 1, n, b"x", room
    # masks of other lengths, before their bits and the buffer
    for size in (0, 1, 7, 9, 16, 64):
        for byte in (0, 255):
            for room in (0, 256):
                yield 0, 12, bytes([byte]) * size, room
    # a bit over N, before the buffer
    for room in (0, 256):
        yield 0, 12, mask([13]), room
        yield 1, 12, b"13", room
    # the request's values
    yield 1, 12, b"12", 256
    yield 0, 12, bytes([12, 0, 0, 0, 0, 0, 0, 0]), 256
    # lists that do not rise, valve 0, and fields that are no numbers
    for text in (
        b"1,1", b"2,1", b"1,3,2", b"1,2,2", b"0", b"0,1", b"1,0", b"01", b"1,02", b"00", b",", b"1,", b",1", b"1,,2", b" 1", b"1 ", b"1, 2", b"+1",
        b"-1", b"1;2", b"1\n", b"1,2\n", b"\n", b"a", b"1a", b"a1", b"0x1", b"1.0", b"\x00", b"1\x00", b"18446744073709551615", b"18446744073709551616",
        b"18446744073709551617", b"1,18446744073709551618", b"99999999999999999999999999", b"4294967297", b"1,4294967298", b"/", b":", b"1:", b"1/2",
        b"1,2,3,4,5,6,7,8,9,10,11,12,13", b"12,13", b"65", b"64", b"256", b"257", b"\xff", b"1,\xff", b"1" * 600, b"," * 600,
    ):
        yield 1, 12, text, 256
    for text in (b"64", b"63,64", b"1,64", b"65", b"64,65", b"64,64", b"62,64,63"):
        yield 1, 64, text, 256
    # the buffer: just enough, a byte short, and none
    for n in (1, 7, 8, 9, 12, 16, 17, 32, 63, 64):
        for valves in ([], [1], [n], list(range(1, n + 1))):
            size = len(answer(0, n, mask(valves), 256))
            for room in (size, size - 1, 0, 1, size + 1):
                yield 0, n, mask(valves), room
                yield 1, n, listed(valves), room


def main():
    here = os.path.dirname(os.path.abspath(__file__))
    out = sys.argv[1] if len(sys.argv) > 1 else os.path.join(here, "..", "crates", "valves_tests")
    count = 0
    with open(os.path.join(out, "stdin"), "wb") as f:
        for kind, n, text, room in cases():
            expected = answer(kind, n, text, room)
            f.write(f"{kind},{n},{room},{len(text)},{len(expected)}".encode().ljust(48, b"\n") + text + expected)
            count += 1
    with open(os.path.join(out, "stdout"), "w") as f:
        f.write(f"{count} maps, 0 failed\n")


if __name__ == "__main__":
    main()
