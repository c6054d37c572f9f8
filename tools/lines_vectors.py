#!/usr/bin/env python3
"""Writes the cases that the program lines_tests asks.

    tools/lines_vectors.py [OUT]

OUT is the crate's folder (default: crates/lines_tests beside this script's folder). Written are stdin, the cases with their answers, and
stdout, what the program must print. A case is a line `TICKET,LISTING,K,TEXT,FROM,TO` and the bytes of both texts: TICKET and LISTING are
their lengths, TEXT is 0 where the ticket holds the line, 1 where the listing does and 2 where neither does, FROM and TO where it starts and
where its line feed stands.

The answers come from the search below, written from change request E13 alone; it reads both texts to the end.
"""
import os
import random
import sys


def lines(text):
    """Where each line starts and ends; what has no line feed is none."""
    found, start = [], 0
    for i, byte in enumerate(text):
        if byte == 10:
            found.append((start, i))
            start = i + 1
    return found


def answer(ticket, listing, k):
    own = [(a, b) for a, b in lines(ticket) if ticket[a:b][:2] == b"s,"]
    new = [(a, b) for a, b in lines(listing) if listing[a:b].startswith(b"storage,%d," % k)]
    if len(own) > k:
        return 0, own[k][0], own[k][1]
    if new:
        return 1, new[0][0], new[0][1]
    return 2, 0, 0


PRINTED_TICKET = b"f,0,0\nt,bool\nt,pointer\nt,bits,9\ns,2,2,1,36\nv,0,0,2,0\np,variable,0\nn,2,read,0\nn,2,int,12\nn,2,binary,0,0,1\n"
PRINTED_LISTING = (b"storage,1,2,2,0,0,36\nstorage,2,3,0,1,1,2\ni,add,1.0,0.0,#12,-,2\ni,add,1.1,0.1,#0,2,-\ni,and,1.1,1.1,#1\n"
                   b"value,2,bytes,2,1.0,1.1\ndone,3,2,2\n")
LARGEST = 2 ** 64 - 1


def fixed():
    """The printed case, and what sets a line apart from those that look like it."""
    for k in [0, 1, 2, 3, 4, 12, 10 ** 19, LARGEST]:
        yield PRINTED_TICKET, PRINTED_LISTING, k
    near = b"storage,12,1\nstorage,10,2\nstorage,1,3\nstorage,100,4\nstorage,1,5\nstorage,11,6\n"
    for k in [0, 1, 2, 10, 11, 12, 100, 101]:
        yield b"", near, k
        yield b"s,0\n", near, k
        yield near, b"s,0\n", k
    for k in [9, 10, 99, 100, 999, 1000, 1001, 65535, 10 ** 18, 10 ** 19, LARGEST - 1, LARGEST]:
        yield b"s,1\ns,2\n", b"storage,%d,1,0,0,0,36\nstorage,%d,2\nstorage,0%d,3\n" % (k // 10, k, k), k
        yield b"", b"storage,%d\n storage,%d,\nstorage,%d,\n" % (k, k, k), k
        yield b"", b"storage,%d,1" % k, k
    alone = [b"", b"\n", b"\n\n", b"s", b"s\n", b"s,", b"s,\n", b"s,1", b"s,1\n", b"\ns,1\n", b"ss,1\n", b" s,1\n", b"S,1\n", b"s.1\n", b"t,s,\n",
             b"s,1\r\n", b"s,\x00\xff\n", b"s,1\ns,2", b"s,1\ns,2\n", b"s,1\n\n\ns,2\nf\ns,3\n", b"\xff\ns,\n\x00s,\ns,s,\n"]
    for t in alone:
        for k in range(4):
            yield t, b"storage,0,a\nstorage,1,b\nstorage,2,c", k
    listed = [b"storage,0,", b"storage,0,\n", b"storage,0\n", b"storage,00,1\n", b"storage,,\n", b"storage,\n", b"Storage,0,1\n", b"storage;0,1\n",
              b"i,storage,0,1\n", b"\nstorage,0,1\n", b"storage,0,1\r\n", b"storage,0,\x00\xfe\nstorage,0,2\n", b"storage,0 ,1\nstorage,0,3\n"]
    for t in listed:
        yield b"", t, 0
        yield b"s\n", t, 0
        yield b"s,", t, 0
        yield b"s,9\n", t, 0


def large(source):
    """A ticket with the most storages and a listing with a hundred more, other lines between them."""
    ticket = b"f,0,0\nt,bool\nt,pointer\n"
    for i in range(256):
        ticket += b"s,1,0,1,%d\n" % source.randrange(512) + source.choice([b"", b"", b"v,0,0,2,0\n", b"storage,%d,0\n" % i])
    listing = b"".join(b"storage,%d,1,0,0,%d,36\n" % (i, i) for i in source.sample(range(200, 300), 100))
    for k in [0, 1, 2, 127, 199, 200, 254, 255, 256, 257, 270, 298, 299, 300, LARGEST]:
        yield ticket, listing, k


PIECES = [b"s", b",", b"s,", b"storage,", b"storage", b"0", b"1", b"2", b"12", b"\x00", b"\xff", b"\r", b" "]


def wild(source):
    """Texts of lines that begin as a storage's or nearly so, and of any bytes; some without their last line feed."""
    def line():
        front = source.choice([b"s,", b"s,", b"storage,%d," % source.randrange(4), b"storage,%d," % source.randrange(4), b"storage,1", b"storage,", b"s", b"", b"t,"])
        return front + b"".join(source.choice(PIECES) for _ in range(source.randrange(4)))

    def text():
        if source.random() < 0.1:
            return bytes(source.choice([10, 44, 115, source.randrange(256)]) for _ in range(source.randrange(40)))
        return b"\n".join(line() for _ in range(source.randrange(14))) + source.choice([b"", b"\n", b"\n"])
    return text(), text(), source.choice([0, 1, 1, 2, 2, 3])


def main():
    out = sys.argv[1] if len(sys.argv) > 1 else os.path.join(os.path.dirname(os.path.realpath(__file__)), "..", "crates", "lines_tests")
    source = random.Random(13)
    cases = list(fixed()) + list(large(source)) + [wild(source) for _ in range(800)]
    kinds = [0, 0, 0]
    written = b""
    for ticket, listing, k in cases:
        found = answer(ticket, listing, k)
        kinds[found[0]] += 1
        written += b"%d,%d,%d,%d,%d,%d\n" % (len(ticket), len(listing), k, *found) + ticket + listing
    with open(os.path.join(out, "stdin"), "wb") as f:
        f.write(written)
    with open(os.path.join(out, "stdout"), "w", encoding="utf-8") as f:
        f.write("%d cases, 0 failed\n" % len(cases))
    print(len(written), "bytes;", len(cases), "cases:", *kinds, "in the ticket, in the listing, in neither")


if __name__ == "__main__":
    main()
