#!/usr/bin/env python3
"""Writes the damaged and boundary tickets that the program reading_tests replays.

    tools/reading_vectors.py [OUT]

OUT is the crate's folder (default: crates/reading_tests beside this script's folder). Written are stdin, the tickets with their answers, and
stdout, what the program must print. A ticket is a line `LENGTH,NUMBER,LINE` and LENGTH bytes; NUMBER 0 says that reading accepts it.

The answers come from the reader below, written from document 01's sections Ticket and Refusal table and document 02's limits alone; it shares
nothing with the definitions that the code is proved against.
"""
import os
import random
import re
import sys

TYPES = {"unit": [], "bool": [], "bits": ["1-64"], "float": ["32|64"], "pointer": [], "array": ["T", "0-65535"], "opaque": ["0-65535"]}
PLACES = {"variable": ["*"], "static": ["*"], "field": ["P", "*"], "element": ["P", "N"], "offset": ["P", "N"]}
NODES = {
    "bool": ["0-1"], "int": ["*"], "f32": ["0-4294967295"], "f64": ["*"], "null": [], "staticaddress": ["*", "0-65535"], "function": ["0-65535"],
    "read": ["P"], "unary": ["0-4", "N"], "binary": ["0-18", "N", "N"], "funary": ["N"], "fbinary": ["N", "N"], "compare": ["0-15", "N", "N"],
    "convert": ["0-13", "N"], "select": ["N", "N", "N"], "address": ["P"], "offset": ["N", "N"], "extract": ["N", "*"], "insert": ["N", "*", "N"],
}
PLACED = ["STORAGE", "0-65535", "TYPE", "0-1"]
ORDER = {"f": 0, "t": 1, "s": 2, "v": 3, "g": 4, "p": 5, "n": 5}
MOST = {"t": 256, "s": 256, "v": 64, "g": 64, "p": 1024, "n": 1024}
MOST_SUM = 8192  # of sizes, and of weights


def fields_of(parts):
    """A line's classes and their values as texts, or None where the form is wrong."""
    kind, rest = parts[0], parts[1:]
    if kind == "f":
        classes = ["0-65535", "0-65535"]
    elif kind == "s":
        classes = ["0-3", "0-65535", "0-1", "0-511"]
    elif kind in ("v", "g"):
        classes = PLACED
    elif kind == "t" and rest:
        word, rest = rest[0], rest[1:]
        if word in ("struct", "tuple"):
            classes = ["T"] * len(rest)
        elif word in TYPES:
            classes = TYPES[word]
        else:
            return None
        kind = (kind, word)
    elif kind == "p" and rest and rest[0] in PLACES:
        kind, classes, rest = (kind, rest[0]), PLACES[rest[0]], rest[1:]
    elif kind == "n" and len(rest) > 1:
        word = rest[1]
        if word == "aggregate":
            classes = ["TYPE"] + ["N"] * (len(rest) - 2)
        elif word in NODES:
            classes = ["TYPE"] + NODES[word]
        else:
            return None
        kind, rest = (kind, word), [rest[0]] + rest[2:]
    else:
        return None
    return (kind, classes, rest) if len(classes) == len(rest) else None


def number(text):
    return int(text) if re.fullmatch(r"0|[1-9][0-9]*", text) and int(text) < 2 ** 64 else None


def in_range(c, x):
    if c == "32|64":
        return x in (32, 64)
    if "-" in c:
        low, high = map(int, c.split("-"))
        return low <= x <= high
    return True


def read(ticket):
    """The refusal's number and line, or None."""
    if len(ticket) > 65536:
        return 1, 0
    lines = ticket.split(b"\n")
    table = {k: [] for k in "ftsvgpn"}  # rows: (line, type size, weight, depth, what) by kind
    stage, sizes, weights = -1, 0, 0
    used = {"p": {}, "n": {}}
    for at, raw in enumerate(lines[:-1], 1):
        form = fields_of(raw.decode("latin-1").split(","))
        values = form and [number(x) for x in form[2]]
        if not form or None in values:
            return 2, at
        kind, classes, _ = form
        k, word = kind if isinstance(kind, tuple) else (kind, None)
        if (stage == -1) != (k == "f") or (k != "f" and ORDER[k] < stage):
            return 2, at
        if k in MOST and len(table[k]) >= MOST[k]:
            return 8, at
        args = list(zip(classes, values))
        cross = k == "s" and (values[1] < 1 if values[0] == 2 else values[1] != 0) or k in ("v", "g") and values[3] == 1 and values[2] != 0
        if cross or not all(in_range(c, x) for c, x in args):
            return 3, at
        earlier = {"T": "t", "TYPE": "t", "STORAGE": "s", "P": "p", "N": "n"}
        if any(c in earlier and x >= len(table[earlier[c]]) for c, x in args):
            return 4, at
        types = table["t"]
        if k == "t":
            what = (word, tuple(values))
            if any(t[4] == what for t in types) or len(types) < 2 and word != ("bool", "pointer")[len(types)]:
                return 5, at
        elif k != "f" and len(types) < 2:
            return 5, at
        size = weight = 0
        if k == "t":
            parts = [types[x] for c, x in args if c == "T"]
            size = {"unit": 0, "bool": 1, "pointer": 2}.get(word, 0)
            weight = 1
            if word == "bits":
                size = -(-values[0] // 8)
            elif word == "float":
                size = values[0] // 8
            elif word == "opaque":
                size = values[0]
            elif word == "array":
                size, weight = parts[0][1] * values[1], 1 + parts[0][2] * values[1]
            elif word in ("struct", "tuple"):
                size, weight = sum(p[1] for p in parts), 1 + sum(p[2] for p in parts)
            if size > 1024 or weight > 4096:
                return 6, at
        for c, x in args:
            if c in "PN" and len(c) == 1:
                if x in used[c.lower()]:
                    return 7, at
                used[c.lower()][x] = True
        deep = {"T": "t"} if k == "t" else {"P": "p", "N": "n"}
        depth = 1 + max([table[deep[c]][x][3] for c, x in args if c in deep], default=0)
        if depth > (16 if k == "t" else 64):
            return 9, at
        if k == "n":
            sizes, weights = sizes + types[values[0]][1], weights + types[values[0]][2]
            if sizes > MOST_SUM or weights > MOST_SUM:
                return 10, at
        table[k].append((at, size, weight, depth, (word, tuple(values)) if k == "t" else None))
        stage = ORDER[k]
    if lines[-1]:
        return 2, len(lines)
    left = [r[0] for i, r in enumerate(table["p"]) if i not in used["p"]] + [r[0] for i, r in enumerate(table["n"][:-1]) if i not in used["n"]]
    if left:
        return 7, min(left)
    if not table["n"]:
        return 2, len(lines)
    return None


# ---------------------------------------------------------------- tickets

HEAD = ["f,0,0", "t,bool", "t,pointer"]


def text(lines):
    return "".join(x + "\n" for x in lines).encode("latin-1")


def bools(n):
    return ["n,0,bool,1"] * n


def places(n):
    """Places, two and two of them read by a node."""
    pairs = [x for i in range(n // 2) for x in ("p,variable,0", "p,field,%d,0" % (2 * i), "n,0,read,%d" % (2 * i + 1))]
    return pairs + ["p,variable,0", "n,0,read,%d" % (n - 1)] * (n % 2)


def joined(kind, nodes):
    """The aggregate of nodes."""
    return ",".join(["n,%d,aggregate" % kind] + [str(i) for i in nodes])


def too_many_lines(add):
    """A line too many, beside another refusal of that line or a later one: 2 comes before 8, and 8 before all others."""
    full = HEAD + bools(1024)
    add("8 before 3", full + ["n,0,bool,2"])
    add("8 before 4", full + ["n,9,unary,0,1024"])
    add("8 before 7", HEAD + ["n,0,bool,1", "n,0,unary,0,0"] + bools(1022) + ["n,0,unary,0,0"])
    add("2 before 8", full + ["n,0,bool"])
    add("order before 8", full + ["s,0,0,0,0"])
    add("3 on the line before 8", full[:-1] + ["n,0,bool,2", "n,0,bool,1"])
    add("8 on the line before 2", full + ["n,0,bool,1", "x"])
    add("a place behind 1,024 nodes", full + ["p,variable,0", joined(0, range(1024))])
    add("a node behind 1,024 places", HEAD + ["p,variable,0"] * 1024 + ["n,0,bool,1"])
    add("8 before 4, places", HEAD + ["p,variable,0"] * 1024 + ["p,field,1024,0"])
    add("1,024 places and 1,024 nodes", HEAD + places(1024) + bools(511) + [joined(0, range(1023))])
    add("8 before 10", HEAD + ["t,opaque,8"] + ["n,2,null"] * 1024 + ["n,2,null"])
    add("10 on a line before 8", HEAD + ["t,opaque,9"] + ["n,2,null"] * 1025)


def sums(add):
    """The sums over nodes at their limit: a type's own size is at most 1,024, its weight at most 4,096."""
    for n in (2047, 2048, 2049, 8191, 8192, 8193):
        whole = n // 1024
        kinds = [2] * whole + [3]
        types = ["t,opaque,1024", "t,opaque,%d" % (n - 1024 * whole), "t,unit"]
        nodes = ["n,%d,null" % k for k in kinds]
        add("size sum %d" % n, HEAD + types + nodes + [joined(4, range(len(nodes)))])
        add("size sum %d by its last line" % n, HEAD + types + ["n,4,null"] + nodes[:-1] + [joined(3, range(len(nodes)))])
    for n in (2047, 2048, 2049, 4097, 8191, 8192, 8193):
        # nodes of a great weight, and one for what is left but for the root's 1
        whole = (n - 2) // 4001
        types = ["t,unit", "t,array,2,4000", "t,array,2,%d" % (n - 2 - 4001 * whole)]
        nodes = ["n,3,null"] * whole + ["n,4,null"]
        add("weight sum %d" % n, HEAD + types + nodes + [joined(2, range(len(nodes)))])
        add("weight sum %d by its last line" % n, HEAD + types + ["n,2,null"] + nodes[:-1] + [joined(4, range(len(nodes)))])
    full = HEAD + ["t,opaque,1024", "t,unit"] + ["n,2,null"] * 8
    add("9 before 10", HEAD + ["t,opaque,1024", "n,0,bool,1"] + ["n,0,convert,11,%d" % i for i in range(62)] + ["n,2,null"] * 7
        + ["n,0,convert,11,62", "n,2,convert,11,70"])
    add("7 before 10", full + ["n,2,binary,0,1,1"])
    add("10 on the line before 2", full + ["n,0,bool,1", "x"])
    add("nothing more to the size", full + ["n,3,null"] * 3 + [joined(3, range(11))])
    add("the least more", full + ["n,0,bool,1"])
    add("weight sum of one node", HEAD + ["t,unit", "t,array,2,4095", "n,3,null"])


def cases():
    """Every refusal by each of its rules, and the last accepted and the first refused at every limit."""
    out = []

    def add(name, ticket):
        out.append((name, ticket if isinstance(ticket, bytes) else text(ticket)))

    base = HEAD + ["t,bits,9", "s,2,2,1,36", "v,0,0,2,0", "p,variable,0", "n,2,read,0", "n,2,int,12", "n,2,binary,0,0,1"]
    add("printed", base)
    for cut in range(len(text(base))):
        if cut % 3 == 0:
            add("cut", text(base)[:cut])
    for i in range(len(base)):
        add("line left out", base[:i] + base[i + 1:])
        add("line twice", base[:i + 1] + base[i:])
        add("line empty", base[:i] + [""] + base[i:])
        add("carriage return", base[:i] + [base[i] + "\r"] + base[i + 1:])
        add("nul", base[:i] + [base[i] + "\0"] + base[i + 1:])
        add("byte over 127", base[:i] + ["\xff" + base[i]] + base[i + 1:])
        add("space", base[:i] + [base[i].replace(",", ", ", 1)] + base[i + 1:])
        add("comma behind", base[:i] + [base[i] + ","] + base[i + 1:])
        add("field left out", base[:i] + [base[i].rpartition(",")[0]] + base[i + 1:])
        add("leading zero", base[:i] + [re.sub(r",(\d)", r",0\1", base[i], count=1)] + base[i + 1:])
        add("2^64 - 1", base[:i] + [re.sub(r"\d+$", str(2 ** 64 - 1), base[i])] + base[i + 1:])
        add("2^64", base[:i] + [re.sub(r"\d+$", str(2 ** 64), base[i])] + base[i + 1:])
        add("long number", base[:i] + [re.sub(r"\d+$", "9" * 40, base[i])] + base[i + 1:])
        if i + 1 < len(base):
            add("lines exchanged", base[:i] + [base[i + 1], base[i]] + base[i + 2:])
    for e in [b"", b"\n", b"f", b"f,0,0", b"f,0,0\n", b"\n\n", b"x\n", b",\n", b"f,,0\n", b"f,0,0,0\n"]:
        add("short", e)
    for n in (65535, 65536):
        for line in ("f,%d,0", "f,0,%d"):
            add("f range", [line % n] + HEAD[1:] + ["n,0,bool,1"])
    for w in range(0, 67):
        if w in (0, 1, 2, 8, 9, 63, 64, 65, 66):
            add("width", HEAD + ["t,bits,%d" % w, "n,2,int,0"])
    for w in (0, 31, 32, 33, 64, 65):
        add("float", HEAD + ["t,float,%d" % w, "n,0,bool,1"])
    for n in (0, 1023, 1024, 1025, 65535, 65536):
        add("opaque", HEAD + ["t,opaque,%d" % n, "n,1,null"])
        add("array", HEAD + ["t,array,0,%d" % n, "n,1,null"])
    for n in (4094, 4095, 4096):
        add("weight", HEAD + ["t,unit", "t,array,2,%d" % n, "n,1,null"])
        add("weight of a struct", HEAD + ["t,unit", "t,array,2,%d" % (n - 2), "t,struct,3", "t,tuple,3,2", "n,1,null"])
    for kind in range(0, 5):
        for n in (0, 1, 65535, 65536):
            add("storage", HEAD + ["s,%d,%d,0,0" % (kind, n), "n,1,null"])
    for o, r in ((1, 511), (2, 0), (0, 512)):
        add("storage", HEAD + ["s,0,0,%d,%d" % (o, r), "n,1,null"])
    for k in "vg":
        for row in ("0,0,0,0", "1,0,0,0", "0,65535,0,1", "0,65536,0,0", "0,0,1,1", "0,0,2,0", "0,0,0,2", "0,0,1,0"):
            add("placed", HEAD + ["s,1,0,0,0", "%s,%s" % (k, row), "n,1,null"])
    for word, classes in sorted(NODES.items()):
        good = {"P": "0", "N": "0", "*": "7"}
        fields = [good.get(c, c.split("-")[0]) for c in classes]
        before = ["p,variable,0", "n,0,bool,1", "n,0,bool,0", "n,0,bool,1"]
        line = "n,0,%s" % word
        add("node " + word, HEAD + before + [",".join([line] + fields)])
        add("node type " + word, HEAD + before + [",".join(["n,2,%s" % word] + fields)])
        for i, c in enumerate(classes):
            for x in {"P": ["1"], "N": ["3"], "*": [str(2 ** 64 - 1)]}.get(c) or [c.split("-")[1], str(int(c.split("-")[1]) + 1)]:
                add("node %s field" % word, HEAD + before + [",".join([line] + fields[:i] + [x] + fields[i + 1:])])
    for word, classes in sorted(PLACES.items()):
        for x in ("0", "1", "18446744073709551615"):
            fields = ["0" if c == "P" else x for c in classes]
            add("place " + word, HEAD + ["p,variable,0", "n,0,int,0", ",".join(["p", word] + fields), "n,0,read,1"])
    add("left over place", HEAD + ["p,variable,0", "n,0,bool,1"])
    add("left over place and no node", HEAD + ["p,variable,0"])
    add("left over node", HEAD + ["n,0,bool,1", "n,0,bool,1"])
    add("left over before a fault", HEAD + ["n,0,bool,1", "n,0,bool,1", "x"])
    add("twice", HEAD + ["n,0,bool,1", "n,0,unary,0,0", "n,0,unary,0,0"])
    add("twice by one line", HEAD + ["n,0,bool,1", "n,0,binary,0,0,0"])
    add("place twice", HEAD + ["p,variable,0", "n,0,read,0", "n,0,read,0", "n,0,binary,0,0,1"])
    add("itself", HEAD + ["n,0,unary,0,0"])
    add("alike", HEAD + ["t,bits,8", "t,bits,8", "n,1,null"])
    add("alike structs", HEAD + ["t,struct,0,1", "t,struct,0,1", "n,1,null"])
    add("struct and tuple", HEAD + ["t,struct,0,1", "t,tuple,0,1", "n,1,null"])
    add("empty struct", HEAD + ["t,struct", "t,tuple", "n,2,aggregate"])
    for n in (255, 256, 257):
        types = ["t,bits,%d" % w for w in range(1, 65)] + ["t,opaque,%d" % x for x in range(0, 300)]
        add("types %d" % n, HEAD + types[:n - 2] + ["n,1,null"])
        add("storages %d" % n, HEAD + ["s,0,0,0,0"] * n + ["n,1,null"])
    for n in (257, 1024, 1025):
        add("nodes %d" % n, HEAD + bools(n - 1) + [joined(0, range(n - 1))])
        add("places %d" % n, HEAD + places(n) + [joined(0, range((n + 1) // 2))])
    too_many_lines(add)
    sums(add)
    for n in (64, 65):
        add("variables %d" % n, HEAD + ["s,1,0,0,0"] + ["v,0,0,0,0"] * n + ["n,1,null"])
        add("statics %d" % n, HEAD + ["s,1,0,0,0"] + ["g,0,0,0,0"] * n + ["n,1,null"])
    for n in (63, 64, 65):
        add("depth %d" % n, HEAD + ["n,0,bool,1"] + ["n,0,convert,11,%d" % i for i in range(n - 1)])
        add("depth of places %d" % n, HEAD + ["p,variable,0"] + ["p,field,%d,0" % i for i in range(n - 2)] + ["n,0,read,%d" % (n - 2)])
    for n in (15, 16, 17):
        add("depth of types %d" % n, HEAD + ["t,struct,%d" % i for i in [0] + list(range(2, n))] + ["n,1,null"])
    for n in (65536, 65537):
        rows = text(HEAD) + b"t,struct" + b",0" * 600 + b"\n"
        add("bytes %d" % n, rows + b"s" * (n - len(rows)))
    rng = random.Random(20261115)
    for _ in range(120):
        t = bytearray(text(base))
        for _ in range(rng.randint(1, 3)):
            i = rng.randrange(len(t))
            how = rng.randrange(3)
            if how == 0:
                t[i] = rng.choice(b"0123456789,\nftsvgpnabc\0\xff")
            elif how == 1:
                del t[i]
            else:
                t.insert(i, rng.choice(b"0123456789,\n-"))
        add("damaged", bytes(t))
    return out


def main():
    here = os.path.dirname(os.path.dirname(os.path.abspath(__file__)))
    folder = sys.argv[1] if len(sys.argv) > 1 else os.path.join(here, "crates", "reading_tests")
    made, counts = [], {}
    for name, ticket in cases():
        n, line = read(ticket) or (0, 0)
        counts[n] = counts.get(n, 0) + 1
        made.append(b"%d,%d,%d\n%s" % (len(ticket), n, line, ticket))
    os.makedirs(folder, exist_ok=True)
    with open(os.path.join(folder, "stdin"), "wb") as f:
        f.write(b"".join(made))
    with open(os.path.join(folder, "stdout"), "w") as f:
        f.write("%d tickets, 0 failed\n" % len(made))
    print(len(made), "tickets", sum(map(len, made)), "bytes; by number:", dict(sorted(counts.items())))


if __name__ == "__main__":
    main()
