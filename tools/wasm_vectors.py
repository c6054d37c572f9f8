#!/usr/bin/env python3
"""Writes the tables that the program wasm_tests runs.

    tools/wasm_vectors.py FOLDER [OUT]

FOLDER has i32.wast, i64.wast and conversions.wast of the WebAssembly specification's test suite, as shipped in Debian's source package
binaryen 108-1 (test/spec/). OUT is the crate's folder (default: crates/wasm_tests beside this script's folder). Written are src/ops.rt;
stdin, the tables; and stdout, what the program must print.

A table is a line with its name, one with how many cases it has, and a line for each. A case is five numbers: the operation, its three arguments in the order of the crate numerics (a width and two operands, the second 0 for a
unary operation; two widths and an operand for a conversion), and the result. An operation _TRAPS answers 1 where the result is undefined.

Every assert_return and assert_trap of the first two files is carried over, and those of wrap and extend of the third. The other cases are
computed here, on lists of bits and on Python's integers with their signs taken apart, and the published ones are held to that too.
"""
import os
import re
import sys

BINARY = ["iadd", "isub", "imul"]
SATURATING = ["iadd_sat_u", "iadd_sat_s", "isub_sat_u", "isub_sat_s"]
QUOTIENTS = ["idiv_u", "idiv_s", "irem_u", "irem_s"]
LOGIC = ["iand", "ior", "ixor"]
SHIFTS = ["ishl", "ishr_u", "ishr_s", "irotl", "irotr"]
COUNTS = ["iclz", "ictz", "ipopcnt"]
COMPARISONS = ["ieq", "ine", "ilt_u", "ilt_s", "igt_u", "igt_s", "ile_u", "ile_s", "ige_u", "ige_s"]
CONVERSIONS = ["wrap", "extend_u", "extend_s"]
UNARY = ["ineg", "inot"] + COUNTS + ["ieqz"]

# each group is a function of the program, from a multiple of 16 on
GROUPS = [
    BINARY + ["ineg"] + SATURATING,
    QUOTIENTS + [q + "_traps" for q in QUOTIENTS],
    ["inot"] + LOGIC + SHIFTS + COUNTS,
    ["ieqz"] + COMPARISONS,
    CONVERSIONS,
]
CODES = {name: 16 * g + k for g, names in enumerate(GROUPS) for k, name in enumerate(names)}

WIDTHS = [1, 7, 9, 12, 13, 31, 33, 63]


# ---------------------------------------------------------------- the independent way


def bits(a, n):
    """The n lowest bits, the lowest first."""
    out = []
    for _ in range(n):
        out.append(a & 1)
        a >>= 1
    return out


def number(bs):
    return int("".join(str(b) for b in reversed(bs)), 2)


def with_sign(bs):
    """Two's complement: the highest bit weighs minus its place."""
    return sum(b << k for k, b in enumerate(bs[:-1])) - (bs[-1] << (len(bs) - 1))


def ripple(xs, ys, carry):
    out = []
    for x, y in zip(xs, ys):
        out.append((x + y + carry) & 1)
        carry = 1 if x + y + carry > 1 else 0
    return out


def negated(xs):
    return ripple([1 - x for x in xs], [0] * len(xs), 1)


def times(xs, ys):
    n = len(xs)
    total = [0] * n
    for k, y in enumerate(ys):
        if y:
            total = ripple(total, ([0] * k + xs)[:n], 0)
    return total


def long_division(xs, ys):
    """Quotient and remainder by shifting and subtracting, highest bit first."""
    divisor, rest, quotient = number(ys), 0, []
    for x in reversed(xs):
        rest = rest + rest + x
        quotient.insert(0, 1 if rest >= divisor else 0)
        if rest >= divisor:
            rest = rest - divisor
    return number(quotient), rest


def divided(op, xs, ys):
    """None where it is undefined."""
    n = len(xs)
    if not any(ys):
        return None
    if op in ("idiv_u", "irem_u"):
        quotient, rest = long_division(xs, ys)
        return quotient if op == "idiv_u" else rest
    x, y = with_sign(xs), with_sign(ys)
    quotient, rest = divmod(abs(x), abs(y))
    if op == "irem_s":
        return number(bits(-rest if x < 0 else rest, n))
    if (x < 0) != (y < 0):
        quotient = -quotient
    if quotient > (1 << (n - 1)) - 1:
        return None
    return number(bits(quotient, n))


def moved(op, xs, distance):
    """One place at a time."""
    n = len(xs)
    for _ in range(distance - n * (distance // n)):
        if op == "ishl":
            xs = [0] + xs[:-1]
        elif op == "ishr_u":
            xs = xs[1:] + [0]
        elif op == "ishr_s":
            xs = xs[1:] + [xs[-1]]
        elif op == "irotl":
            xs = [xs[-1]] + xs[:-1]
        else:
            xs = xs[1:] + [xs[0]]
    return xs


def compared(op, xs, ys):
    x, y = (with_sign(xs), with_sign(ys)) if op.endswith("_s") else (list(reversed(xs)), list(reversed(ys)))
    return 1 if {"ieq": x == y, "ine": x != y, "ilt": x < y, "igt": x > y, "ile": x <= y, "ige": x >= y}[op[:3]] else 0


def saturated(op, xs, ys):
    n, sign = len(xs), op.endswith("_s")
    x, y = (with_sign(xs), with_sign(ys)) if sign else (number(xs), number(ys))
    exact = x + y if op.startswith("iadd") else x - y
    lowest, highest = (-(1 << (n - 1)), (1 << (n - 1)) - 1) if sign else (0, (1 << n) - 1)
    return number(bits(sorted((lowest, exact, highest))[1], n))


def counted(op, xs):
    text = "".join(str(x) for x in reversed(xs))
    if op == "ipopcnt":
        return text.count("1")
    return len(text) - len(text.lstrip("0") if op == "iclz" else text.rstrip("0"))


def answer(op, x, y, z):
    """What the operation op of the three arguments gives; None where it is undefined."""
    if op in CONVERSIONS:
        xs = bits(z, x)
        xs = xs[:y] if op == "wrap" else xs + [xs[-1] if op == "extend_s" else 0] * (y - x)
        return number(xs)
    xs, ys = bits(y, x), bits(z, x)
    if op in QUOTIENTS:
        return divided(op, xs, ys)
    if op in SHIFTS:
        return number(moved(op, xs, number(ys)))
    if op in COMPARISONS:
        return compared(op, xs, ys)
    if op in SATURATING:
        return saturated(op, xs, ys)
    if op in COUNTS:
        return counted(op, xs)
    if op == "ieqz":
        return 0 if any(xs) else 1
    if op == "ineg":
        return number(negated(xs))
    if op == "inot":
        return number([1 - b for b in xs])
    if op == "iadd":
        return number(ripple(xs, ys, 0))
    if op == "isub":
        return number(ripple(xs, [1 - b for b in ys], 1))
    if op == "imul":
        return number(times(xs, ys))
    return number([{"iand": b & c, "ior": b | c, "ixor": b ^ c}[op] for b, c in zip(xs, ys)])


def case(op, x, y, z):
    result = answer(op, x, y, z)
    return (op + "_traps", x, y, z, 1) if result is None else (op, x, y, z, result)


# ---------------------------------------------------------------- the published cases


def expressions(text):
    """The s-expressions of a .wast file, as nested lists of words."""
    text = re.sub(r"\(;.*?;\)", " ", text, flags=re.S)
    text = re.sub(r";;[^\n]*", "", text)
    stack = [[]]
    for word in re.findall(r'"[^"]*"|[()]|[^\s()"]+', text):
        if word == "(":
            stack.append([])
        elif word == ")":
            done = stack.pop()
            stack[-1].append(done)
        else:
            stack[-1].append(word)
    return stack[0]


def constant(e):
    """(iN.const NUMBER) as a width and a number of that width; None for any other."""
    m = re.fullmatch(r"i(32|64)\.const", e[0])
    if not m:
        return None
    width = int(m.group(1))
    return width, number(bits(int(e[1].replace("_", ""), 0), width))


def published(path, names):
    """The cases of a file. names: from an exported name to its operation and widths, or None for a name that is none of ours."""
    cases = []
    for e in expressions(open(path).read()):
        if e[0] not in ("assert_return", "assert_trap"):
            continue
        assert e[1][0] == "invoke", e
        known = names(e[1][1].strip('"'))
        if known is None:
            continue
        op, widths = known
        operands = [constant(o) for o in e[1][2:]]
        assert all(o is not None and o[0] == widths[0] for o in operands), e
        arguments = (widths + [o[1] for o in operands] + [0])[:3]
        if e[0] == "assert_trap":
            cases.append((op + "_traps", *arguments, 1))
        else:
            cases.append((op, *arguments, constant(e[2])[1]))
        assert cases[-1] == case(op, *arguments), e
    return cases


def operations_at(width):
    def names(name):
        assert "i" + name in CODES, name
        return "i" + name, [width]

    return names


def conversions(name):
    return {"i32.wrap_i64": ("wrap", [64, 32]), "i64.extend_i32_u": ("extend_u", [32, 64]), "i64.extend_i32_s": ("extend_s", [32, 64])}.get(name)


# ---------------------------------------------------------------- the computed cases


def scrambled(seed):
    """64 bits that look random."""
    for _ in range(3):
        seed = number(bits(seed * 6364136223846793005 + 1442695040888963407, 64))
    return seed


def at_width(n):
    """Worked examples of every operation at a width: the ends of the range, distances about the width, and operands with bits above it."""
    top, half = (1 << n) - 1, 1 << (n - 1)
    p, q = scrambled(n), scrambled(n + 100)
    ends = [(0, 0), (top, 1), (half, top), (top, half), (half - 1, 1), (half, half)]
    rows = []
    for op in BINARY + SATURATING + LOGIC + COMPARISONS + QUOTIENTS:
        pairs = ends + [(p, q), (q, p)] + ([(p, 0), (half, 0), (p, half - 1), (half + 1, 3)] if op in QUOTIENTS else [])
        rows += [case(op, n, a, b) for a, b in pairs]
    for op in SHIFTS:
        rows += [case(op, n, p, k) for k in (0, 1, n - 1, n, n + 1, q)] + [case(op, n, half, 1), case(op, n, q, top)]
    for op in UNARY:
        rows += [case(op, n, a, 0) for a in (0, 1, half, top, p, top + 1, half >> 1)]
    for m in (1, n, 64):
        if m <= n:
            rows += [case(op, m, n, a) for op in ("extend_u", "extend_s") for a in (0, 1, top, p)] + [case("wrap", n, m, a) for a in (top, p, q)]
        else:
            rows += [case(op, n, m, a) for op in ("extend_u", "extend_s") for a in (0, half, top, p)] + [case("wrap", m, n, a) for a in (top + 1, p, q)]
    return list(dict.fromkeys(rows))


def outside():
    """Widths that are none: 0, or undefined."""
    rows = []
    for n in (0, 65, (1 << 64) - 1):
        rows += [(op, n, 5, 3, 0) for op in CODES if not op.endswith("_traps") and op not in QUOTIENTS + CONVERSIONS]
        rows += [(op + "_traps", n, 5, 3, 1) for op in QUOTIENTS]
        rows += [(op, m, w, 5, 0) for op in CONVERSIONS for m, w in ((n, 8), (8, n), (n, n))]
    return rows + [("wrap", 8, 9, 5, 0), ("extend_u", 9, 8, 5, 0), ("extend_s", 9, 8, 5, 0)]


# ---------------------------------------------------------------- what is written

MADE = "// Made by tools/wasm_vectors.py; not edited by hand."


def table(name, rows):
    lines = [name, str(len(rows))] + [",".join(map(str, (CODES[op], *numbers))) for op, *numbers in rows]
    return "".join(line + "\n" for line in lines)


def main():
    folder = sys.argv[1]
    here = os.path.dirname(os.path.dirname(os.path.abspath(__file__)))
    out = sys.argv[2] if len(sys.argv) > 2 else os.path.join(here, "crates", "wasm_tests")
    wast = lambda name, names: published(os.path.join(folder, name), names)
    tables = [
        ("i32.wast", wast("i32.wast", operations_at(32))),
        ("i64.wast", wast("i64.wast", operations_at(64))),
        ("conversions.wast", wast("conversions.wast", conversions)),
    ]
    tables += [(f"width {n}", at_width(n)) for n in WIDTHS]
    tables.append(("widths outside 1 to 64", outside()))
    with open(os.path.join(out, "src", "ops.rt"), "w") as f:
        f.write(MADE + "\n// The operations of each group of outcomes.rt; a case names group g's operation k by 16 * g + k.\n")
        f.write("\n".join(f"pub const {name.upper()}: u64 = {code % 16};\n" for name, code in CODES.items()))
    with open(os.path.join(out, "stdin"), "w") as f:
        f.writelines(table(name, rows) for name, rows in tables)
    with open(os.path.join(out, "stdout"), "w") as f:
        f.writelines(f"{name}: {len(rows)} cases, 0 failed\n" for name, rows in tables)
    for name, rows in tables:
        print(f"{name}: {len(rows)} cases")


main()
