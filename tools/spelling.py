#!/usr/bin/env python3
"""Brings the names of this repository's definitions and lemmas to snake case, and facts (names whose type ends in
`Type 0`) to camel case, in every .rt, .antt and .edit file of crates/ (and, given as arguments, in other files' code marks).

usage: python3 tools/spelling.py            once, at the top, after port.py
       python3 tools/spelling.py FILE..     the same names in the code marks of pages

The names turned are those that files of specs/ and proofs/ declare. Where two names would fall together, APART says
which becomes what.
"""
import collections
import os
import re
import sys

# names that would fall together with another's, and what they become
APART = {
    "fewOf": "few_by_counts",
    "formBy": "form_by_number",
    "moreOf": "capped_after",
    "place-of": "place_by_kind",
    "readTicket": "read_ticket_lem",
    "readLines": "read_lines_lem",
    "refusalOf": "refusal_lem",
    "noStorage": "no_storage_line",
    "usedOf": "used_in",
    "storage-at": "storage_at_lem",
    "place-line-at": "place_line_at_lem",
    "type-at": "type_at_lem",
    "bit-and": "bit_of_and",
    "bit-xor": "bit_of_xor",
    "remainder_Signed": "remainder_signed",
    "remainder_Unsigned": "remainder_unsigned",
}
# the same, of names that are in snake case already: by the module that declares them
BY_MODULE = {
    "Rattle.tables.proofs.Laws": {"node_at": "node_at_lem"},
    "Rattle.spec.proofs.ReadingPool": {"node_at": "node_line_in"},
    "Rattle.line_checks.specs.Rows": {"tables_of": "tables_by_counts"},
}
TOKEN = re.compile(r"[^\s(){}\[\];,.\"`∷]+")
WORD = re.compile(r"^[A-Za-z_][\w'-]*$")
DECLARED = re.compile(r"^\s*(?:(?:pub|abbrev|unfoldable)\s+)*((?:[^\s(){}:.,;=]+\s+)*?[^\s(){}:.,;=]+)\s+:\s")
KEYWORD = re.compile(r"^\s*(?:(?:pub|abbrev|unfoldable)\s+)*(?:data|record|module|ruleset)\s+([^\s:({=]+)")
BINDER = re.compile(r"[({λ,]\s*((?:[^\s(){}:.,;=]+\s+)*[^\s(){}:.,;=]+)\s+:\s")
FACT = re.compile(r"^\s*(?:(?:pub|abbrev|unfoldable)\s+)*([a-z][^\s(){}:.,;=]*)\s+:\s.*(?:→\s*)?Type 0\s*$")


def files(root, *endings):
    for folder, dirs, names in os.walk(os.path.join(root, "crates")):
        dirs[:] = sorted(d for d in dirs if d != "out")
        for n in sorted(names):
            if n.endswith(endings):
                yield os.path.join(folder, n)


def is_turned(w):
    return bool(WORD.match(w)) and bool(re.search(r"[\w']-[\w']", w) or re.match(r"^[a-z][a-z0-9_']*[A-Z]", w))


def snake(w):
    w = w.replace("-", "_")
    if w[0].islower() or w[0] == "_":
        w = re.sub(r"(?<=[a-z0-9'])([A-Z])", lambda m: "_" + m.group(1).lower(), w)
    return w


def camel(w):
    return "".join(p[:1].upper() + p[1:] for p in re.split(r"[-_]", w) if p)


def declared(root):
    own, facts, brought = set(), set(), set()
    for path in files(root, ".antt", ".rt"):
        with open(path, encoding="utf-8") as f:
            text = f.read()
        for m in re.finditer(r"use (?:Rattle\.std|borrow|lib|native|mathlib|denote|Prim|base|logic)[\w.'+-]*\.\{([^}]*)\}", text):
            brought |= {w.strip().split(" as ")[0].strip() for w in m.group(1).split(",")}
        for m in re.finditer(r"\bas ([a-z]\w*)\b", text):
            if path.endswith(".antt") or "ghost use" in text[text.rfind("\n", 0, m.start()) + 1 : m.start()]:
                own.add(m.group(1))
        folder = os.path.basename(os.path.dirname(path))
        if not path.endswith(".antt") or folder not in ("specs", "proofs"):
            continue
        for line in text.split("\n"):
            if line.strip().startswith("--") or line.startswith("use "):
                continue
            m = KEYWORD.match(line)
            if m:
                own.add(m.group(1))
            m = DECLARED.match(line)
            if m and " = " not in line.split(" : ")[0]:
                own |= set(m.group(1).split())
            m = FACT.match(line)
            if m:
                facts.add(m.group(1))
            for group in BINDER.findall(line):
                own |= set(group.split())
            own |= set(re.findall(r"\blet\s+([^\s(){}:.,;=]+)", line))
            for group in re.findall(r"λ\s+([^.()]*)\.\s", line):
                own |= set(group.split())
    return own, facts, brought


def names(root):
    own, facts, brought = declared(root)
    turned = {}
    for w in sorted(own - brought):
        if w in APART:
            turned[w] = APART[w]
        elif w in facts and WORD.match(w) and len(w) > 1:
            turned[w] = camel(w)
        elif is_turned(w):
            turned[w] = snake(w)
    return turned


def turn_text(text, turned, in_words=False):
    return TOKEN.sub(lambda m: turned.get(m.group(0), m.group(0)), text)


def turn_marks(text, turned):
    return re.sub(r"`[^`\n]*`", lambda m: turn_text(m.group(0), turned), text)


def turn_line(line, turned, mark):
    """Code is turned, a comment's code marks alone, and no string."""
    at = -1
    if mark == "--":
        m = re.search(r"(^|\s)--(\s|-|$)", line)
        at = m.start() if m else -1
    else:
        bare = re.sub(r'"(\\.|[^"\\])*"', lambda m: "_" * len(m.group(0)), line)
        at = bare.find("//")
    code, said = (line, "") if at < 0 else (line[:at], line[at:])
    parts = re.split(r'("(?:\\.|[^"\\])*")', code)
    code = "".join(p if i % 2 else turn_text(p, turned) for i, p in enumerate(parts))
    return code + turn_marks(said, turned)


def of_file(path, text, turned):
    """The names for one file: with those that a module declares and this file brings in or declares."""
    own = dict(turned)
    crate = path.split(os.sep + "crates" + os.sep)[1].split(os.sep)
    here = "Rattle." + ".".join(crate[:2]) + "." + os.path.splitext(crate[-1])[0]
    for module, extra in BY_MODULE.items():
        if here == module:
            own.update(extra)
            continue
        for m in re.finditer(re.escape(module) + r"\.\{([^}]*)\}", text):
            listed = {w.strip().split(" as ")[0].strip() for w in m.group(1).split(",")}
            own.update({a: b for a, b in extra.items() if a in listed})
    return own


def main(argv):
    root = os.path.abspath(".")
    table = os.path.join(root, "tools", "spelling.tsv")
    if argv:
        with open(table, encoding="utf-8") as f:
            turned = dict(line.rstrip("\n").split("\t") for line in f)
        for path in argv:
            with open(path, encoding="utf-8") as f:
                text = f.read()
            with open(path, "w", encoding="utf-8") as f:
                f.write(turn_marks(text, turned))
        return 0
    turned = names(root)
    with open(table, "w", encoding="utf-8") as f:
        f.writelines(f"{a}\t{b}\n" for a, b in sorted(turned.items()))
    for path in files(root, ".rt", ".antt", ".edit"):
        with open(path, encoding="utf-8") as f:
            text = f.read()
        own = of_file(path, text, turned)
        if path.endswith(".edit"):
            lines = []
            for line in text.split("\n"):
                if line.startswith(("old: ", "new: ")):
                    bare = {w: own.get(w, snake(w)) for w in TOKEN.findall(line[5:]) if w in own or (is_turned(w) and "-" in w)}
                    line = line[:5] + turn_line(line[5:], bare, "//")
                lines.append(line)
            new = "\n".join(lines)
        else:
            mark = "//" if path.endswith(".rt") else "--"
            new = "\n".join(turn_line(l, own, mark) for l in text.split("\n"))
        if new != text:
            with open(path, "w", encoding="utf-8") as f:
                f.write(new)
    report(root)
    return 0


def report(root):
    """Names that one file brings in or declares twice."""
    for path in files(root, ".antt", ".rt"):
        with open(path, encoding="utf-8") as f:
            text = f.read()
        seen = collections.Counter()
        for m in re.finditer(r"(?m)^(?:ghost )?use [^\n{]*\.\{([^}]*)\}", text):
            for w in m.group(1).split(","):
                seen[w.strip().split(" as ")[-1].strip()] += 1
        if path.endswith(".antt"):
            for line in text.split("\n"):
                m = re.match(r"^(?:(?:pub|abbrev|unfoldable)\s+)*([a-z][^\s(){}:.,;=]*)\s+:\s", line)
                if m:
                    seen[m.group(1)] += 1
        for w, n in seen.items():
            if n > 1 and w:
                print(f"twice in {os.path.relpath(path, root)}: {w}")


if __name__ == "__main__":
    raise SystemExit(main(sys.argv[1:]))
