#!/usr/bin/env python3
"""Counts the places of docs/DESIGN-PASS.md in the sources of crates/*/src.

    python3 tools/design_pass.py [FOLDER] [-v]

FOLDER is a checkout (default: this one); -v lists each place. Point by point:
1  enums of the shape of Option or Result, answers that are a number where there is none, refusals by a literal number, matches between numbers and variants
2  functions whose bodies are one but for names and numbers, and types whose fields or variants are one but for names
3  while loops
4  functions that compare, copy or convert by hand
5  facts in the requires of three or more functions, and groups of parameters that three or more functions share
6  a buffer with a position, and a list with a start and a length, as parameters
7  enums whose variants are steps to run
8  files and answers of proofs
"""
import collections
import glob
import os
import re
import sys

args = [a for a in sys.argv[1:] if a != '-v']
VERBOSE = '-v' in sys.argv
ROOT = args[0] if args else os.path.join(os.path.dirname(os.path.abspath(__file__)), '..')


def sources():
    for path in sorted(glob.glob(os.path.join(ROOT, 'crates/*/src/*.rt'))):
        yield os.path.relpath(path, ROOT), open(path, encoding='utf-8').read()


def without_comments(text):
    return re.sub(r'//[^\n]*', '', text)


def balanced(text, start):
    """The end of the bracketed part that opens at start."""
    pairs = {'(': ')', '{': '}', '[': ']'}
    depth = 0
    for i in range(start, len(text)):
        if text[i] in pairs:
            depth += 1
        elif text[i] in pairs.values():
            depth -= 1
            if depth == 0:
                return i
    return len(text)


class Function:
    def __init__(self, path, name, params, clauses, body):
        self.path, self.name, self.params, self.clauses, self.body = path, name, params, clauses, body


def functions():
    for path, text in sources():
        text = without_comments(text)
        for m in re.finditer(r'\bfn (\w+)(?:<[^>(]*>)?\(', text):
            close = balanced(text, m.end() - 1)
            params = [p.strip() for p in re.split(r',(?![^<]*>)', text[m.end():close]) if p.strip()]
            # clauses come before the body, each in braces of its own
            at = close + 1
            clauses = []
            while True:
                c = re.compile(r'\s*(?:->\s*[^{]*?)?\s*(?:where[^{]*?)?(requires|ensures)\s+(\w+\s+)?\{').match(text, at)
                if not c:
                    break
                end = balanced(text, c.end() - 1)
                clauses.append((c.group(1), text[c.end():end].strip()))
                at = end + 1
            b = text.find('{', at)
            semi = text.find(';', at)
            if b < 0 or (0 <= semi < b):
                continue
            yield Function(path, m.group(1), params, clauses, text[b:balanced(text, b) + 1])


def enums():
    for path, text in sources():
        text = without_comments(text)
        for m in re.finditer(r'\benum (\w+)(?:<[^>]*>)?\s*\{', text):
            end = balanced(text, m.end() - 1)
            variants = [v.strip() for v in re.split(r',(?![^(]*\))(?![^{]*\})', text[m.end():end]) if v.strip()]
            yield path, m.group(1), variants


def show(title, places):
    print(f'{title}: {len(places)}')
    if VERBOSE:
        for p in places:
            print('    ' + p)


def point_1():
    option, result = [], []
    for path, name, vs in enums():
        loaded = [v for v in vs if '(' in v or '{' in v]
        if len(vs) == 2 and len(loaded) == 1:
            option.append(f'{path} {name}')
        elif len(vs) in (2, 3) and any(re.match(r'(Refused|Turned|Stopped|Bad|Malformed)\b', v) for v in vs):
            result.append(f'{path} {name}')
    show('1 enums of the shape of Option', option)
    show('1 enums of the shape of Result', result)
    literal = []
    for path, text in sources():
        for m in re.finditer(r'\b(?:Refused|Turned|Stopped)\(\s*\d+', without_comments(text)):
            literal.append(f'{path} {m.group(0)}')
    show('1 refusals by a literal number', literal)
    codes = [f'{f.path} {f.name}' for f in functions()
             if re.search(r"(?:\d+|b'.') => \w+::\w+", f.body) or re.search(r"\w+::\w+(?:\([^)]*\))? => (?:\d+|b'.'),", f.body)]
    show('1 functions between numbers and variants', codes)


def normal(body):
    body = re.sub(r'\b\d[\d_]*\b', '0', body)
    body = re.sub(r"b'.'", '0', body)
    body = re.sub(r'b"[^"]*"', '0', body)
    seen = {}

    def name(m):
        w = m.group(0)
        if w in ('if', 'else', 'while', 'let', 'mut', 'match', 'return', 'as', 'for', 'in'):
            return w
        return seen.setdefault(w, f'x{len(seen)}')
    return re.sub(r'\s+', ' ', re.sub(r'[A-Za-z_]\w*', name, body))


def point_2():
    by = collections.defaultdict(list)
    for f in functions():
        crate = f.path.split('/')[1]
        by[(crate, normal(f.body))].append(f'{f.path} {f.name}')
    groups = [v for (c, b), v in by.items() if len(v) > 1 and len(b) > 40]
    show('2 groups of functions with one body but for names and numbers', [' = '.join(g) for g in groups])
    print(f'2 functions in them: {sum(len(g) for g in groups)}')
    shapes = collections.defaultdict(list)
    for path, name, vs in enums():
        shapes[tuple(re.sub(r'\b\w+\b', 'x', v) if False else v for v in vs)].append(f'{path} {name}')
    for path, text in sources():
        text = without_comments(text)
        for m in re.finditer(r'\bstruct (\w+)(?:<[^>]*>)?\s*\{', text):
            end = balanced(text, m.end() - 1)
            shapes[tuple(sorted(x.strip() for x in text[m.end():end].split(',') if x.strip()))].append(f'{path} {m.group(1)}')
    twins = [v for v in shapes.values() if len(v) > 1]
    show('2 groups of types alike', [' = '.join(g) for g in twins])


def point_3():
    loops = [f'{f.path} {f.name}' for f in functions() for _ in re.findall(r'\bwhile ', f.body)]
    show('3 while loops', loops)


def point_4():
    names = re.compile(r'^(same|alike|copy_\w+|as_\w+|\w+_number|opposite|lesser|both|less|at_most|word|letter|none_read)$')
    show('4 functions that compare, copy, convert or print by hand', [f'{f.path} {f.name}' for f in functions() if names.match(f.name)])


def facts(clause):
    parts, depth, cur = [], 0, ''
    for ch in clause:
        if ch in '([':
            depth += 1
        if ch in ')]':
            depth -= 1
        if ch == '×' and depth == 0:
            parts.append(cur.strip())
            cur = ''
        else:
            cur += ch
    parts.append(cur.strip())
    out = []
    for p in parts:
        while p.startswith('(') and balanced(p, 0) == len(p) - 1:
            p = p[1:-1].strip()
        if '×' in p and p != clause:
            out += facts(p)
        else:
            out.append(re.sub(r'\.(old|now)\b', '', re.sub(r'\s+', ' ', p)))
    return out


def point_5():
    by = collections.defaultdict(set)
    groups = collections.Counter()
    members = collections.defaultdict(list)
    for f in functions():
        for kind, text in f.clauses:
            if kind == 'requires':
                for fact in facts(text):
                    by[fact].add(f'{f.path} {f.name}')
        names = [re.sub(r'^mut ', '', p).split(':')[0].strip() for p in f.params]
        for g in (('rows', 'lists', 'counts'), ('rows', 'nodes', 'lists', 'counts'), ('code', 'c'), ('store', 'c'), ('code', 'store', 'c'),
                  ('code', 's'), ('store', 's'), ('stack', 's'), ('line', 'cursor'), ('lists', 'used'), ('lists', 'start', 'n'), ('d', 'l', 'r'), ('narrowed', 'code')):
            if all(n in names for n in g):
                members[g].append(f'{f.path} {f.name}')
    often = {k: v for k, v in by.items() if len(v) >= 3}
    show('5 facts in the requires of three or more functions', [f'{len(v)} {k}' for k, v in sorted(often.items(), key=lambda x: -len(x[1]))])
    for g, v in sorted(members.items(), key=lambda x: -len(x[1])):
        if len(v) >= 3:
            print(f'5 functions with the parameters {", ".join(g)}: {len(v)}')


def point_6():
    positions = [f'{f.path} {f.name}' for f in functions()
                 if any(re.match(r'\w+: &mut \[u8\]', p) for p in f.params) and any(re.match(r'at: usize', p) for p in f.params)]
    show('6 functions over a buffer and a position', positions)
    runs = [f'{f.path} {f.name}' for f in functions()
            if any(re.match(r'lists: &', p) for p in f.params) and any(re.match(r'(start|from|used): (usize|u64)', p) for p in f.params)]
    show('6 functions over lists and a place in them', runs)


def point_7():
    verbs = re.compile(r'^(Bytewise|Operation|UnaryForm|BinaryForm|Form|OneStep|TwoStep|Leaf)$')
    show('7 enums of steps to run', [f'{p} {n}' for p, n, vs in enums() if verbs.match(n) and '/line_forms/' not in p])


def point_8():
    files = glob.glob(os.path.join(ROOT, 'crates/*/proofs/*/**/Answers.antt'), recursive=True)
    answers = sum(len(re.findall(r'^pub [\w-]+ : goal\.', open(f, encoding='utf-8').read(), re.M)) for f in files)
    lines = sum(open(f, encoding='utf-8').read().count('\n') for f in glob.glob(os.path.join(ROOT, 'crates/*/proofs/**/*.antt'), recursive=True) if '/spec/' not in f)
    print(f'8 files of answers: {len(files)}')
    print(f'8 answers: {answers}')
    print(f'8 lines of proofs, crates/spec aside: {lines}')


for p in (point_1, point_2, point_3, point_4, point_5, point_6, point_7, point_8):
    p()
