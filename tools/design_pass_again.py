#!/usr/bin/env python3
"""Counts the places of docs/DESIGN-PASS.md a second way: by the code's tokens, and by no word list.

    python3 tools/design_pass_again.py [FOLDER] [-v]

FOLDER is a checkout (default: this one). Beside each count stands how many of the places have a comment on their line or within the three
lines above; -v lists each place with that comment, for a reader to judge. A place is where a function, a type or a loop begins.
"""
import collections
import glob
import os
import re
import sys

args = [a for a in sys.argv[1:] if a != '-v']
VERBOSE = '-v' in sys.argv
ROOT = args[0] if args else os.path.join(os.path.dirname(os.path.abspath(__file__)), '..')

TOKEN = re.compile(r"""//[^\n]*|b?'(?:\\.|[^'\\])'|b?"(?:\\.|[^"\\])*"|'\w+|\w+|=>|->|::|==|!=|<=|>=|&&|\|\||\.\.=?|[-+*/%^|&]=|\S""")
OPENS, CLOSES = {'(': ')', '{': '}', '[': ']'}, {')', '}', ']'}
KEYWORDS = set('as break continue else enum fn for if impl in let loop match move mut pub ref return self Self struct while'.split())
INTEGER = re.compile(r'[ui](8|16|32|64|size)$')
SLICE = re.compile(r'&(mut )?\[|\[')
DERIVED = {'PartialEq', 'Eq', 'PartialOrd', 'Ord', 'Clone', 'Copy', 'Default', 'Hash', 'Debug'}

Function = collections.namedtuple('Function', 'file line name params result requires body')
Kind = collections.namedtuple('Kind', 'file line name parts')  # parts: of an enum (variant, payload), of a struct (field, type)


def joined(tokens):
    return ''.join(t + (' ' if t in ('mut', 'dyn', 'impl') else '') for t in tokens)


def is_number(t):
    return t[0].isdigit() or t[:2] == "b'"


class File:
    def __init__(self, path):
        self.path = os.path.relpath(path, ROOT)
        text = open(path, encoding='utf-8').read()
        self.lines = text.split('\n')
        self.tokens, self.at = [], []
        for m in TOKEN.finditer(text):
            if not m.group().startswith('//'):
                self.tokens.append(m.group())
                self.at.append(text.count('\n', 0, m.start()) + 1)
        self.ends, stack = {}, []
        for i, t in enumerate(self.tokens):
            if t in OPENS:
                stack.append(i)
            elif t in CLOSES and stack:
                self.ends[stack.pop()] = i

    def comment(self, line):
        for k in range(line - 1, max(line - 5, -1), -1):
            m = re.search(r'//+\s*(.*)', self.lines[k])
            if m:
                return m.group(1)
        return ''

    def split(self, start, end, by=','):
        """The tokens between two places, at the commas that stand in no brackets."""
        parts, part, i, angles = [], [], start, 0
        while i < end:
            t = self.tokens[i]
            angles += {'<': 1, '>': -1}.get(t, 0)
            if t == by and angles <= 0:
                parts.append(part)
                part, angles = [], 0
            elif t in OPENS and i in self.ends:
                part += self.tokens[i:self.ends[i] + 1]
                i = self.ends[i]
            else:
                part.append(t)
            i += 1
        return [p for p in parts + [part] if p]

    def after(self, i, wanted):
        while i < len(self.tokens) and self.tokens[i] not in wanted:
            i = self.ends.get(i, i) + 1 if self.tokens[i] in OPENS else i + 1
        return i

    def functions(self):
        T = self.tokens
        for i, t in enumerate(T):
            if t != 'fn' or not re.match(r'\w', T[i + 1]):
                continue
            opens = self.after(i + 2, '(')
            close = self.ends.get(opens, opens)
            params = [(joined(p[:p.index(':')]).replace('mut ', ''), joined(p[p.index(':') + 1:])) for p in self.split(opens + 1, close) if ':' in p]
            j, result, requires = close + 1, [], []
            while j < len(T) and T[j] not in '{;':
                if T[j] in ('requires', 'ensures', 'ghost'):
                    k = self.after(j, '{')
                    if T[j] == 'requires':
                        requires += conjuncts(T[k + 1:self.ends.get(k, k)])
                    j = self.ends.get(k, k) + 1
                elif T[j] in OPENS and j in self.ends:
                    result += T[j:self.ends[j] + 1]
                    j = self.ends[j] + 1
                else:
                    result.append(T[j])
                    j += 1
            if j < len(T) and T[j] == '{':
                yield Function(self, self.at[i], T[i + 1], params, joined(result).split('where')[0], requires, (j, self.ends.get(j, j)))

    def types(self, word):
        T = self.tokens
        for i, t in enumerate(T[:-1]):
            if t == word and re.match(r'[A-Z]', T[i + 1]):
                j = self.after(i + 2, '{;(')
                if T[j] != '{':
                    continue
                parts = []
                for p in self.split(j + 1, self.ends.get(j, j)):
                    while p[0] == '#':  # an attribute
                        p = p[2 + matching(p[1:]):]
                    if 'ghost' in p or 'use' in p:
                        continue
                    p = [x for x in p if x not in ('pub',)]
                    parts.append((p[0], joined(p[1 if word == 'enum' else 2:])))
                yield Kind(self, self.at[i], T[i + 1], parts)


def matching(tokens):
    depth = 0
    for i, t in enumerate(tokens):
        depth += (t in OPENS) - (t in CLOSES)
        if depth == 0:
            return i
    return len(tokens)


def conjuncts(tokens):
    while tokens and tokens[0] == '(' and matching(tokens) == len(tokens) - 1:
        tokens = tokens[1:-1]
    parts, part, depth = [], [], 0
    for t in tokens:
        depth += (t in OPENS) - (t in CLOSES)
        if t == '×' and depth == 0:
            parts.append(part)
            part = []
        else:
            part.append(t)
    parts.append(part)
    if len(parts) > 1:
        return [c for p in parts for c in conjuncts(p)]
    return [re.sub(r' \. (old|now)\b', '', ' '.join(tokens))]


def body(f):
    return f.file.tokens[f.body[0] + 1:f.body[1]]


def arms(f):
    """Each `match` of a function, as the list of its arms: pattern and what it gives."""
    T = f.file.tokens
    for i in range(*f.body):
        if T[i] != 'match':
            continue
        j = f.file.after(i + 1, '{')
        found, k, end = [], j + 1, f.file.ends.get(j, j)
        while k < end:
            arrow = f.file.after(k, ['=>', '}'])
            if arrow >= end:
                break
            stop = f.file.ends[arrow + 1] if T[arrow + 1] == '{' else f.file.after(arrow + 1, [',', '}'])
            found.append((T[k:arrow], T[arrow + 1:stop]))
            k = stop + 1 + (T[stop] == '}' and stop + 1 < end and T[stop + 1] == ',')
        yield f.file.at[i], found


def path(tokens):
    return len(tokens) >= 3 and tokens[1] == '::' and tokens[0][0].isupper() and is_name(tokens[0])


def is_name(t):
    return re.match(r'[A-Za-z_]\w*$', t) is not None


def show(title, places):
    """Places are (file, line, what)."""
    told = [(f, line, what, f.comment(line)) for f, line, what in places]
    print(f'{title}: {len(told)}, {sum(1 for p in told if p[3])} with a comment')
    if VERBOSE:
        for f, line, what, why in told:
            print(f'    {f.path}:{line} {what}' + (f'    // {why}' if why else ''))


def grouped(title, groups):
    show(title, [(f, line, f'{what}  ({len(g)} places, group {n})') for n, g in enumerate(groups, 1) for f, line, what in g])
    print(f'    in {len(groups)} groups')


FILES = [File(p) for p in sorted(glob.glob(os.path.join(ROOT, 'crates/*/src/**/*.rt'), recursive=True))]
FUNCTIONS = [f for file in FILES for f in file.functions()]
ENUMS = [e for file in FILES for e in file.types('enum')]
STRUCTS = [s for file in FILES for s in file.types('struct')]


def often(pairs, least):
    """Those keys with at least so many places, each place once."""
    by = collections.defaultdict(dict)
    for key, place in pairs:
        by[key][place[0].path, place[1], place[2]] = place
    return {k: list(v.values()) for k, v in by.items() if len(v) >= least}


def point_1():
    two = [(e, [v for _, v in e.parts if v and v[0] in '({']) for e in ENUMS if len(e.parts) == 2]
    show('1 enums of two variants, one with a value and one with none', [(e.file, e.line, e.name) for e, held in two if len(held) == 1])
    show('1 enums of two variants, each with one value', [(e.file, e.line, e.name) for e, held in two if len(held) == 2 and not any(',' in v for v in held)])
    show('1 structs with a flag or a number beside an Option', [(s.file, s.line, s.name) for s in STRUCTS if any(t.startswith('Option<') for _, t in s.parts)
                                                                 and any(t == 'bool' or INTEGER.match(t) for _, t in s.parts)])
    codes = []
    for f in FUNCTIONS:
        for line, found in arms(f):
            n = sum(1 for p, g in found if (is_number(p[0]) and path(g)) or (path(p) and len(g) == 1 and is_number(g[0])))
            if n >= 2:
                codes.append((f.file, line, f.name))
    show('1 matches between numbers and variants', codes)
    show('1 enums with numbers of their own', [(e.file, e.line, e.name) for e in ENUMS if any(v[1].startswith('=') for v in e.parts)])
    show('1 arms that give a number for None', [(f.file, line, f.name) for f in FUNCTIONS for line, found in arms(f) if any(p == ['None'] and len(g) == 1 and is_number(g[0]) for p, g in found)])


def shape(tokens):
    return ' '.join(t if t in KEYWORDS else '0' if is_number(t) or t[0] == '"' or t[:2] == 'b"' else 'x' if is_name(t) else t for t in tokens)


def point_2():
    same = often(((shape(body(f)), (f.file, f.line, f.name)) for f in FUNCTIONS if len(body(f)) >= 20), 2)
    grouped('2 functions of 20 tokens or more that are one but for identifiers and literals', list(same.values()))
    kinds = often([(('struct', tuple(t for _, t in s.parts)), (s.file, s.line, s.name)) for s in STRUCTS if len(s.parts) >= 2]
                  + [(('enum', tuple(e.parts)), (e.file, e.line, e.name)) for e in ENUMS], 2)
    grouped('2 types that are one but for names', list(kinds.values()))


def point_3():
    show('3 while and loop', [(f.file, f.file.at[i], f.name) for f in FUNCTIONS for i in range(*f.body) if f.file.tokens[i] in ('while', 'loop')])
    counted = []
    for f in FUNCTIONS:
        T = f.file.tokens
        for i in range(*f.body):
            if T[i] == 'for' and T[i + 2] == 'in':
                j = f.file.after(i + 3, '{')
                head, inner = T[i + 3:j], T[j:f.file.ends.get(j, j)]
                if '..' in head and any(inner[k:k + 3] == ['[', T[i + 1], ']'] for k in range(len(inner))):
                    counted.append((f.file, f.file.at[i], f.name))
    show('3 for over a range whose number is an index', counted)


def point_4():
    show('4 impls by hand of what can be derived', [(f, f.at[i], f.tokens[i + 1]) for f in FILES for i, t in enumerate(f.tokens[:-2])
                                                    if t == 'impl' and f.tokens[i + 1] in DERIVED and f.tokens[i + 2] == 'for'])
    show('4 functions of two values of one type to bool', [(f.file, f.line, f.name) for f in FUNCTIONS if f.result == '->bool' and len(f.params) == 2 and f.params[0][1] == f.params[1][1]])
    between = []
    for f in FUNCTIONS:
        for line, found in arms(f):
            if len(found) >= 2 and all(path(p) and path(g) and '{' not in g and p[0] != g[0] for p, g in found):
                between.append((f.file, line, f.name))
    show('4 matches from the variants of one enum to those of another', between)
    copied = []
    for f in FUNCTIONS:
        t = body(f)
        if any(t[k] == ']' and t[k + 1] == '=' and is_name(t[k + 2]) and t[k + 3] == '[' and t[k + 5] == ']' for k in range(len(t) - 5)):
            copied.append((f.file, f.line, f.name))
    show('4 elements copied one by one', copied)


def point_5():
    having, together = collections.defaultdict(set), collections.defaultdict(list)
    place = {}
    for f in FUNCTIONS:
        key = (f.file.path, f.line, f.name)
        place[key] = (f.file, f.line, f.name)
        for n, t in f.params:
            having[f'{n}: {t}'].add(key)
    pairs = [(a, b, having[a] & having[b]) for a in sorted(having) for b in sorted(having) if a < b]
    pairs = [x for x in pairs if len(x[2]) >= 3]
    print(f'5 pairs of parameters that stand in three or more functions: {len(pairs)}')
    for a, b, both in pairs:  # those that mostly stand together, and those of the same functions as one group
        if 2 * len(both) >= len(having[a] | having[b]):
            together[tuple(sorted(both))].append((a, b))
    for keys, found in sorted(together.items(), key=lambda x: -len(x[0])):
        names = ', '.join(sorted({n for pair in found for n in pair}))
        show(f'5 functions with {names} (half or more of those with either)', [place[k] for k in keys])
    facts = often(((c, (f.file, f.line, f.name)) for f in FUNCTIONS for c in f.requires), 3)
    for fact, places in sorted(facts.items(), key=lambda x: -len(x[1])):
        show(f'5 functions that ask {fact}', places)


def point_6():
    beside = []
    for f in FUNCTIONS:
        t = body(f)
        slices = [n for n, ty in f.params if SLICE.match(ty)]
        numbers = [n for n, ty in f.params if INTEGER.match(ty)]
        if any(t[k] in slices and t[k + 1] == '[' and t[k + 2] in numbers + ['..'] and (t[k + 2] in numbers or t[k + 3] in numbers) for k in range(len(t) - 3)):
            beside.append((f.file, f.line, f.name))
    show('6 functions with a slice and a place or length in it', beside)
    show('6 structs with a slice or array and a number', [(s.file, s.line, s.name) for s in STRUCTS if any(SLICE.match(t) for _, t in s.parts) and any(INTEGER.match(t) for _, t in s.parts)])
    local = []
    for f in FUNCTIONS:
        t = body(f)
        arrays = {t[k - 2] for k in range(2, len(t) - 3) if t[k] == '[' and t[k - 1] == '=' and ';' in t[k:k + 3]}
        if any(t[k] in arrays and t[k + 1:k + 3] == ['[', '..'] for k in range(len(t) - 2)):
            local.append((f.file, f.line, f.name))
    show('6 local arrays that are used up to a length', local)


def point_7():
    steps = []
    for e in ENUMS:
        used = [f for f in FUNCTIONS if any(p[:2] == [e.name, '::'] for _, found in arms(f) for p, _ in found)]
        taken = [f for f in used if any(t.lstrip('&') == e.name for _, t in f.params)]
        if len(used) == 1 and taken:
            steps.append((e.file, e.line, f'{e.name}, matched by {used[0].name} alone'))
    show('7 enums that one function takes and matches, and no other', steps)
    show('7 function pointers and dyn', [(f, f.at[i], t) for f in FILES for i, t in enumerate(f.tokens[:-1]) if t == 'dyn' or (t == 'fn' and f.tokens[i + 1] == '(')])


def answers():
    for p in sorted(glob.glob(os.path.join(ROOT, 'crates/*/proofs/**/Answers.antt'), recursive=True)):
        text = re.sub(r'--[^\n]*', '', open(p, encoding='utf-8').read())
        for m in re.finditer(r'^pub ([\w-]+) : goal\.[\w-]+\n((?:.+\n?)*)', text, re.M):
            yield os.path.relpath(p, ROOT), m.group(1), ' '.join(m.group(2).split('=', 1)[-1].split())


def point_8():
    every = list(answers())
    alone = [a for a in every if a[2] in ('search rules', 'omega arith', 'grind arith', 'grind (arith, common_steps)', 'cc')]
    by = collections.defaultdict(list)
    for p, name, text in every:
        by[p.split('/')[1], re.sub(r'\bc\.[\w.-]+', 'c', text)].append(f'{p} {name}')
    repeated = [v for v in by.values() if len(v) >= 3]
    unused = []
    for p in sorted(glob.glob(os.path.join(ROOT, 'crates/*/proofs/**/*.antt'), recursive=True)):
        text = re.sub(r'--[^\n]*', '', open(p, encoding='utf-8').read())
        rest = re.sub(r'^(pub )?use .*$', '', text, flags=re.M)
        for m in re.finditer(r'^use [\w.]+\.\{([^}]*)\}', text, re.M):
            for n in (x.split(' as ')[-1].strip() for x in m.group(1).split(',')):
                plain = n.strip('◌')
                if plain and plain not in rest and n not in ('arith', 'rules'):
                    unused.append(f'{os.path.relpath(p, ROOT)} {n}')
    for title, places in ((f'8 answers (of {len(every)}) that are what a check tries by itself', [f'{p} {n}' for p, n, _ in alone]),
                          ('8 groups of three answers or more that are one but for their facts', [' = '.join(v) for v in repeated]),
                          ('8 imported names that a proof file does not have', unused)):
        print(f'{title}: {len(places)}')
        if VERBOSE:
            for p in places:
                print('    ' + p)


for p in (point_1, point_2, point_3, point_4, point_5, point_6, point_7, point_8):
    p()
