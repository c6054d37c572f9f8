#!/usr/bin/env python3
"""Holds docs/CLAUSES.md to the sources: each name in code marks stands where the page says, on the line that it says.

    python3 tools/clauses.py            writes the line numbers
    python3 tools/clauses.py --check    changes nothing, and fails where a line is stale

A place is `name` (FILE:LINE), or `a`, `b` (FILE:LINE, LINE), a line for each name; ': words' may follow the lines.
FILE is File or CRATE/File, a file of specs/, or else of proofs/, of crates/spec or of that crate; CRATE/file.rt, of its
src/; or a path from the top that begins with rust/. must-fail `a`, `b` (CRATE) are edits; no CRATE is spec.
Fails with a list where a file has no such name, an edit is not there, or a row names something without a place.
"""
import functools
import os
import re
import sys

ROOT = os.path.join(os.path.dirname(os.path.abspath(__file__)), '..')
PAGE = os.path.join(ROOT, 'docs/CLAUSES.md')

MARK = r'`[^`]+`'
GROUP = MARK + r'(?:(?:, | and | \.\. )' + MARK + r')*'
FILE = r'(?:(?:\w+/)?[A-Z]\w+|\w+/\w+\.rt|rust/[\w./-]+)'
PLACE = re.compile(r'(' + GROUP + r') \((' + FILE + r')((?::\d+(?:, \d+)*)?)(?=\)|: )')
EDITS = re.compile(r'must-fail (' + MARK + r'[^;|]*)')
EDIT_GROUP = re.compile(r'(' + GROUP + r')(?: \((\w+(?:, \w+)*)\))?')
WORDS = {'requires', 'None'}


@functools.cache
def lines_of(path):
    with open(path, encoding='utf-8') as f:
        return f.read().split('\n')


def path_of(file):
    crate, _, name = file.rpartition('/')
    crate = os.path.join(ROOT, 'crates', crate or 'spec')
    tries = [os.path.join(crate, 'specs', name + '.antt'), os.path.join(crate, 'proofs', name + '.antt')]
    if file.startswith('rust/'):
        tries = [os.path.join(ROOT, file)]
    elif name.endswith('.rt'):
        tries = [os.path.join(crate, 'src', name)]
    return next((path for path in tries if os.path.isfile(path)), None)


def first(lines, pattern, start=0, end=None):
    for i in range(start, len(lines) if end is None else end):
        if not lines[i].lstrip().startswith(('--', '//')) and re.search(pattern, lines[i]):
            return i
    return None


def definition(lines, name, antt):
    """The first line that defines a name: at the margin, or else as a field, a constructor or a method."""
    word = re.escape(name) + r"(?![\w'-])"
    if antt:
        named = r"(?:[\w'-]+ +)*" + word + r"(?: +[\w'-]+)* +:|(?:pub )?(?:data|record|module|ruleset) " + word
    else:
        named = r'(?:pub )?(?:extern "C" )?(?:fn|struct|enum|trait|const|static|mod|def|class|#define|type) ' + word
        named += r'|(?:static inline )?\w+ ' + word + r'\('
    at = first(lines, r'^(?:' + named + r')')
    return at if at is not None else first(lines, r'^\s+(?:' + named + r')')


def line_of(path, mark):
    """The line, from 1, that defines what a mark begins with; a member, Type.member, is looked for in its type."""
    lines = lines_of(path)
    antt = path.endswith('.antt')
    name = re.match(r"[\w'.-]*", mark).group().rstrip('.')
    owner, _, member = name.rpartition('.')
    if not name:
        return None
    if not owner:
        at = definition(lines, name, antt)
    else:
        start = definition(lines, owner, antt)
        if start is None:
            return None
        end = first(lines, r'^\S', start + 1)
        at = first(lines, r"^\s+(?:pub )?(?:[\w'-]+ )*" + re.escape(member) + r"(?: [\w'-]+)* ?:", start + 1, end)
    return None if at is None else at + 1


def marks_of(group):
    return [m[1:-1] for m in re.findall(MARK, group)]


def places(line, at, faults):
    def turned(m):
        group, file, _ = m.groups()
        path = path_of(file)
        if path is None:
            faults.append(f'{at}: no file {file}')
            return m.group()
        found = []
        for mark in marks_of(group):
            n = line_of(path, mark)
            if n is None:
                faults.append(f'{at}: no `{mark}` in {file}')
                return m.group()
            found.append(str(n))
        return f'{group} ({file}:{", ".join(found)}'
    return PLACE.sub(turned, line)


def edits(line, at, faults):
    for cell in EDITS.findall(line):
        for group, crates in EDIT_GROUP.findall(cell):
            for crate in (crates or 'spec').split(', '):
                for name in marks_of(group):
                    if not os.path.exists(os.path.join(ROOT, 'crates', crate, 'must-fail', name + '.edit')):
                        faults.append(f'{at}: no edit {name} in {crate}')


def unplaced(line, at, faults):
    """Names in a row's cells, but for the first, that have no place in that row."""
    placed = {mark for m in PLACE.finditer(line) for mark in marks_of(m.group(1))} | WORDS
    for mark in marks_of(EDITS.sub('', line.partition(' | ')[2])):
        if mark not in placed and re.fullmatch(r'\w[\w.]+', mark):
            faults.append(f'{at}: `{mark}` has no file')


def main():
    text = open(PAGE, encoding='utf-8').read()
    faults, new = [], []
    for at, line in enumerate(text.split('\n'), 1):
        turned = places(line, at, faults)
        edits(line, at, faults)
        if line.startswith('| '):
            unplaced(line, at, faults)
        new.append(turned)
    stale = [i for i, (a, b) in enumerate(zip(text.split('\n'), new), 1) if a != b]
    if '--check' in sys.argv:
        faults += [f'{i}: a stale line' for i in stale]
    elif stale:
        open(PAGE, 'w', encoding='utf-8').write('\n'.join(new))
        print(f'{len(stale)} rows of docs/CLAUSES.md written')
    for fault in faults:
        print('docs/CLAUSES.md:' + fault)
    return 1 if faults else 0


if __name__ == '__main__':
    sys.exit(main())
