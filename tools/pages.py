#!/usr/bin/env python3
"""Prints the names in code marks of README.md, rust/README.md and docs/ that stand nowhere in the sources, or not where
the page says, and the paths that lead nowhere.

    python3 tools/pages.py

A name is looked for as a whole word in code, definitions, proofs, edits, scripts and file names, comments aside. Where
' in crates/NAME', ' (crates/NAME', ' (crates/NAME/..file' or ' (File' stands behind names, each is looked for there.
docs/PORT.md and docs/DESIGN-PASS-CONTRACTS.md tell of older states and are left out.
"""
import collections
import glob
import os
import re
import sys

ROOT = os.path.abspath(os.path.join(os.path.dirname(os.path.abspath(__file__)), '..'))
OLDER = {'docs/PORT.md', 'docs/DESIGN-PASS-CONTRACTS.md'}
ENDINGS = ('.rt', '.antt', '.edit', '.rs', '.c', '.h', '.toml', '.py', '.txt')
# of the shell, of the toolchain and what it prints, of document 01's lines, and of the Rust, which is not kept here
KNOWN = set('''cargo valgrind ensures requires no-default-features leak-check prove
    rattle-kit-13f dac8208d650f15bf logic-built libraries-built trusted axioms reached _tests
    INSTRUCTIONS NEW STORAGES immediate_bytes docs/src'''.split())
# what a page says is gone
GONE = {'distance_fits', 'distance_of_any_width'}

WORD = re.compile(r"[A-Za-z_][\w'-]*")
MARK = re.compile(r'`([^`\n]+)`')
PLACED = re.compile(r'((?:`[^`\n]+`(?:, | and | \.\. )?)+) (?:in (?=crates/)|\()(crates/[\w./-]*\w|[A-Z]\w+)(?=[):;,| ])')
PATH = re.compile(r'(?<![\w./-])(?:crates|docs|tools|rust|examples|\.ci)/[\w./-]*\w')


def words_of(path):
    with open(path, encoding='utf-8', errors='replace') as f:
        text = f.read()
    if path.endswith('.rt'):
        text = re.sub(r'//[^\n]*', '', text)
    elif path.endswith('.antt'):
        text = re.sub(r'(?m)^\s*--[^\n]*', '', text)
    return set(WORD.findall(text)) | set(WORD.findall(os.path.relpath(path, ROOT)))


def sources():
    """The words of each file, of each crate, of the files of one name, and under '' all of them."""
    words = collections.defaultdict(set)
    for folder, folders, names in os.walk(ROOT):
        folders[:] = [f for f in folders if f not in ('.git', 'out', 'target', 'docs', 'stdin', 'stdout')]
        for path in (os.path.join(folder, name) for name in names):
            if path.endswith(ENDINGS) or '/.ci/' in path:
                found = words_of(path)
                short = os.path.relpath(path, ROOT)
                for key in ('', short, '/'.join(short.split('/')[:2]), os.path.basename(short).partition('.')[0]):
                    words[key] |= found
    return words


def faults_of(line, words):
    for mark in MARK.findall(line):
        for word in WORD.findall(mark):
            if len(word) > 1 and word not in words[''] | KNOWN | GONE:
                yield f'`{word}` is nowhere'
    for marks, place in PLACED.findall(line):
        for mark in MARK.findall(marks):
            name = WORD.match(mark)
            if name and place in words and name.group() not in words[place] | GONE:
                yield f'`{name.group()}` is not in {place}'
    for path in PATH.findall(line):
        if path not in KNOWN and '/out/' not in path and not glob.glob(os.path.join(ROOT, path) + '*'):
            yield f'no {path}'


def main():
    words = sources()
    count = 0
    for page in ['README.md', 'rust/README.md'] + sorted(glob.glob('docs/**/*.md', root_dir=ROOT, recursive=True)):
        if page not in OLDER:
            with open(os.path.join(ROOT, page), encoding='utf-8') as f:
                for at, line in enumerate(f, 1):
                    for fault in faults_of(line, words):
                        print(f'{page}:{at}: {fault}')
                        count += 1
    return 1 if count else 0


if __name__ == '__main__':
    sys.exit(main())
