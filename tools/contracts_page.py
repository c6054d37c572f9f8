#!/usr/bin/env python3
"""Writes docs/DESIGN-PASS-CONTRACTS.md: what changed between two checkouts, old and new side by side.

    python3 tools/contracts_page.py PORT OLD NEW > docs/DESIGN-PASS-CONTRACTS.md

PORT is the kit's folder port (its contracts.py finds functions and definitions again), OLD and NEW are checkouts. design_pass_gone.tsv beside
this script names, for each function and definition that is gone, what states its promise now; for lemmas this is worked out from who cited them.
"""
import collections
import glob
import json
import os
import re
import subprocess
import sys

PORT, OLD, NEW = sys.argv[1:4]
sys.path.insert(0, PORT)
from contracts import definitions, squeeze  # noqa: E402

DATA = {'Tables', 'Form', 'Counts', 'LineKind'}  # types of values, and no statements
D = json.loads(subprocess.run([sys.executable, os.path.join(PORT, 'contracts.py'), OLD, NEW, '--json'], capture_output=True, text=True, check=True).stdout)


def respelled(text):
    """Option as the library spells it, so that a change of spelling alone is none."""
    return re.sub(r'\bnone\b', 'None', re.sub(r'\bsome\b', 'Some', text))


def cell(text):
    return '`' + squeeze(text).replace('`', "'") + '`'


def sides(name, old, new):
    print(f'- {name}\n  - old {cell(old)}\n  - new {cell(new)}')


def clause(c):
    return f'{c[0]}: {c[1]}' if c[0] else c[1]


def contracts():
    print('\n## Contracts\n')
    for name, old_requires, old_ensures, new_requires, new_ensures in sorted(D['contracts changed']):
        print(f'- {name}')
        for label, old, new in (('requires', old_requires, new_requires), ('ensures', old_ensures, new_ensures)):
            if sorted(map(tuple, old)) == sorted(map(tuple, new)):
                continue
            for side, clauses in (('old', old), ('new', new)):
                for c in clauses or [['', 'none']]:
                    print(f'  - {label}, {side}: {cell(clause(c))}')


def ghosts(root):
    """Ghost fields of types, and what traits and impls say in ghost items."""
    out = {}
    for path in sorted(glob.glob(os.path.join(root, 'crates/*/src/*.rt'))):
        text = open(path, encoding='utf-8').read()
        crate = os.path.relpath(path, root).split(os.sep)[1]
        owner = ''
        for line in text.split('\n'):
            m = re.match(r'(?:pub(?:\([^)]*\))? )?(struct|enum|trait|impl)\b(.*?)\s*\{?$', line)
            if m:
                owner = m[1] + ' ' + m[2].strip()
            g = re.match(r'\s+(?:pub )?ghost (\w+)(?::| =) (\{.*)$', line)
            if g:
                out[crate, owner, g[1]] = g[2].rstrip(',;')
    return out


def types():
    print('\n## Ghost fields and ghost items: invariants of types, and what traits ask\n')
    old, new = ghosts(OLD), ghosts(NEW)
    print(f'{len(old)} → {len(new)}; the same {sum(old.get(k) == v for k, v in new.items())}.\n')
    for key in sorted(set(old) | set(new)):
        if old.get(key) != new.get(key):
            crate, owner, name = key
            sides(f'{crate}, {owner}: {name}', old.get(key, 'none'), new.get(key, 'none'))


def definition_changes():
    print('\n## Definitions that changed\n')
    spelled, changed = [], []
    for crate, name, old, new in D['definitions']['changed']:
        if sorted(map(respelled, old)) == sorted(map(respelled, new)):
            spelled.append((crate, name))
        else:
            changed.append((crate, name, old, new))
    print(f'{len(spelled)} definitions are the same but for the spelling of `Option` (`none`, `some` are `None`, `Some` of the library): '
          + '; '.join(f'{c}: ' + ', '.join(f'`{n}`' for k, n in spelled if k == c) for c in sorted({c for c, _ in spelled})) + '.\n')
    print(f'The other {len(changed)}:\n')
    for crate, name, old, new in changed:
        sides(f'{crate} {name}', ' / '.join(old), ' / '.join(new))


def gone():
    path = os.path.join(os.path.dirname(os.path.abspath(__file__)), 'design_pass_gone.tsv')
    rows = [line.rstrip('\n').split('\t') for line in open(path, encoding='utf-8')] if os.path.exists(path) else []
    table = {(r[0], r[1], r[2]): (r[3], r[4] if len(r) > 4 else '') for r in rows if len(r) > 3}
    missing = []
    for kind, names in (('function', [x.rsplit(' (', 1)[0] for x in D['functions not found again']]),
                        ('definition', [' '.join(x) for x in D['definitions']['gone']])):
        print(f'\n## Each {kind} that is gone, and what states its promise now\n')
        print(f'{len(names)} {kind}s are not found again by name and place.\n')
        print('| Crate | Old | Now | How |\n|---|---|---|---|')
        for full in sorted(names):
            crate, name = full.split(' ', 1)
            short = name.split(' ')[-1]
            now = table.get((crate, kind, name)) or table.get((crate, kind, short))
            if not now:
                missing.append(f'{crate} {kind} {name}')
                now = ('', '')
            bar = lambda s: s.replace('|', '\\|')  # noqa: E731
            print(f'| {crate} | `{short}` | {bar(now[0])} | {bar(now[1])} |')
    for m in missing:
        print('missing in design_pass_gone.tsv:', m, file=sys.stderr)


# ---------------------------------------------------------------- theorems and lemmas

def statement(name, text):
    """A lemma's type, without its clauses."""
    m = re.match(r'(?:(?:abbrev|opaque|unfoldable|pub|instance)\s+)*(?:record |data )?', text)
    body = text[m.end():]
    at = re.search(r'\s' + re.escape(name) + r'(?=\s)(?![^=]*→)', body[len(name):])
    return squeeze(body[:len(name) + at.start()] if at else body)


def proofs(root):
    out = collections.defaultdict(list)
    for path in sorted(glob.glob(os.path.join(root, 'crates/*/proofs/**/*.antt'), recursive=True)):
        rel = os.path.relpath(path, root).split(os.sep)
        raw = open(path, encoding='utf-8').read()
        for name, texts in definitions(raw).items():
            for text in texts:
                out[rel[1], name].append(('/'.join(rel[3:]), text))
    return out


def answer(file):
    """Whether a file below proofs/ is one of a function's own folder; one of that name right in proofs/ has lemmas."""
    return bool(re.search(r'/(Answers|Invariants|Loops?|Proof)\.antt$', file))


RULESET = re.compile(r'^ *(?:pub )?ruleset (\S+)\s*=\s*(\([^()]*\)|\S+)', re.M)


def papers(root):
    """The names that README and docs have in code marks; docs/PORT.md, which lists respelled lemmas, aside."""
    pages = [os.path.join(root, 'README.md'), *glob.glob(os.path.join(root, 'docs/**/*.md'), recursive=True), *glob.glob(os.path.join(root, 'rust/*.md'))]
    return set(re.findall(r"`([^`\s]+)`", ' '.join(open(p, encoding='utf-8').read() for p in pages if not p.endswith('PORT.md'))))


def elsewhere(root):
    """Names of definitions, of code and of edits: a page that has one of these in code marks names no lemma."""
    out = set()
    for path in glob.glob(os.path.join(root, 'crates/*/specs/**/*.antt'), recursive=True):
        out |= set(definitions(open(path, encoding='utf-8').read()))
    for path in glob.glob(os.path.join(root, 'crates/*/src/*.rt')):
        out |= set(re.findall(r'\b(?:fn|struct|enum|trait|mod|const|ghost) (\w+)', open(path, encoding='utf-8').read()))
    return out | {os.path.basename(p)[:-5] for p in glob.glob(os.path.join(root, 'crates/*/must-fail/*.edit'))}


def theorems(old, new):
    """Each lemma that a paper names at OLD, or whose type is a definition of specs/: as it stands now."""
    named = papers(OLD) - elsewhere(OLD)
    print('\n## Theorems that README or docs named, or that are instances of a statement in specs/\n')
    count = collections.Counter()
    rows = []
    for (crate, name), places in sorted(old.items()):
        if all(answer(f) for f, _ in places):
            continue
        file, text = next(p for p in places if not answer(p[0]))
        said = statement(name, text)
        claim = re.fullmatch(re.escape(name) + r'\s*:\s*([A-Z]\w*)', said)
        if name not in named and not (claim and claim[1] not in DATA):
            continue
        now = new.get((crate, name)) or next((v for (c, n), v in new.items() if n == name), None)
        if not now:
            count['gone'] += 1
            rows.append((f'{crate} {file} {name}', said, 'not found by name'))
            continue
        nfile, ntext = now[0]
        after = statement(name, ntext)
        if respelled(said) == respelled(after):
            count['the same'] += 1
        else:
            count['changed'] += 1
            rows.append((f'{crate} {nfile} {name}', said, after))
    print(f'{sum(count.values())} theorems: the same {count["the same"]} (but for the spelling of `Option`), changed {count["changed"]}, not found by name {count["gone"]}.\n')
    for name, a, b in rows:
        sides(name, a, b)


def lemmas(old, new):
    """Lemmas that are gone, by what they were cited for in the end: the functions whose contracts they helped to prove, which stand."""
    words = re.compile(r"[^\s(){},.;:=→λ⌜⌝]+")
    users, ends = collections.defaultdict(set), collections.defaultdict(set)
    by_name = collections.defaultdict(set)
    for key, places in old.items():
        if not all(answer(f) for f, _ in places):
            by_name[key[1]].add(key)
    paths = sorted(glob.glob(os.path.join(OLD, 'crates/*/proofs/**/*.antt'), recursive=True))
    for path in paths:
        for name, _ in RULESET.findall(open(path, encoding='utf-8').read()):
            by_name[name].add((os.path.relpath(path, OLD).split(os.sep)[1], name))

    def cited(crate, raw, text):
        near = set(re.findall(r'Rattle\.(\w+)\.(?:proofs|specs)', raw)) | {crate}
        return {key for w in set(words.findall(text)) for key in by_name.get(w, ()) if key[0] in near}

    for path in paths:
        rel = os.path.relpath(path, OLD).split(os.sep)
        raw = open(path, encoding='utf-8').read()
        if answer('/'.join(rel[3:])):
            for key in cited(rel[1], raw, raw):
                ends[key].add(f'{rel[1]} {rel[-2]}')
            continue
        # A lemma serves what a set of rules that has it serves.
        for name, texts in [*definitions(RULESET.sub('', raw)).items(), *((n, [t]) for n, t in RULESET.findall(raw))]:
            for key in cited(rel[1], raw, ' '.join(texts)):
                if key != (rel[1], name):
                    users[key].add((rel[1], name))
    for path in sorted(glob.glob(os.path.join(OLD, 'crates/*/src/*.rt'))):
        crate = os.path.relpath(path, OLD).split(os.sep)[1]
        for m in re.finditer(r'using\(([^)]*)\)[^{]*?\bfn (\w+)', open(path, encoding='utf-8').read()):
            for w in re.findall(r'\w+', m[1]):
                for key in by_name.get(w, ()):
                    if key[0] == crate:
                        ends[key].add(f'{crate} {m[2]}')
    lost = [(k, [f for f, _ in v]) for k, v in sorted(old.items()) if k not in new and not all(answer(f) for f, _ in v) and k[0] != 'spec']
    print('\n## Lemmas that are gone\n')
    spec_lost = [k for k, v in old.items() if k[0] == 'spec' and k not in new]
    print(f'A lemma of proofs/ states a step of some function\'s or theorem\'s proof; what it helped to prove stands, and is named here by what cited it in the end. {len(lost)} lemmas of {len({k[0] for k, _ in lost})} crates are gone by name (crates/spec: {len(spec_lost)}).\n')
    groups = collections.defaultdict(list)
    for key, files in lost:
        seen, todo, found = {key}, [key], set()
        while todo:
            k = todo.pop()
            found |= ends.get(k, set())
            if k in new and k != key:
                found.add(f'{k[0]} lemma {k[1]}')
                continue
            for u in users.get(k, ()):
                if u not in seen:
                    seen.add(u)
                    todo.append(u)
        groups[key[0], files[0], tuple(sorted(found))].append(key[1])
    print('| Crate, file | Gone | What they served |\n|---|---|---|')
    for (crate, file, found), names in sorted(groups.items()):
        served = ', '.join(f'`{f.split(" ", 1)[1]}`' + ('' if f.split(' ', 1)[0] == crate else f' ({f.split(" ", 1)[0]})') for f in found[:8])
        more = f' and {len(found) - 8} more' if len(found) > 8 else ''
        print(f'| {crate} {file} | {", ".join(f"`{n}`" for n in names)} | {served + more or "nothing that cited them is left"} |')
    for key in spec_lost:
        print(f'- spec `{key[1]}`')


def public(root):
    """Whether a type of src/, and a name of specs/ or of the lemmas of proofs/, is public."""
    out = {}
    for path in glob.glob(os.path.join(root, 'crates/*/src/*.rt')):
        crate = os.path.relpath(path, root).split(os.sep)[1]
        for m in re.finditer(r'^(pub )?(?:struct|enum|trait) (\w+)', open(path, encoding='utf-8').read(), re.M):
            out['type', crate, m[2]] = out.get(('type', crate, m[2]), False) or bool(m[1])
    for path in glob.glob(os.path.join(root, 'crates/*/specs/**/*.antt'), recursive=True) + glob.glob(os.path.join(root, 'crates/*/proofs/*.antt')):
        crate, kind = os.path.relpath(path, root).split(os.sep)[1:3]
        for name, texts in definitions(open(path, encoding='utf-8').read()).items():
            at = any(re.match(r'(?:(?:abbrev|opaque|unfoldable|instance)\s+)*pub\b', t) for t in texts)
            out[kind, crate, name] = out.get((kind, crate, name), False) or at
    return out


def hidden():
    print('\n## Names that stand and are no longer public\n')
    old, new = public(OLD), public(NEW)
    lost = [k for k in sorted(old) if old[k] and new.get(k) is False]
    print('Functions: see the head of this page. No public function took or gave one of the types but `add`, in a private module of ticket, which takes `Extent`. '
          'Of the lemmas, conversions cited `pointer_of`, `pointer_read` and `pointer_size` of steps, for what is `pointer_value` of steps now; the others served their own crates. '
          'Public again since: `placed_row` of tables, `Seen`, `Extent`, `Reader`, `Form`, `Parts`.\n')
    for kind, label in (('type', 'Types'), ('specs', 'Of specs/'), ('proofs', 'Of proofs/')):
        found = [(c, n) for k, c, n in lost if k == kind]
        print(f'- {label}: ' + ('; '.join(f'{c}: ' + ', '.join(f'`{n}`' for k, n in found if k == c) for c in sorted({c for c, _ in found})) or 'none'))


def edits():
    print('\n## Must-fail edits whose text changed\n')
    old_new = D['edits and outputs']
    print(f'{old_new["old"]} files of edits, inputs and outputs → {old_new["new"]}; the same {old_new["same"]}, gone {len(old_new["gone"])}. Each keeps its name and its wrong meaning:\n')
    for crate, path, old, new in old_new['changed']:
        if path.endswith('.edit'):
            sides(f'{crate} {path}', old, new)
    other = [f'`{c} {p}`' for c, p, _, _ in old_new['changed'] if not p.endswith('.edit')]
    if other:
        print('\nInputs and outputs whose text changed: ' + ', '.join(other) + '.')


def main():
    print('# What changed in the design pass, old and new side by side\n')
    print('Old is the commit in the first line of docs/DESIGN-PASS.md, new is the tree of 01fa971, in which the pass ends, before E3; written by `python3 tools/contracts_page.py PORT OLD NEW`, '
          'PORT being the kit\'s folder port, OLD and NEW two checkouts.\n')
    print(f'Functions {D["functions"][0]} → {D["functions"][1]}, with `ensures` {D["with ensures"][0]} → {D["with ensures"][1]}; contracts the same {D["contracts the same"]}, '
          f'changed {len(D["contracts changed"])}; signatures changed {len(D["signatures changed"])}. Definitions {D["definitions"]["old"]} → {D["definitions"]["new"]}, the same {D["definitions"]["same"]}. '
          f'All `ensures` gone: {", ".join(D["ensures all gone"]) or "none"}; fewer `ensures`: {", ".join(D["fewer ensures"]) or "none"}; more `requires`: {", ".join(D["more requires"]) or "none"}; no longer public: {", ".join(D["no longer pub"]) or "none"}.\n')
    print('## Signatures\n')
    for name, old, new in sorted(D['signatures changed']):
        sides(name, old, new)
    contracts()
    types()
    definition_changes()
    gone()
    old, new = proofs(OLD), proofs(NEW)
    theorems(old, new)
    lemmas(old, new)
    hidden()
    edits()


main()
