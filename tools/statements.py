#!/usr/bin/env python3
"""statements.py OLD NEW [CONTRACTS]: what changed between two checkouts, old and new side by side, for the end of
docs/DESIGN-PASS.md: public functions, definitions, and theorems of proofs/. CONTRACTS is what the toolchain's
contracts.py writes of the same two folders with --json."""
import glob
import json
import re
import sys


def flat(text):
    return re.sub(r'\s+', ' ', text).strip()


def public(root):
    """The public functions, as contracts.py names them."""
    names = set()
    for path in glob.glob(f'{root}/crates/*/src/**/*.rt', recursive=True):
        crate, rest = path.split('/crates/')[1].split('/', 1)
        owner = ''
        for line in open(path):
            m = re.match(r'impl(?:<[^>]*>)? (?:\w+(?:<[^>]*>)? for )?(\w+)', line)
            owner = m.group(1) if m else '' if line.startswith('}') else owner
            m = re.match(r'\s*pub (?:extern "C" )?fn (\w+)', line)
            if m:
                names.add((crate, rest, m.group(1)))
    return names


def lemmas(root):
    """The statements of the lemma files: (crate, name) to (file, statement)."""
    out = {}
    for path in sorted(glob.glob(f'{root}/crates/*/proofs/*.antt')):
        crate = path.split('/crates/')[1].split('/')[0]
        for m in re.finditer(r'^(?:  )?(?:pub )?([a-z][A-Za-z0-9_\'-]*)(?: \{[^}]*\})? : (.*(?:\n    .*)*)', open(path).read(), re.M):
            out.setdefault((crate, m.group(1)), (path.split('/')[-1], flat(m.group(2))))
    return out


def block(title, rows):
    if not rows:
        return
    print(f'\n### {title}\n')
    crate = None
    for where, name, old, new in sorted(rows):
        if where != crate:
            print(('```\n\n' if crate else '') + f'`{where}`\n\n```diff')
            crate = where
        print(f'# {name}')
        for text in old:
            print(f'- {text}')
        for text in new:
            print(f'+ {text}')
    print('```')


def clauses(requires, ensures):
    return [f'requires{" " + n if n else ""} {{ {flat(t)} }}' for n, t in requires] + [f'ensures{" " + n if n else ""} {{ {flat(t)} }}' for n, t in ensures]


def main(old, new, path=None):
    if path:
        data = json.load(open(path))
        names = public(old)
        rows = {}
        for place, a, b in data['signatures changed']:
            crate, file, name = place.split(' ', 2)
            if (crate, file, name.split('::')[-1]) in names:
                rows[place] = [crate, f'{file} {name}', [flat(a)], [flat(b)]]
        for place, ra, ea, rb, eb in data['contracts changed']:
            crate, file, name = place.split(' ', 2)
            if (crate, file, name.split('::')[-1]) in names:
                row = rows.setdefault(place, [crate, f'{file} {name}', [], []])
                a, b = clauses(ra, ea), clauses(rb, eb)
                row[2] += [c for c in a if c not in b]
                row[3] += [c for c in b if c not in a]
        block('Public functions', [tuple(r) for r in rows.values() if r[2] or r[3]])
        block('Definitions and worked cases', [(c, n, [flat(t) for t in a], [flat(t) for t in b]) for c, n, a, b in data['definitions']['changed']])
    a, b = lemmas(old), lemmas(new)
    block('Theorems of proofs/', [(c, f'{a[c, n][0]} {n}', [a[c, n][1]], [b[c, n][1]]) for c, n in a if (c, n) in b and a[c, n][1] != b[c, n][1]])


main(*sys.argv[1:])
