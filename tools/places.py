#!/usr/bin/env python3
"""places.py [--list POINT] [COMMIT]: counts, in the crates' src/ (of the working tree, or of a commit), the places
that docs/DESIGN-PASS.md speaks of, point by point. --list prints the places of one point."""
import re
import subprocess
import sys
from collections import defaultdict

ROOT = subprocess.run(['git', 'rev-parse', '--show-toplevel'], capture_output=True, text=True, check=True).stdout.strip()


def git(*words):
    return subprocess.run(['git', '-C', ROOT, *words], capture_output=True, text=True, check=True).stdout


def sources(commit):
    """The .rt files with their texts."""
    if commit:
        names = git('ls-tree', '-r', '--name-only', commit, 'crates').split('\n')
        return {n: git('show', f'{commit}:{n}') for n in names if n.endswith('.rt')}
    names = git('ls-files', '--cached', '--others', '--exclude-standard', 'crates').split('\n')
    return {n: open(f'{ROOT}/{n}').read() for n in names if n.endswith('.rt')}


def proof_files(commit):
    if commit:
        names = git('ls-tree', '-r', '--name-only', commit, 'crates').split('\n')
    else:
        names = git('ls-files', '--cached', '--others', '--exclude-standard', 'crates').split('\n')
    return [n for n in names if n.endswith(('Answers.antt', 'Invariants.antt'))]


def functions(text):
    """(name, parameters, head with its clauses, body, line) of each function of a file."""
    out = []
    for m in re.finditer(r'^( *)(?:pub )?(?:extern "C" )?fn ([a-z_0-9]+)(.*?)^\1}$', text, re.M | re.S):
        whole = m.group(0)
        b = re.search(r'^' + m.group(1) + r'\{$|\{$', whole, re.M)
        head, body = whole[:b.start()], whole[b.end():]
        if '\n' in head and not re.search(r'^' + m.group(1) + r'\{$', whole, re.M):
            head, body = whole[:whole.index('{\n')], whole[whole.index('{\n') + 1:]
        params = re.search(r'\((.*?)\)(?: ->|\s|$)', head, re.S)
        plist = re.findall(r'([a-z_0-9]+): ([^,]+?)(?:,|$)', re.sub(r'\s+', ' ', params.group(1))) if params else []
        out.append((m.group(2), plist, head, body, text[:m.start()].count('\n') + 1))
    return out


def variants(body):
    body = re.sub(r'//.*', '', body)
    out, depth, word = [], 0, ''
    for c in body:
        if c in '({[':
            depth += 1
        if c in ')}]':
            depth -= 1
        if c == ',' and depth == 0:
            out.append(word.strip())
            word = ''
        else:
            word += c
    if word.strip():
        out.append(word.strip())
    return [v for v in out if v]


def shape(body):
    body = re.sub(r'//.*', '', body)
    body = re.sub(r'0x[0-9a-f_]+|[0-9][0-9_.e+-]*', '#', body)
    body = re.sub(r'[A-Za-z_][A-Za-z_0-9]*(::[A-Za-z_][A-Za-z_0-9]*)*', 'x', body)
    return re.sub(r'\s+|,(?=\s*[)\]}])', '', body)


def points(commit):
    found = defaultdict(list)
    shapes = defaultdict(list)
    facts = defaultdict(set)
    pairs = defaultdict(set)
    for name, text in sorted(sources(commit).items()):
        for m in re.finditer(r'^ *(?:pub )?enum (\w+)(?:<[^>]*>)? \{\n(.*?)^ *\}', text, re.M | re.S):
            vs = variants(m.group(2))
            bare = [v for v in vs if not re.search(r'[({]', v)]
            if len(vs) == 2 and len(bare) == 1 or {'Less', 'Greater'} <= set(bare):
                found['1 an enum like Option'].append(f'{name}: {m.group(1)}')
            elif len(vs) == 2 and not bare:
                found['1 an enum like Result'].append(f'{name}: {m.group(1)}')
        for m in re.finditer(r'^ *(?:pub )?struct (\w+)(?:<[^>]*>)? \{\n(.*?)^ *\}', text, re.M | re.S):
            if re.search(r': bool,', m.group(2)):
                found['1 a struct with a flag'].append(f'{name}: {m.group(1)}')
            if re.search(r': \[', m.group(2)):
                found['6 a struct that holds an array'].append(f'{name}: {m.group(1)}')
        for f, params, head, body, line in functions(text):
            at = f'{name}:{line}: {f}'
            if re.search(r'-> u8\b', head) and re.search(r'refusal|^ask$|^or_else$|^whole$', f):
                found['1 a number for a refusal'].append(at)
            if re.search(r'-> (?:u32|usize|ProfilePlace|PlacedLiteral|EdgePlaces)\b', head) and 'place' in f:
                found['1 a place that is 0 for none'].append(at)
            for _ in re.finditer(r'^ *(?:0x)?[0-9]+ => ', body, re.M):
                pass
            if len(re.findall(r'^ *[0-9]+ => ', body, re.M)) >= 2 or len(re.findall(r'\b(?:kind|tag|n) == [0-9]+\b', body)) >= 2:
                found['1 a switch on numbers'].append(at)
            s = shape(body)
            if len(s) >= 40:
                shapes[s].append(at)
            for w in re.findall(r'^ *(while|loop)\b', body, re.M):
                found['3 a while or a loop'].append(at)
            for m in re.finditer(r"^( *)(?:'\w+: )?for (\w+) in [^\n]*\.\.[^\n]*\{\n(.*?)^\1\}", body, re.M | re.S):
                if re.search(r'\[' + m.group(2) + r'\b', m.group(3)):
                    found['3 a for that indexes'].append(at)
            for w in re.findall(r'\b(?:rules::)?(both|either)\(', body):
                found['4 both() or either()'].append(at)
            arms = re.findall(r'=> ([^\n]*),\n', body)
            if arms and len(arms) >= 2 and all(a in ('true', 'false') for a in arms):
                found['4 a match of true and false'].append(at)
            if re.search(r'_number$|^number_|_of$|^one_if|^signed_|^unsigned_|_to_i64$|^boolean_integer$', f) and re.search(r'-> (?:u8|u16|u32|u64|i32|i64|[A-Z]\w+Op|EstimateSource)\b', head) and not re.search(r'&\[', head):
                found['4 a conversion'].append(at)
            if re.search(r'_order$|^equal_|^same_|^is_equal|^is_less|^is_greater', f):
                found['4 an order or an equality'].append(at)
            for c in re.findall(r'requires\w*(?: \w+)? \{ (.*) \}$', head, re.M):
                for fact in c.split(' × '):
                    facts[re.sub(r'[()]', '', fact)].add(at)
            for a, b in zip(params, params[1:]):
                pairs[(a, b)].add(at)
            slices = [p for p in params if p[1].startswith(('&[', '&mut ['))]
            counts = [p for p in params if p[0] in ('n', 'count') and p[1] in ('usize', 'u8', 'u16')]
            if slices and counts:
                found['6 a slice and how much of it counts'].append(at)
            plain = [p for p in slices if p[1].startswith('&[') and p[1] != '&[u8]']
            if len(plain) >= 2:
                found['6 slices side by side'].append(at)
            calls = re.findall(r'^ *\w+(?:::\w+)+(?:\([^)]*\)| \{[^}]*\})? => \{?\s*[a-z_0-9:]+\(', body, re.M)
            if len(calls) >= 2 and re.search(r'\bmatch (?:\w+\.)?(?:question|kind|tally|place|carried|line)\b', body):
                found['7 a switch on a step'].append(at)
    for s, where in shapes.items():
        if len(where) >= 2:
            found['2 functions of one shape'] += where
    for fact, where in facts.items():
        if len(where) >= 3:
            found['5 a fact of three contracts or more'].append(f'{fact}: {len(where)} functions')
    for (a, b), where in pairs.items():
        if len(where) >= 8:
            found['5 two parameters in eight functions or more'].append(f'{a[0]}: {a[1]}, {b[0]}: {b[1]}: {len(where)} functions')
    for n in proof_files(commit):
        found['8 ' + n.rsplit('/', 1)[1]].append(n)
    return found


def main(words):
    show = None
    if words[:1] == ['--list']:
        show, words = words[1], words[2:]
    found = points(words[0] if words else None)
    for kind in sorted(found):
        if show is None:
            print(f'{len(found[kind]):5}  {kind}')
        elif kind.startswith(show):
            print(f'{kind}: {len(found[kind])}')
            for place in found[kind]:
                print(f'    {place}')


main(sys.argv[1:])
