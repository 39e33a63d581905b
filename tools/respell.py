#!/usr/bin/env python3
"""Brings the repository's own names in specs/, proofs/ and clauses to today's spelling.

usage: python3 tools/respell.py        at the top, once, right after port.py

A definition, a lemma, a record's field or a variable of .antt files that has capitals inside or dashes gets snake case:
`sheetRefusal` is `sheet_refusal`, `filled-part` is `filled_part`. Types, facts, modules and names that begin with a
capital stay. In .rt files only the text of clauses and `ghost use` lines turns. Where a lemma would meet a definition
or a name of the library that stands in one of its files, it gets `_law` behind it. In a comment a word with a dash turns in
backquotes alone, and `squareRoot`, which is a standard's own name, stays. What Rattle makes (the names behind
`c.`, `l.`, `goal.`, `tie.`, and the answers' own) stays.
"""

import collections
import os
import re

TOKEN = re.compile(r"[^\s(){}\[\],;.«»⌜⌝\"`]+")
CAMEL = re.compile(r"^[a-z][a-z0-9']*[A-Z][A-Za-z0-9'₀-₉-]*$")
DECLARED = re.compile(
    r"^(\s*)((?:abbrev |unfoldable |pub |data |record |ruleset |mutual )*)"
    r"([^\s:(){};,=.λ|]+)((?:\s*(?:\{[^}:]*\}|[({][^:=]*?:[^:=]*?[)}]))*)\s*:(?!=)"
)
OPEN_USE = re.compile(r"^\s*(?:pub )?(?:ghost )?use\b")
CLAUSE = re.compile(r"^\s*(?:requires|ensures|ghost)\b")
ANSWERS = ("Proof.antt", "Answers.antt", "Invariants.antt")


def files():
    for folder, folders, names in os.walk("crates"):
        folders[:] = sorted(f for f in folders if f != "out")
        for name in sorted(names):
            if name.endswith((".antt", ".rt")):
                yield os.path.join(folder, name)


def snake(name):
    name = name.replace("getD", "get_or")  # the library's word
    name = re.sub(r"([a-z0-9'])([A-Z])", lambda m: m[1] + "_" + m[2].lower(), name)
    return re.sub(r"[A-Z]", lambda m: m[0].lower(), name).replace("-", "_")


def declared(texts):
    """The names that the .antt files declare, each with True where it is a lemma's (it has a dash)."""
    found = set()
    for path, text in texts.items():
        if not path.endswith(".antt") or os.path.basename(path) in ANSWERS:
            continue
        for line in text.split("\n"):
            m = DECLARED.match(line)
            if m and not line.lstrip().startswith("--") and re.match("[a-zμ]", m[3]):
                found.add(m[3])
    return found


def apart(path, text, camel):
    """A lemma that port.py gave the spelling that a definition in its file gets now: it gets `_law`."""
    if os.path.basename(path) in ANSWERS:
        return text
    own = {m[3] for m in map(DECLARED.match, text.split("\n")) if m}
    for word in sorted(set(TOKEN.findall(text))):
        if word in camel and camel[word] in own:
            text = re.sub(r"(?<![\w.'-])" + camel[word] + r"(?![\w'-])", camel[word] + "_law", text)
    return text


def clauses(text):
    """The spans of an .rt file that the logic reads: `ghost use` lines and clauses."""
    for m in re.finditer(r"ghost use [^;]*;", text):
        yield m.span()
    for m in re.finditer(r"^\s*(?:requires\*?|ensures\*?|ghost)\b[^{\n]*\{", text, re.M):
        if m[0].lstrip().startswith("ghost use"):
            continue
        depth, at = 1, m.end()
        while depth:
            depth += {"{": 1, "}": -1}.get(text[at], 0)
            at += 1
        yield m.end(), at


def main():
    texts = {p: open(p, encoding="utf-8").read() for p in files()}
    names = declared(texts)
    tokens = {p: set(TOKEN.findall(t)) for p, t in texts.items()}
    everything = set().union(*(t for p, t in tokens.items() if p.endswith(".antt")))
    table = {n: snake(n) for n in names if snake(n) != n and re.match("[a-z]", n)}
    camel = {n: snake(n) for n in everything if CAMEL.match(n) and "-" not in n}
    targets = set(camel.values()) | {n for n in names if n not in table}
    for name in sorted(table):
        if "-" not in name:
            continue
        new = table[name]
        other = [o for o in table if o != name and table[o] == new]
        met = any(
            name in t and new in t for p, t in tokens.items() if p.endswith(".antt") and os.path.basename(p) not in ANSWERS
        )
        if new in targets or met or any(o < name for o in other):
            table[name] = new + "_law"
    table.update(camel)
    back = collections.defaultdict(list)
    for old, new in table.items():
        back[new].append(old)
    for new, old in sorted(back.items()):
        if len(old) > 1 or new in table:
            print("meet:", new, old)

    fields = {n for n in table if "-" not in n}

    def turn(text, answers):
        made = set()
        if answers:  # the names that such a file declares are Rattle's
            made = {m[1] for m in re.finditer(r"^\s*(?:pub |abbrev )*(\S+)(?: \{[^}]*\})? : (?:tie|goal|[\w-]+)\.", text, re.M)}

        def one(m):
            word = m[0]
            if word not in table or word in made:
                return word
            line = text[text.rfind("\n", 0, m.start()) + 1 : m.start()]
            prose = re.search(r"(?:^|\s)--(?:\s|$)(.*)", line)
            if prose and (word == "squareRoot" or "-" in word) and prose[1].count("`") % 2 == 0:
                return word
            if answers and m.start() and text[m.start() - 1] == "." and word not in fields:
                if not OPEN_USE.match(line) and not re.search(r"Rattle\.[\w.+]*$", line):
                    return word
            return table[word]

        return TOKEN.sub(one, text)

    for path, text in texts.items():
        if path.endswith(".antt"):
            new = turn(apart(path, text, camel), os.path.basename(path) in ANSWERS)
        else:
            new, at = "", 0
            for begin, end in sorted(clauses(text)):
                new += text[at:begin] + turn(text[begin:end], False)
                at = end
            new += text[at:]
        if new != text:
            with open(path, "w", encoding="utf-8") as f:
                f.write(new)


main()
