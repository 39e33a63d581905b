#!/usr/bin/env python3
"""Writes the table of docs/CRATES.md anew, from crates.txt and the crates' files.

usage: tests/crate_map.py [--time]

The table stands between two marker lines; what is around it stays. Lines count that hold more than blanks and a
comment. A crate that crates.txt lists for another, though no file of that other names it and nothing listed beside it
rests on it, is left out.

The seconds stay those that the table has; a crate that it lacks gets none. With --time they are taken anew: lowest
first, each crate's kept work is removed and `rt check` proves it, which takes as long as all proofs one by one. Other
checkouts on the machine may hold no kept work of the same crates, since a check would begin with it. The script writes
nothing and ends with a message where one does, or where a crate is not proved.
"""
import pathlib
import re
import shutil
import subprocess
import sys
import time

ROOT = pathlib.Path(__file__).resolve().parent.parent
DOCUMENT = ROOT / "docs/CRATES.md"
BEGIN = "<!-- crate_map.py: begin -->"
END = "<!-- crate_map.py: end -->"
HEAD = ("Crate", "Layer", "Rests on", "Code", "Definitions", "Proof", "Edits", "Seconds")
PARTS = ("src", "specs", "proofs")
COMMENTS = {".rt": "//", ".antt": "--"}


def listed():
    """The crates in the order of crates.txt, each with the crates listed for it; the toolchain's own are left out."""
    lines = (ROOT / "crates.txt").read_text().splitlines()
    entries = [line.partition(":") for line in lines if line and not line.startswith("#")]
    entries = [(kind.split()[0], others.split()) for kind, _, others in entries]
    names = {name for name, _ in entries}
    return {name: [other for other in others if other in names] for name, others in entries}


def sources(path):
    return [file for file in sorted(path.rglob("*")) if file.suffix in COMMENTS]


def lines_of(path):
    """How many lines of the files below a folder hold more than blanks and a comment."""
    count = 0
    for file in sources(path):
        mark = COMMENTS[file.suffix]
        lines = (line.strip() for line in file.read_text().splitlines())
        count += sum(1 for line in lines if line and not line.startswith(mark))
    return count


def named(crate):
    """The names that a crate's files have as those of crates."""
    files = [file for part in PARTS for file in sources(ROOT / "crates" / crate / part)]
    text = "\n".join(file.read_text() for file in files)
    return set(re.findall(r"\bRattle\.([a-z0-9_]+)\.", text)) | set(re.findall(r"\b([a-z0-9_]+)::", text))


def below(crates, name):
    """Every crate that is under one, directly or not."""
    found = set()
    for other in crates[name]:
        found |= {other} | below(crates, other)
    return found


def implied(crates, other, others):
    """Whether one of the others rests on a crate already."""
    return any(other in below(crates, beside) for beside in others if beside != other)


def used(crates):
    """The same crates without what they do not use."""
    kept = {}
    for name, others in crates.items():
        names = named(name)
        kept[name] = [other for other in others if other in names or implied(crates, other, others)]
    return kept


def direct(crates, name):
    """What a crate rests on and what no other of these does."""
    return [other for other in crates[name] if not implied(crates, other, crates[name])]


def layer(crates, name):
    return 1 + max((layer(crates, other) for other in direct(crates, name)), default=0)


def written(document):
    """The seconds that the table has."""
    found = re.findall(r"^\| `(\w+)` \|.* ([\d,]+) \|$", document, re.MULTILINE)
    return {name: int(number.replace(",", "")) for name, number in found}


def timed(crates):
    """The seconds that the proof of each crate takes, with nothing kept of it and with the crates below it built."""
    took = {}
    for name in sorted(crates, key=lambda name: layer(crates, name)):
        place = ROOT / "crates" / name
        shutil.rmtree(place / "out/incremental", ignore_errors=True)
        start = time.monotonic()
        run = subprocess.run(["rt", "check"], cwd=place, stdout=subprocess.PIPE, stderr=subprocess.STDOUT, text=True)
        took[name] = round(time.monotonic() - start)
        if run.returncode:
            sys.exit(f"{name} is not proved:\n{run.stdout}")
        kept = re.search(rf"^rt: {name}: begins with what a check kept in (.*)$", run.stdout, re.MULTILINE)
        if kept:
            sys.exit(f"{name} was not proved from nothing: remove the folder out of {kept[1]}")
        if not (place / "src/main.rt").exists():
            subprocess.run(["rt", "lib"], cwd=place, stdout=subprocess.DEVNULL, check=True)
        print(f"{name}: {took[name]} s", flush=True)
    return took


def rows(crates, took):
    """A row for each crate, by layers, and in a layer as crates.txt has them."""
    made = []
    for name in crates:
        place = ROOT / "crates" / name
        edits = len(list((place / "must-fail").glob("*.edit")))
        counts = [lines_of(place / part) for part in PARTS]
        rests = ", ".join(f"`{other}`" for other in direct(crates, name))
        made.append([f"`{name}`", layer(crates, name), rests, *counts, edits, took.get(name, "")])
    return sorted(made, key=lambda row: row[1])


def table(made):
    sums = [sum(row[column] or 0 for row in made) for column in range(3, len(HEAD))]
    total = [f"{len(made)} crates", "", "", *sums]
    bar = ["---", "---:", "---", *["---:"] * 5]
    shown = [HEAD, bar, *made, total]
    return "\n".join("| " + " | ".join(f"{x:,}" if isinstance(x, int) else x for x in row) + " |" for row in shown)


def main():
    if sys.argv[1:] not in ([], ["--time"]):
        sys.exit("usage: tests/crate_map.py [--time]")
    text = DOCUMENT.read_text()
    parts = re.split(f"({re.escape(BEGIN)}\n|{re.escape(END)})", text)
    if len(parts) != 5 or not parts[1].startswith(BEGIN):
        sys.exit(f"{DOCUMENT} has to have the lines {BEGIN} and {END}, once each and in this order")
    crates = used(listed())
    made = rows(crates, timed(crates) if sys.argv[1:] else written(parts[2]))
    parts[2] = table(made) + "\n"
    DOCUMENT.write_text("".join(parts))
    print(f"{len(made)} crates in {DOCUMENT.relative_to(ROOT)}")


main()
