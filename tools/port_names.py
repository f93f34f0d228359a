#!/usr/bin/env python3
"""Bring the repository's own antt names to the spelling of today's Rattle: once, right after the kit's port.py.

A definition or lemma of crates/*/specs or crates/*/proofs whose name is joined by dashes is joined by underscores; one into Type is in
upper camel case; a prime is an apostrophe. Functions of src/, exported C names and strings keep their names. Comments and pages change
inside backticks alone.

    python3 tools/port_names.py [--list]
"""
import glob
import re
import sys

TYPES = {"whole-after": "WholeAfter"}  # the one lower-case name into Type; the others have a capital already
# records with parameters, names after `as`, fields and variables with a dash
OTHERS = (
    "Demand-3 Panel-law Tick-law entry-past stage-ticked all-trains not-tick no-strike-in no-passage amber-lit lamp-2 lamp-3 boom-0 boom-1"
).split()
SIGNATURE = re.compile(r"^ *(?:(?:pattern|unfoldable|abbrev|pub|record|data|axiom) )*([^\s:(){};,]+)(?: \{[^}]*\})? : ", re.M)
PART = r"A-Za-z0-9_'′\-"


def respelled(name):
    if name in TYPES:
        return TYPES[name]
    parts = name.replace("′", "'").split("-")
    if parts[0][:1].isupper():
        return "".join(p[:1].upper() + p[1:] for p in parts)
    return "_".join(parts)


def own_names():
    """Names with a dash that specs/ or a lemma file of proofs/ declares; goals of proofs/F/Proof.antt are Rattle's."""
    names = set(OTHERS)
    for path in sorted(glob.glob("crates/*/specs/*.antt") + glob.glob("crates/*/proofs/*.antt")):
        for name in SIGNATURE.findall(open(path, encoding="utf-8").read()):
            if "-" in name.strip("-") or "′" in name:
                names.add(name)
    # the proof of a function f is f_spec, and helpers that a walk declares for itself are the repository's own too
    for path in sorted(glob.glob("crates/*/proofs/**/Proof.antt", recursive=True)):
        text = open(path, encoding="utf-8").read()
        for match in SIGNATURE.finditer(text):
            name, rest = match.group(1), text[match.end():].lstrip()
            if "-" in name and not rest.startswith("tie."):
                names.add(name)
    return names


def main():
    table = {name: respelled(name) for name in own_names()}
    taken = {}
    for old, new in sorted(table.items()):
        if new in taken:
            sys.exit(f"port_names: {old} and {taken[new]} fall together as {new}")
        taken[new] = old
    if "--list" in sys.argv:
        for old, new in sorted(table.items()):
            print(old, new)
        return
    word = re.compile(rf"(?<![{PART}])(?:{'|'.join(re.escape(n) for n in sorted(table, key=len, reverse=True))})(?![{PART}])")

    def turned(text):
        return word.sub(lambda m: table[m.group(0)], text)

    def in_ticks(text):
        return re.sub(r"`[^`\n]*`", lambda m: turned(m.group(0)), text)

    def line_of(line, mark):
        if line.lstrip().startswith(mark):
            return in_ticks(line)
        at = line.find(" " + mark + " ")
        return turned(line) if at < 0 else turned(line[:at]) + in_ticks(line[at:])

    counts = 0
    files = [(p, "--") for p in glob.glob("crates/**/*.antt", recursive=True)]
    files += [(p, "//") for p in glob.glob("crates/**/*.rt", recursive=True)]
    files += [(p, "#") for p in glob.glob("crates/**/*.edit", recursive=True) + glob.glob("edits/**/*.edit", recursive=True)]
    files += [(p, None) for p in glob.glob("docs/**/*.md", recursive=True) + glob.glob("*.md") + glob.glob("rust/*.md")]
    for path, mark in sorted(files):
        text = open(path, encoding="utf-8").read()
        if mark is None:
            after = in_ticks(text)
        else:
            after = "\n".join(line_of(line, mark) for line in text.split("\n"))
        if after != text:
            open(path, "w", encoding="utf-8").write(after)
            counts += 1
    print(f"port_names: {len(table)} names, {counts} files changed")


main()
