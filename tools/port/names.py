#!/usr/bin/env python3
"""Gives the repository's definitions and lemmas today's spelling: snake case in place of camel case and of dashes.

usage: python3 tools/port/names.py    at the top of the repository, once, right after the kit's port.py

A name is turned if a file of specs/ or a file of lemmas (proofs/, but not a function's own proof) defines it. Names of Rattle code, of
functions' goals and of the library stay. A lemma that would get the name of a definition gets _lem behind it. The pages turn in backticks.
"""
import os
import re
import sys

ROOT = sys.argv[1] if len(sys.argv) > 1 else "."
TOKEN = re.compile(r"[^\s(){}\[\];,.«»\"`]+")
DEFINED = re.compile(r"^(\s*)(?:(?:abbrev|unfoldable|pub|data|record|axiom)\s+)*([^\s:(){}λ]+)(?:\s*\{ℓ\})?\s*:(?:\s|$)")
RECORD = re.compile(r"^(\s*)(?:pub\s+)?record\s.*where\s*$")
OWN_PROOF = ("Answers.antt", "Invariants.antt", "Proof.antt")
# Names of the library, where some file has a lemma of its own of that name.
STAY = {"length-map", "length-reverse"}
# Names that would fall together with a field's or another definition's.
OTHER = {"stateLength": "state_len", "workLength": "work_len", "lengths-right": "lengths_hold", "start_cell": "cell_of_start"}
# Names that port.py itself turned, which the pages still have.
PAGES = """
afterTurn andThen byteAt cellAt cellsOf countOf entryAt entryOf fieldAt firstOf headOf headOr isHeld isJust isPlain joinOf keyOf leftAt leftOf
lengthOf madeOf movedTo numberAt orElse placeIn placeOf planOf readingOf runOf seenAt shiftBy shiftOf shortOf sizeOf slotAt soFar stackOf startOf
stateOf tableOf topOf treeOf u32At valueOf viewOf walkOf
""".split()


def files(*ends):
    for folder, dirs, names in os.walk(os.path.join(ROOT, "crates")):
        dirs[:] = sorted(d for d in dirs if d != "out")
        for n in sorted(names):
            if n.endswith(ends):
                yield os.path.join(folder, n)


def snake(name):
    name = name.replace("-", "_")
    return re.sub(r"(?<=[a-z0-9_'])_?([A-Z])", lambda m: ("" if m.string[m.start() - 1] == "_" else "_") + m.group(1).lower(), name)


def defined():
    """All names that specs/ and the files of lemmas define, and which of them are fields of records."""
    names, fields = set(), set()
    for path in files(".antt"):
        if os.path.basename(path) in OWN_PROOF and f"{os.sep}proofs{os.sep}" in path:
            continue
        inside = None
        with open(path, encoding="utf-8") as f:
            for line in f:
                m = RECORD.match(line)
                if m:
                    inside = len(m.group(1))
                    continue
                m = DEFINED.match(line)
                if line.strip() and inside is not None and len(line) - len(line.lstrip()) <= inside:
                    inside = None
                if m and re.match(r"[a-zμ]", m.group(2)):
                    names.add(m.group(2))
                    if inside is not None:
                        fields.add(m.group(2))
    return names, fields


def mapping():
    names, fields = defined()
    turned = {n: snake(n) for n in names if snake(n) != n and n not in STAY} | OTHER
    taken = set(names) | {b for a, b in turned.items() if "-" not in a}
    for a in sorted(turned):
        if "-" in a and turned[a] in taken and a not in fields and a not in OTHER:
            turned[a] += "_lem"
    return turned, {a: turned[a] for a in fields if a in turned}


def turn(text, names, fields):
    def one(m):
        return (fields if m.start() and text[m.start() - 1] == "." else names).get(m.group(), m.group())

    return TOKEN.sub(one, text)


def code(text, names, fields):
    """Rattle code: what stands between quotes stays."""
    parts = re.split(r'("(?:[^"\\\n]|\\.)*")', text)
    return "".join(p if i % 2 else turn(p, names, fields) for i, p in enumerate(parts))


def page(text, names):
    names = names | {n: snake(n) for n in PAGES}
    return re.sub(r"(?<!`)`[^`\n]+`(?!`)", lambda m: turn(m.group(), names, names), text)


def main():
    names, fields = mapping()
    for path in [*files(".antt", ".rt")]:
        with open(path, encoding="utf-8") as f:
            old = f.read()
        new = turn(old, names, fields) if path.endswith(".antt") else code(old, names, fields)
        if new != old:
            with open(path, "w", encoding="utf-8") as f:
                f.write(new)
    for folder, dirs, found in os.walk(ROOT):
        dirs[:] = sorted(d for d in dirs if d not in (".git", "out", "target"))
        for n in sorted(found):
            if n.endswith(".md") and n != "PORT.md":
                path = os.path.join(folder, n)
                with open(path, encoding="utf-8") as f:
                    old = f.read()
                if page(old, names) != old:
                    with open(path, "w", encoding="utf-8") as f:
                        f.write(page(old, names))
    print(f"{len(names)} names turned, of which {len(fields)} are fields")
    for a, b in sorted(names.items()):
        if b.endswith("_lem"):
            print(f"{a}: {b}")


if __name__ == "__main__":
    main()
