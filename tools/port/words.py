#!/usr/bin/env python3
"""Takes the choice `if .. then .. else ..` of the library in place of meaning's own of that name, which the gate refuses.

usage: python3 tools/port/words.py    at the top of the repository, once, after names.py

Both are the same: what a choice gives is a value everywhere. Meaning's own definition goes.
"""
import os
import re

OWN = "if◌then◌else◌"
DEFINED = """infix 5 if◌then◌else◌
abbrev pub if◌then◌else◌ {ℓ} : {X : Type ℓ} → Bool → X → X → X
if true then x else y = x
if false then x else y = y

"""


def turn(text):
    def use(m):
        items = [i.strip() for i in m.group(1).split(",")]
        if OWN not in items:
            return m.group()
        items.remove(OWN)
        line = f"use Rattle.meaning.specs.Basics.{{{', '.join(items)}}}\n" if items else ""
        return line + "use Rattle.std.specs.Prelude.{" + OWN + "}\n"

    if DEFINED in text:
        return text.replace(DEFINED, "").replace("List, [], ◌∷◌, ◌++◌}", "List, [], ◌∷◌, ◌++◌, if◌then◌else◌}", 1)
    return re.sub(r"^use Rattle\.meaning\.specs\.Basics\.\{([^}]*)\}\n", use, text, flags=re.M)


def main():
    for folder, dirs, names in os.walk("crates"):
        dirs[:] = sorted(d for d in dirs if d != "out")
        for n in sorted(names):
            path = os.path.join(folder, n)
            if n.endswith(".antt"):
                with open(path, encoding="utf-8") as f:
                    old = f.read()
                new = turn(old)
                if new != old:
                    with open(path, "w", encoding="utf-8") as f:
                        f.write(new)


main()
