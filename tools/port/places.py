#!/usr/bin/env python3
"""Lists the places of docs/DESIGN-PASS.md in the sources below a folder of crates, point by point: places.py [CRATES] [--list]

It goes by text, so a line is a place to look at, not a verdict: the page says of each what became of it.
"""
import collections
import glob
import os
import re
import sys

ROOT = next((a for a in sys.argv[1:] if not a.startswith("-")), "crates")
LISTED = "--list" in sys.argv
FILES = sorted(f for f in glob.glob(f"{ROOT}/*/src/**/*.rt", recursive=True))
TEXT = {f: open(f, encoding="utf-8").read() for f in FILES}


def name(file):
    return os.path.relpath(file, ROOT)


def line(text, at):
    return text.count("\n", 0, at) + 1


def braces(text, at):
    """The end of the block whose `{` stands at `at`."""
    depth = 0
    for i in range(at, len(text)):
        depth += {"{": 1, "}": -1}.get(text[i], 0)
        if depth == 0:
            return i + 1
    return len(text)


def functions():
    """(file, line, name, parameters, result, clauses, body) of each function."""
    for file, text in TEXT.items():
        for it in re.finditer(r"^( *)(?:pub(?:\([a-z]+\))? )?(?:const )?(?:extern \"C\" )?fn (\w+)(?:<[^(]*>)?\(", text, re.M):
            end, depth = it.end(), 1
            while depth:
                depth += {"(": 1, ")": -1}.get(text[end], 0)
                end += 1
            begin = re.compile(rf"(^{it[1]}{{| {{)\n", re.M).search(text, end - 1)
            if not begin:
                continue
            head = text[end:begin.start()]
            at = text.index("{", begin.start())
            result = re.match(r"\s*->\s*([^\n{]+?)(?=\s*(?:\n|$|where|requires|ensures))", head)
            yield (file, line(text, it.start()), it[2], text[it.end():end - 1], result[1] if result else "", head, text[at:braces(text, at)])


ALL = list(functions())


def enums():
    for file, text in TEXT.items():
        for it in re.finditer(r"^(?:pub )?enum (\w+)(?:<[^>]*>)? \{", text, re.M):
            body = text[it.end():braces(text, it.end() - 1) - 1]
            variants = re.findall(r"^    (\w+)(?: ?[({,])", body, re.M)
            full = re.findall(r"^    (\w+) ?[({]", body, re.M)
            yield file, line(text, it.start()), it[1], variants, full


def shaped():
    """Enums with a value or two and one way out: the shape of Option or Result."""
    out = {"Refused", "Refuses", "Stopped", "Wrong", "Not", "None", "Nothing", "End", "No", "Done", "Right", "Broken", "Yes"}
    for file, at, it, variants, full in enums():
        if len(variants) <= 4 and set(variants) & out and (full or len(variants) == 2):
            yield f"{name(file)}:{at} enum {it} {{ {', '.join(variants)} }}"


def flags():
    for file, text in TEXT.items():
        for it in re.finditer(r"^(?:pub )?struct (\w+)[^\n]* \{\n((?:    .*\n)+)\}", text, re.M):
            for field in re.findall(r"^    (?:pub )?(\w+): bool,", it[2], re.M):
                yield f"{name(file)}:{line(text, it.start())} struct {it[1]}, flag {field}"


def told():
    """Functions that answer by a bool whether something could be written."""
    for file, at, it, params, result, _, _ in ALL:
        if result == "bool" and "HostRuntime" in params or result == "bool" and "io::Result" in params:
            yield f"{name(file)}:{at} {it}"


def numbers():
    """Numbers that stand for none or for a kind."""
    for file, text in TEXT.items():
        for it in re.finditer(r"^(?:pub )?const (NO_\w+)|^    pub (kind): u8", text, re.M):
            yield f"{name(file)}:{line(text, it.start())} {it[1] or it[2]}"
    for file, at, it, _, result, _, body in ALL:
        if re.search(r"\n    (?:0|16|StateNo\(0\))\n\}|_ => 16|Nothing => (?:0|StateNo\(0\))|\bnone\b => 0", body) and re.match(r"u\d+|usize|StateNo", result or "") and "while" not in body:
            yield f"{name(file)}:{at} {it} -> {result}"


def shape(body):
    """A body with its own names, numbers and texts taken out."""
    seen = {}
    tokens = re.findall(r'b?"(?:[^"\\]|\\.)*"|\w+|[^\s\w]', re.sub(r"//.*", "", body))
    keep = {"if", "else", "while", "for", "in", "match", "return", "let", "mut", "as", "true", "false"}
    return " ".join(t if t in keep or not re.match(r'\w|b?"', t) else seen.setdefault(t, f"v{len(seen)}") for t in tokens)


def twins():
    groups = collections.defaultdict(list)
    for file, at, it, params, _, _, body in ALL:
        s = shape(body)
        if len(s.split()) >= 14:
            groups[s].append(f"{name(file)}:{at} {it}")
    for s, those in groups.items():
        if len(those) > 1:
            yield "; ".join(those)


def loops():
    for file, text in TEXT.items():
        for it in re.finditer(r"^ *while [^\n]*", text, re.M):
            yield f"{name(file)}:{line(text, it.start())} {it[0].strip()}"


def counting():
    """Functions that call themselves with a number one more or one less."""
    for file, at, it, _, _, _, body in ALL:
        if re.search(rf"\b{it}\([^;]*?\b\w+ [-+] 1\b", body) and re.search(r"\b(?:i|count|left|results|waiting)\b", body):
            yield f"{name(file)}:{at} {it}"


def conversions():
    for file, at, it, params, result, _, body in ALL:
        if re.fullmatch(r"\{\s*\w+ as \w+\s*\}", body) or re.search(r"match self \{\n( +\w+::\w+(\(_?\w*\))? => (\d+|\w+\.number\(\)),\n)+", body):
            yield f"{name(file)}:{at} {it}"


def tests():
    for file, text in TEXT.items():
        for it in re.finditer(r"\bboth\(|check::same\(|fn (?:begins|same_at_start|holds|all_zero)\b", text):
            yield f"{name(file)}:{line(text, it.start())} {it[0]}"


def printing():
    """Functions that print words and numbers one after the other."""
    for file, at, it, _, _, _, body in ALL:
        if re.search(r"\b(?:saying|print)::\w+\(|\bsay(?:_number)?\(rt|rt\.(?:write_all|print)\(|written\(|told\(", body):
            yield f"{name(file)}:{at} {it}"


def together():
    """Pairs of parameters of which one hardly stands without the other, in three signatures or more."""
    pairs = collections.defaultdict(list)
    alone = collections.Counter()
    for file, at, it, params, _, _, _ in ALL:
        those = [re.sub(r"\s+", " ", p).strip() for p in re.split(r",(?![^<\[]*[>\]])", params) if ":" in p]
        alone.update(those)
        for i, a in enumerate(those):
            for b in those[i + 1:]:
                if "rt:" not in a:
                    pairs[a, b].append(f"{name(file)}:{at}")
    for (a, b), those in sorted(pairs.items(), key=lambda x: -len(x[1])):
        if len(those) >= 3 and 10 * len(those) >= 9 * min(alone[a], alone[b]):
            yield f"{len(those)} signatures: {a}, {b}"


def facts():
    """Clauses, or parts of a clause, that stand in three contracts or more."""
    many = collections.Counter()
    for _, _, _, _, _, head, _ in ALL:
        for clause in re.findall(r"(?:requires|ensures)(?: \w+)? \{ (.*) \}\n", head + "\n"):
            for part in re.split(r" × ", clause):
                many[part.strip(" ()")] += 1
    for part, n in many.most_common():
        if n >= 3:
            yield f"{n} contracts: {part}"


def buffers():
    """Structs with an array and a number beside it."""
    for file, text in TEXT.items():
        for it in re.finditer(r"^(?:pub )?struct (\w+)[^\n]* \{\n((?:    .*\n)+?)\}", text, re.M):
            if re.search(r": \[", it[2]) and re.search(r"\b(?:count|height|len|length|end): u", it[2]):
                yield f"{name(file)}:{line(text, it.start())} struct {it[1]}"
    for file, at, it, params, _, _, _ in ALL:
        if re.search(r": &?(?:mut )?\[", params) and re.search(r"\b(?:height|len|length): usize", params):
            yield f"{name(file)}:{at} {it}"


def switches():
    """Functions that only choose a step by a case and forward to it."""
    groups = collections.defaultdict(list)
    for file, at, it, _, _, _, body in ALL:
        if re.fullmatch(r"\{\s*match \w[^\n]*\{\n(?: {8}.*\n)+ {4}\}\s*\}", body) and len(re.findall(r"=>", body)) == 2:
            groups[re.sub(r"\w+\(.*", "", re.findall(r"match ([^\n{]*)", body)[0])].append(f"{name(file)}:{at} {it}")
    for key, those in groups.items():
        if len(those) > 1:
            yield f"match {key.strip()}..: " + "; ".join(those)


def proofs():
    for it in sorted(glob.glob(f"{ROOT}/*")):
        own = [f for f in glob.glob(f"{it}/proofs/**/*.antt", recursive=True) if os.path.dirname(f) != f"{it}/proofs"]
        lemmas = glob.glob(f"{it}/proofs/*.antt")
        if own or lemmas:
            count = lambda those: sum(sum(1 for _ in open(f, encoding="utf-8")) for f in those)
            yield f"{os.path.basename(it)}: {len(own)} files of answers and invariants, {count(own)} lines; lemma files {count(lemmas)} lines"


POINTS = [
    ("1 enums of the shape of Option or Result", shaped),
    ("1 flags in a struct", flags),
    ("1 whether it was written, as a bool", told),
    ("1 numbers for none or a kind", numbers),
    ("2 functions alike but for names, numbers and texts", twins),
    ("3 while loops", loops),
    ("3 recursions that count a place by hand", counting),
    ("4 conversions by hand", conversions),
    ("4 tests and equality by hand", tests),
    ("4 printing by hand", printing),
    ("5 parameters that travel together", together),
    ("5 facts in three contracts or more", facts),
    ("6 buffers with a length beside them", buffers),
    ("7 two-way switches that stand more than once", switches),
    ("8 crates with proof files", proofs),
]

for title, places in POINTS:
    those = list(places())
    print(f"{len(those):4} {title}")
    if LISTED:
        for it in those:
            print(f"       {it}")
