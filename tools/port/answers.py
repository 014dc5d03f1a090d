#!/usr/bin/env python3
"""Turns a function's Proof.antt, which gave each goal its proof in order, to Invariants.antt and Answers.antt.

usage: python3 tools/port/answers.py NAMES.json CRATE [FUNCTION..]

NAMES.json is what `rt check --generated DIR --old-names` writes for the crate. A goal that the old proof left to `search rules` gets no
answer: the check finds it. What cannot be turned is printed; the Proof.antt stays there. A turned one moves to target/old-proofs, or to the folder that the variable OLD names.
"""
import json
import os
import re
import shutil
import sys

NAME = r"[^\s(){}\[\];,.]+"
norm = lambda s: s.replace("_", "-").replace("·", "-").lower()
OLD = os.environ.get("OLD", os.path.join("target", "old-proofs"))


def declarations(text):
    """The top-level declarations of a proof file: head lines (comments, imports), then (name, all its lines)."""
    head, decls = [], []
    pending = []
    for line in text.split("\n"):
        m = re.match(rf"^(?:(?:abbrev|pub|unfoldable)\s+)*({NAME})\s*:(?:\s|$)", line)
        if m and not line.startswith("use "):
            decls.append((m.group(1), pending + [line]))
            pending = []
        elif not decls:
            if line.startswith("--") or line.startswith("use ") or not line.strip():
                head.append(line)
            else:
                decls.append(("", [line]))
        elif line.startswith("--"):
            pending.append(line)
        else:
            if pending:
                decls[-1][1].extend(pending)
                pending = []
            decls[-1][1].append(line)
    return head, [(n, "\n".join(ls).rstrip()) for n, ls in decls]


def split_args(text):
    """The arguments of an application, at depth 0."""
    out, depth, cur = [], 0, ""
    for ch in text:
        if ch in "([{":
            depth += 1
        if ch in ")]}":
            depth -= 1
        if ch.isspace() and depth == 0:
            if cur:
                out.append(cur)
            cur = ""
        else:
            cur += ch
    if cur:
        out.append(cur)
    return out


def tuple_index(fields):
    """How far a path as 1.1.0 goes into a tuple, and how many of its fields that takes."""
    n = 0
    while n < len(fields) and fields[n] == "1":
        n += 1
    return (n, n + 1) if n < len(fields) and fields[n] == "0" else (n, n)


class Names:
    def __init__(self, d):
        self.d = d
        self.places = {p[0]: (i, p[1], p[2], p[3]) for i, p in enumerate(d["places"])}

    def step(self, place, back, fields):
        """The new path of c.before^back.fields: by its place, else by its name among the places before."""
        if not fields or fields[0] in ("args", "requires", "ranges", "well-formed", "type_inv", "type-inv"):
            return ["c"] + fields
        got = self.at(place, back, fields)
        p, n = place, 0
        found = []
        while got is None and p in self.places:
            it = self.at(p, 0, fields)
            if it and it not in found:
                found.append(it)
            p = self.places[p][1]
        return got or (found[0] if len(found) == 1 else None)

    def at(self, place, back, fields):
        p = place
        for _ in range(back):
            if p not in self.places or self.places[p][1] is None:
                return None
            p = self.places[p][1]
        if not fields:
            return ["c"]
        first, rest = fields[0], fields[1:]
        if first in ("args", "requires", "ranges", "well-formed", "type_inv", "type-inv"):
            return ["c", first] + rest
        if p not in self.places:
            return None
        i, _, (old, new), fn = self.places[p]
        arm = self.d["arms"][i] if i < len(self.d["arms"]) else None
        if arm:
            best = None
            for newfield, oldstep, path in arm[2]:
                if norm(oldstep) == norm(first) and rest[: len(path)] == path and path:
                    if best is None or len(path) > len(best[1]):
                        best = (newfield, path)
            if best:
                return ["c", arm[0], best[0]] + rest[len(best[1]):]
        if norm(old) != norm(first):
            return None
        if rest and rest[0] in ("new", "auto") and fn and fn in self.d["params"] and len(rest) > 1 and rest[1] in ("0", "1"):
            n, used = tuple_index(rest[1:])
            names = self.d["params"][fn]
            if n < len(names):
                rest = [rest[0], names[n]] + rest[1 + used:]
        return ["c", new] + rest


def turn_paths(body, names, place, bad, var="c"):
    """Turns paths of `var`, of a `let` that stands for a place before, and of a `let` that stands for a call."""
    aliases = re.findall(rf"let (\S+) = {re.escape(var)}((?:\.before)+) in", body)
    body = turn_of(body, names, place, bad, var)
    for a, back in aliases:
        p = place
        for _ in range(back.count(".before")):
            p = names.places[p][1] if p in names.places and names.places[p][1] else p
        body = turn_of(body, names, p, bad, a)
    for a, at in re.findall(r"let (\S+) = \S+?\.([^\s.]+) in", body):
        fn = [q[3] for q in names.d["places"] if q[2][1] == at and q[3]]
        ps = names.d["params"].get(fn[0]) if fn else None
        if ps:

            def one(m):
                n, used = tuple_index(m.group(2).split(".")[1:])
                return f"{a}.{m.group(1)}.{ps[n]}" if n < len(ps) else m.group()

            body = re.sub(rf"(?<![^\s(){{}}\[\];,]){re.escape(a)}\.(new|auto)((?:\.1)*\.0)", one, body)
    return body


def turn_of(body, names, place, bad, var):
    def one(m):
        parts = m.group().split(".")[1:]
        back = 0
        while back < len(parts) and parts[back] == "before":
            back += 1
        got = names.step(place, back, parts[back:])
        if got is None:
            bad.append(f"{m.group()} at {place}")
            return m.group()
        got[0] = var
        return ".".join(got)

    return re.sub(rf"(?<![^\s(){{}}\[\];,]){var}(?:\.(?:before|[^\s(){{}}\[\];,.]+))+", one, body)


def turn(dirname, module, d, crate):
    path = os.path.join(dirname, "Proof.antt")
    text = open(path, encoding="utf-8").read()
    head, decls = declarations(text)
    names = Names(d)
    cycle = os.path.basename(dirname).startswith("+")
    bad = []
    needs = d["needs"]
    by = {}
    for i, (o, n) in enumerate(needs):
        by.setdefault(norm(o), i)
        by.setdefault(norm(n), i)
    answers, invariants, helpers = {}, [], []
    spec = [t for n, t in decls if n.endswith("spec")]
    specargs = None
    if spec:
        m = re.search(r"tie\.spec\s*\n?(.*)\)\s*$", spec[0], re.S) or re.search(r"\.spec\s*(.*)$", spec[0], re.S)
        if m:
            specargs = split_args(m.group(1))
    renamed = {}
    for n, t in decls:
        if n.endswith("spec"):
            continue
        m = re.search(r":\s*(?:\(t : ℕ\) → )?(?:tie|[^\s.]*lts)\.Need-(\S+)", t.split("\n")[0] if "Need-" in t.split("\n")[0] else t)
        if m:
            key = norm(m.group(1))
            if key not in by:
                alt = re.sub(r"^(overflow|bounds|slice-bounds)-", "", key)
                if alt in by:
                    key = alt
            if key not in by and specargs is not None:
                # by its place among the arguments
                where = [i for i, a in enumerate(specargs) if a == n or a == f"({n} t)"]
                skip = len(specargs) - len(needs)
                if len(where) == 1 and skip >= 0 and where[0] - skip >= 0:
                    key = norm(needs[where[0] - skip][0])
            if key not in by:
                bad.append(f"no goal {m.group(1)}")
                continue
            i = by[key]
            answers[i] = (n, t)
            renamed[n] = needs[i][1]
        elif re.search(r"(tie|lts)\.invariant-loop|(tie|lts)\.decreases-loop", t):
            invariants.append((n, t))
        elif cycle and re.search(r"Measures|In \d|lts\.Claims", t):
            helpers.append((n, t, True))
        else:
            helpers.append((n, t, False))
    out_answers, out_inv = [], []
    loops = d["loops"]
    for n, t in invariants:
        m = re.search(r"(invariant|decreases)-(loop\S*)", t)
        kind, old = m.group(1), m.group(2)
        found = [l for l in loops if norm(l[0][0]) == norm(old)]
        if not found:
            bad.append(f"no loop {old}")
            continue
        new = found[0][0][1]
        lines = t.split("\n")
        com = [l for l in lines if l.startswith("--")]
        eq = "\n".join(l for l in lines if not l.startswith("--") and not re.match(rf"^(?:abbrev\s+)?(?:pub\s+)?{re.escape(n)}\s*:", l) and not l.startswith("unfolding"))
        unf = [l for l in lines if l.startswith("unfolding")]
        m = re.match(rf"^{re.escape(n)}((?:\s+[^\s=]+)*)\s*=\s*(.*)$", eq, re.S)
        if not m:
            bad.append(f"invariant {n} not read")
            continue
        params, body = m.group(1).split(), m.group(2)
        changes = {}
        at = loops.index(found[0])
        live, moves = found[0][1], d["changed"][at]
        order = [("l.initial." if c else "l.") + v for v, c in zip(live, moves)] + ["l." + v for v, c in zip(live, moves) if c]
        if len(order) != len(params):
            bad.append(f"invariant {n}: {params} for {order}")
            order = ["l." + p for p in params]
        changes = dict(zip(params, order))
        body = re.sub(rf"(?<![^\s(){{}}\[\];,])({'|'.join(re.escape(p) for p in sorted(params, key=len, reverse=True))})(?=[\s(){{}}\[\];,.]|$)", lambda k: changes[k.group(1)], body)
        out_inv.append("\n".join(com + [f"abbrev pub {kind}-{new} : goal.{kind}-{new}"] + unf + [f"{kind}-{new} l = {body}"]))
    own = set(renamed) | {n for n, t in invariants}
    for i, (o, nn) in enumerate(needs):
        if i not in answers:
            if specargs is not None:
                skip = len(specargs) - len(needs)
                if skip >= 0:
                    a = specargs[skip + i]
                    if "search rules" not in a and not re.match(r"^\(?[^\s()]+( t)?\)?$", a):
                        m = re.match(r"^\(λ ((?:\S+ )*\S+)\. (.*)\)$", a, re.S)
                        if m:
                            place = d["asked_at"][i][0]
                            body = turn_paths(m.group(2), names, place, bad)
                            out_answers.append((i, f"pub {nn} : goal.{nn}\n{nn} c = {body}"))
                        else:
                            bad.append(f"argument {i} for {nn}: {a}")
            continue
        n, t = answers[i]
        place = d["asked_at"][i][0]
        lines = t.split("\n")
        com = [l for l in lines if l.startswith("--")]
        unf = [l for l in lines if l.startswith("unfolding")]
        rest = [l for l in lines if not l.startswith("--") and not l.startswith("unfolding")]
        k = 0
        while k < len(rest) and not re.match(rf"^{re.escape(n)}(\s|$)(?!\s*:)", rest[k]):
            k += 1
        eq = "\n".join(rest[k:])
        m = re.match(rf"^{re.escape(n)}((?:\s+[^\s=]+)*)\s*=\s*(.*)$", eq, re.S)
        if not m:
            bad.append(f"answer {n} not read")
            continue
        params, body = m.group(1).split(), m.group(2)
        params = [p for p in params if p != "κs"]
        var = params[-1] if params else "c"
        body = turn_paths(body, names, place, bad, var)
        if cycle:
            # the measure's fact was the first part of the requires; tactics find it by themselves now
            body = re.sub(rf"\n?[ ]*let \S+ = {re.escape(var)}\.requires\.0 in", "", body)
            heads = "|".join(re.escape(a) for a in [var, *re.findall(rf"let (\S+) = {re.escape(var)} in", body)])
            body = re.sub(rf"(?<![^\s(){{}}\[\];,])({heads})\.requires\.1(?![0-9])", r"\1.requires", body)
        left = re.search(rf"(?<![^\s(){{}}\[\];,]){re.escape(var)}\.before", body)
        if left:
            bad.append(f"{nn}: a path by before is left")
        if body.strip() == "search rules" and not unf:
            continue
        out_answers.append((i, "\n".join(com + [f"pub {nn} : goal.{nn}"] + unf + [f"{nn} {' '.join(params)} = {body}"])))
    for n, t, k in helpers:
        m = re.search(r"^μ-\S+ κs a = (.*)$", t, re.M) if k and "Measures" in t else None
        if m:
            fn = [f for f in d["params"] if norm(f.split("::")[-1]) == n[2:]]
            ps = d["params"][fn[0]] if len(fn) == 1 else []

            def arg(a):
                parts = a.group().split(".")[1:]
                i, used = tuple_index(parts)
                if i >= len(ps):
                    bad.append(f"measure of {n}: argument {i} of {ps}")
                    return a.group()
                return "l." + ".".join([ps[i]] + parts[used:])

            f = fn[0].split("::")[-1] if fn else n[2:].replace("-", "_")
            body = re.sub(r"(?<![^\s(){}])a(?:\.[^\s(){}\[\];,.]+)+", arg, m.group(1))
            out_inv.append(f"abbrev pub decreases-{f} : goal.decreases-{f}\ndecreases-{f} l = {body}")
    keep = [l for l in head if not re.search(r"\.(Tie|Statement|Lts[^\s.{]*)(\s|\.|$)|proofs\.\+\S+\.\{statement\}", l)]
    comment = [l for l in keep if l.startswith("--")]
    uses = [l for l in keep if l.startswith("use ")]
    rel = module
    uses = [u for u in uses if not re.search(r"borrow\.Fn\.|\.(Reads|Kinds) as ", u) or any(re.search(rf"(?<![^\s(]){re.escape(u.split(' as ')[-1])}\.", x) for x in [a for i, a in out_answers] + [b for a, b, k in helpers if not k])]
    result = {}
    if out_inv:
        result["Invariants.antt"] = "\n".join(comment + uses + [f"use Rattle.{crate}.proofs.{rel}.Given as goal", ""]) + "\n" + "\n\n".join(out_inv) + "\n"
    plain = [t for n, t, k in helpers if not k and n]
    if out_answers or plain:
        result["Answers.antt"] = "\n".join(comment + uses + [f"use Rattle.{crate}.proofs.{rel}.Goals as goal", ""]) + "\n" + "\n\n".join(plain + [t for i, t in sorted(out_answers)]) + "\n"
    cyc = [t for n, t, k in helpers if k]
    return result, bad, cyc


def main():
    data = json.load(open(sys.argv[1]))
    crate = sys.argv[2]
    only = sys.argv[3:]
    root = f"crates/{crate}/proofs"
    for folder, dirs, files in sorted(os.walk(root)):
        if "Proof.antt" not in files:
            continue
        module = os.path.relpath(folder, root).replace("/", ".")
        if only and module not in only:
            continue
        keys = [k for k in data if k.startswith(f"Rattle-{crate}-proofs.{module}.")]
        if len(keys) != 1:
            print(f"{module}: {len(keys)} names: {keys}")
            continue
        try:
            result, bad, cyc = turn(folder, module, data[keys[0]], crate)
        except Exception as e:
            print(f"{module}: {type(e).__name__} {e}")
            continue
        to = os.path.join(OLD, crate, module)
        os.makedirs(to, exist_ok=True)
        shutil.move(os.path.join(folder, "Proof.antt"), os.path.join(to, "Proof.antt"))
        for n, t in result.items():
            with open(os.path.join(folder, n), "w", encoding="utf-8") as f:
                f.write(t)
        if not result:
            os.rmdir(folder)
        for b in bad:
            print(f"{module}: {b}")
        if cyc and "Invariants.antt" not in result:
            print(f"{module}: cycle; by hand:\n  " + "\n  ".join(x.replace("\n", "\n  ") for x in cyc if "Measures" in x))


if __name__ == "__main__":
    main()
