#!/usr/bin/env python3
"""Turns proofs/F/Proof.antt, which walks the code by hand, into Invariants.antt and Answers.antt.

usage: tools/turn_proofs.py [--keep-search] CRATE [F..]    at the top of the repository

It takes each goal's and each step's new name from names.json, which `rt check --generated DIR --old-names` writes for the crate, into
turn-proofs/CRATE of the system's folder for such files where it is not there yet. Answers that the check finds alone (search rules, omega arith) are left out.
What it can't turn it leaves as it stands, for the check to name; the old file goes.
"""
import json
import os
import re
import subprocess
import sys
import tempfile

NAME = r"[A-Za-z_À-￿][\w'₀-₉-]*"
BLOCK = re.compile(r"^(?=[^\s)\]}])", re.M)


def norm(name):
    name = name.replace("Need-", "").replace("_", "-").replace("overflow-", "").lower()
    return re.sub(r"^slice-bounds-", "part-", name)


def names_of(crate):
    to = os.path.join(tempfile.gettempdir(), "turn-proofs", crate)
    if not os.path.exists(f"{to}/names.json"):
        r = subprocess.run(["rt", "check", "--generated", to, "--old-names"], cwd=f"crates/{crate}", capture_output=True, text=True)
        if not os.path.exists(f"{to}/names.json"):
            sys.exit(r.stdout[-3000:] + r.stderr[-2000:])
    with open(f"{to}/names.json") as f:
        return json.load(f)


def blocks(text):
    """The file's comment, its imports, and its other top-level blocks."""
    head, uses, rest = [], [], []
    for b in BLOCK.split(text):
        if not b.strip():
            continue
        if b.startswith("use "):
            uses.append(b.strip())
        elif b.startswith("--") and not rest and not uses:
            head.append(b.rstrip("\n"))
        else:
            rest.append(b)
    return head, uses, rest


def roots(body):
    """Variables that are c itself: c, and each let-bound alias of it."""
    found = {"c"}
    for _ in range(3):
        for m in re.finditer(r"\blet\s+(" + NAME + r")\s*=\s*(" + NAME + r")((?:\.before)*)\s*in\b", body):
            if m.group(2) in found:
                found.add(m.group(1))
    return found


def by_name(parts, callee):
    """What a call leaves in its k-th parameter, .new.1 .. .1.0, by the parameter's name."""
    m = callee and re.match(r"new((?:\.1)*)\.0(?=\.|$)", ".".join(parts))
    k = m and len(m.group(1)) // 2
    if m and k < len(callee):
        return ["new", callee[k], *parts[k + 2 :]]
    return ["type_inv" if p == "type-inv" else p for p in parts]


def turn_paths(body, steps, arms, callees):
    own = roots(body)
    held = {}
    for m in re.finditer(r"\blet\s+(" + NAME + r")\s*=\s*(" + NAME + r")(?:\.before)*\.([\w-]+)\s+in\b", body):
        if m.group(2) in own and norm(m.group(3)) in callees:
            held[m.group(1)] = callees[norm(m.group(3))]

    def path(m):
        root, tail = m.group(1), m.group(2)
        if root in held:
            return ".".join([root, *by_name(tail[1:].split("."), held[root])])
        if root not in own:
            return m.group(0)
        parts = [p for p in tail.split(".") if p and p != "before"]
        if parts and norm(parts[0]) not in steps and norm(parts[0])[:-4] in steps and parts[0].endswith("_lem"):
            parts[0] = parts[0][:-4]
        for n in range(8, 0, -1):
            arm = parts and arms.get((norm(parts[0]), *parts[1 : n + 1]))
            if arm and len(parts) > n:
                return ".".join([root, *arm, *parts[n + 1 :]])
        if parts and norm(parts[0]) in steps:
            callee = callees.get(norm(parts[0]))
            parts = [steps[norm(parts[0])], *by_name(parts[1:], callee)]
        return ".".join([root, *parts])

    body = re.sub(r"(?<![\w.'-])(" + NAME + r")((?:\.[\w'₀-₉-]+)+)", path, body)
    body = re.sub(r"\bnot-(?:true|false) _ (?=c\.)", "", body)
    for alias in own - {"c"}:
        body, n = re.subn(r"\blet\s+" + alias + r"\s*=\s*" + NAME + r"\s*in\b[ \t]*\n?[ \t]*", "", body)
        if n:
            body = re.sub(r"(?<![\w.'-])" + alias + r"(?=\.)", "c", body)
    return body


def turn(crate, f, data, keep_search):
    folder = f"crates/{crate}/proofs/{f}"
    key = f"Rattle-{crate}-proofs.{f.replace('/', '.')}.Lts"
    if f.startswith("+"):
        key += "-" + f[1:]
    if key not in data:
        print(f"{crate} {f}: no {key} in names.json")
        return
    d = data[key]
    goals = {norm(o): n for o, n in d["needs"]}
    steps, callees = {}, {}
    for p in d["places"]:
        if p[2] and p[2][0]:
            steps[norm(p[2][0])] = p[2][1]
            if p[3] in d["params"]:
                callees[norm(p[2][0])] = d["params"][p[3]]
    arms = {}
    for a in d["arms"]:
        for field, old, at in a[2] if a else []:
            if at:
                arms[(norm(old), *at)] = (a[0], field)
    for loop in d["loops"]:
        steps[norm(loop[0][0])] = loop[0][1]
    with open(f"{folder}/Proof.antt", encoding="utf-8") as it:
        head, uses, rest = blocks(it.read())
    module = f"Rattle.{crate}.proofs.{f.replace('/', '.')}"
    uses = [u for u in uses if not re.search(r"\.(Statement|Tie|Lts|Goals)\b", u)]
    invariants, answers, lemmas = [], [], []
    i = 0
    while i < len(rest):
        b = rest[i]
        m = re.match(r"(?:pub\s+)?(?:abbrev\s+)?(?:pub\s+)?(" + NAME + r")\s*:\s*(.*)", b)
        if b.startswith("--"):
            lemmas.append(b)
            i += 1
            continue
        name = m.group(1) if m else ""
        body = ""
        i += 1
        while i < len(rest) and (rest[i].startswith("unfolding ") or re.match(re.escape(name) + r"(?![\w'-])", rest[i])):
            body += rest[i]
            i += 1
        if name.endswith("_spec") or name.endswith("-spec"):
            continue
        t = re.match(r"tie\.([\w'-]+)", m.group(2)) if m else None
        if not t:
            lemmas.append(b + body)
            continue
        old = t.group(1)
        if re.match(r"(invariant|decreases)[_-]", old):
            kind, loop = re.match(r"(invariant|decreases)[_-](.*)", old).groups()
            names = next((l for l in d["loops"] if norm(l[0][0]) == norm(loop)), None)
            new = f"{kind}-{names[0][1] if names else loop}"
            e = re.match(re.escape(name) + r"((?:\s+[\w'₀-₉]+)*)\s*=\s*(.*)\Z", body, re.S)
            if not e:
                lemmas.append(b + body)
                continue
            term = e.group(2).rstrip()
            for v in sorted(e.group(1).split(), key=len, reverse=True):
                if v == "_":
                    continue
                to = f"l.initial.{v[:-1]}" if v.endswith("₀") else f"l.{v}"
                term = re.sub(r"(?<![\w.'-])" + re.escape(v) + r"(?![\w'₀-₉-])", to, term)
            invariants.append(f"abbrev pub {new} : goal.{new}\n{new} l = {term}\n")
            continue
        new = goals.get(norm(old))
        if not new and re.match("slice-aggregate|enum-known|enum-told|known-told", norm(old)):
            continue
        if not new:
            print(f"{crate} {f}: no goal for {old}")
            new = old
        unfolding = re.match(r"(unfolding .*\n(?:\s+.*\n)*)", body)
        body = body[unfolding.end():] if unfolding else body
        e = re.match(re.escape(name) + r"((?:\s+\S+)*?)\s*=\s*(.*)\Z", body, re.S)
        args, term = (e.group(1), e.group(2).rstrip()) if e else ("", body)
        args = re.sub(r"\s+κs\b", "", args)
        if new.startswith("shape_of-") or re.match(r"enum_(known|told)", new):
            continue
        if not keep_search and not unfolding and re.fullmatch(r"(search rules|omega arith|tt)", term.strip()):
            continue
        term = turn_paths(term, steps, arms, callees)
        answers.append(f"pub {new} : goal.{new}\n" + (unfolding.group(1) if unfolding else "") + f"{new}{args} = {term}\n")
    comment = "\n".join(head)
    os.makedirs(folder, exist_ok=True)
    if invariants:
        text = "\n".join(([comment] if comment else []) + uses + [f"use {module}.Given as goal", ""]) + "\n" + "\n".join(invariants)
        with open(f"{folder}/Invariants.antt", "w", encoding="utf-8") as it:
            it.write(text)
    if answers:
        first = [comment] if comment and not invariants else []
        text = "\n".join(first + uses + [f"use {module}.Goals as goal", ""]) + "\n" + "\n".join([*lemmas, *answers])
        with open(f"{folder}/Answers.antt", "w", encoding="utf-8") as it:
            it.write(text)
    os.remove(f"{folder}/Proof.antt")
    if not invariants and not answers:
        os.rmdir(folder) if not os.listdir(folder) else None


def main():
    words = [w for w in sys.argv[1:] if not w.startswith("--")]
    crate, only = words[0], words[1:]
    data = names_of(crate)
    base = f"crates/{crate}/proofs"
    for folder, _, files in sorted(os.walk(base)):
        f = os.path.relpath(folder, base)
        if "Proof.antt" in files and (not only or f in only):
            turn(crate, f, data, "--keep-search" in sys.argv)


if __name__ == "__main__":
    main()
