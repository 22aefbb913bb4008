#!/usr/bin/env python3
"""Brings the names of definitions and lemmas of this repository to today's spelling: words in snake case.

usage: tools/snake_names.py [--list]      at the top of the repository, right behind port.py and once

A name is turned where a file of specs/ or proofs/ here declares it, it is in lower camel case or has a dash, and no file takes
that spelling from a library. It is turned in .antt files, and in .rt files in clauses and ghost lines alone: functions, fields,
variants and strings of src/ keep their names. Where a definition and a lemma would have one name (atEnd, at-end), the definition
keeps it and the lemma gets _lem. --list prints these and turns nothing.
"""
import collections
import os
import re
import sys

TOKEN = re.compile(r"[A-Za-z_][A-Za-z0-9_]*(?:-[A-Za-z0-9_]+)*'*")
SIGNATURE = re.compile(r"^\s*(?:(?:pub|abbrev|unfoldable)\s+)*([^\s:(){}\[\],.]+)((?:\s+[^\s:(){}\[\],.]+)*)\s*:\s")
PARAMETER = re.compile(r"[({]([^:(){}]+?)\s*:\s")
BOUND = re.compile(r"λ\s+([^.]+?)\.|\blet\s+([^\s:=]+)\s*[:=]")
IMPORT = re.compile(r"^\s*(?:pub\s+)?(?:ghost\s+)?use\s+([^;]+)")
CLAUSE = re.compile(r"^(\s*)(requires|ensures|invariant|decreases)\b")


def snake(name):
    words = re.sub(r"(?<=[a-z0-9])(?=[A-Z])", "_", name.replace("-", "_"))
    return "_".join(w if w.isupper() and len(w) > 1 else w[:1].lower() + w[1:] for w in words.split("_"))


def is_turned(name):
    return re.match(r"[a-z_]", name) and (re.search(r"[A-Z]", name) or "-" in name)


def files():
    crates = sorted(c for c in os.listdir("crates") if os.path.isdir(os.path.join("crates", c)))
    for c in crates:
        for folder, dirs, names in os.walk(os.path.join("crates", c)):
            dirs[:] = sorted(d for d in dirs if d != "out")
            for n in sorted(names):
                if n.endswith((".antt", ".rt")):
                    yield os.path.join(folder, n), crates


def bare(line):
    """A line without its comment and with its strings blanked."""
    line = re.sub(r'"(?:[^"\\]|\\.)*"', '""', line)
    return re.split(r"(?:^|\s)--(?:\s|$)", line)[0]


def survey():
    declared, taken, local = collections.defaultdict(set), set(), set()
    for path, crates in files():
        own = tuple(f"Rattle.{c}." for c in crates)
        with open(path, encoding="utf-8") as f:
            for line in f:
                line = bare(line)
                m = IMPORT.match(line)
                if m:
                    local.update(re.findall(r"\bas\s+([^\s,}]+)", m.group(1)))
                    if not m.group(1).startswith(own):
                        taken.update(TOKEN.findall(m.group(1)))
                    continue
                if path.endswith(".rt"):
                    continue
                m = SIGNATURE.match(line)
                if m:
                    for n in [m.group(1), *m.group(2).split()]:
                        declared[n].add(path)
                for m in PARAMETER.finditer(line):
                    local.update(m.group(1).split())
                for m in BOUND.finditer(line):
                    local.update((m.group(1) or m.group(2)).split())
    names = {n for n in set(declared) | local if TOKEN.fullmatch(n) and is_turned(n) and n not in taken}
    turned = {n: snake(n) for n in names}
    groups = collections.defaultdict(set)
    for n in declared:
        groups[turned.get(n, n)].add(n)
    for new, olds in groups.items():
        if len(olds) < 2:
            continue
        camel = [o for o in olds if re.search("[A-Z]", o)]
        for o in olds:
            if o not in camel and (camel or "-" in o):
                turned[o] = new + "_lem"
    return turned, declared, {n: o for n, o in groups.items() if len(o) > 1}


STEP = re.compile(r"(?:^|[^A-Za-z0-9_'-])[a-z][A-Za-z0-9_'-]*\.$")


def turn(text, names, has_steps):
    def new(m):
        old = m.group(0)
        if has_steps and not is_turned(old) and STEP.search(text[: m.start()]):
            return old  # a step of a function's proof, or its folder
        return names.get(old, old)

    return TOKEN.sub(new, text)


def turn_line(line, names, has_steps=False):
    """Code of a line, its strings and its comment left as they are."""
    parts = re.split(r'("(?:[^"\\]|\\.)*"|(?:^|(?<=\s))(?:--|//)(?:\s.*|$))', line)
    return "".join(p if i % 2 else turn(p, names, has_steps) for i, p in enumerate(parts))


def turn_source(lines, names):
    depth, inside = 0, False
    for line in lines:
        if IMPORT.match(line) and line.lstrip().startswith("ghost"):
            yield turn_line(line, names)
            continue
        if CLAUSE.match(line) and not inside:
            inside, depth = True, 0
        if inside:
            yield turn_line(line, names)
            depth += line.count("{") - line.count("}")
            inside = depth > 0
            continue
        yield line


def main():
    names, declared, groups = survey()
    if "--list" in sys.argv:
        for new, olds in sorted(groups.items()):
            print(new, *(f"{o} -> {names.get(o, o)}: {', '.join(sorted(declared[o]))}" for o in sorted(olds)), sep="\n    ")
        print(len(names), "names")
        return
    for path, _ in files():
        with open(path, encoding="utf-8") as f:
            lines = f.readlines()
        done = list(turn_source(lines, names)) if path.endswith(".rt") else [turn_line(l, names, "/proofs/" in path) for l in lines]
        if done != lines:
            with open(path, "w", encoding="utf-8") as f:
                f.writelines(done)


if __name__ == "__main__":
    main()
