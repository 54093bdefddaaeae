#!/usr/bin/env python3
"""Puts the repository's own definitions, lemmas, record fields and local names of specs/ and proofs/ into snake case.

usage: python3 tools/respell.py [FOLDER]

Run it once, over a tree that the kit's port.py has turned. In antt a dash may stand inside a name; what this repository declares is
written with underscores, as in Rust. Names that the kit or the check makes (the lemmas of std, the goals and steps of a
function's proof) keep their spelling, and so do functions of src/, comments, strings, inputs and outputs.
It stops, and writes nothing, where two names would fall together in one file. A field behind a dot, a module in a path and the
functions of src/ are other kinds of names, and may be spelled like a definition.
"""

import os
import re
import sys

WORD = re.compile(r"[^\s(){}\[\].,;\"|`⌜⌝]+")
DECLARED = re.compile(r"^\s*(?:(?:pub|abbrev|unfoldable|record|data)\s+)*([^\s:(){}]+)\s*:\s")
GOAL = re.compile(r"^\s*(?:(?:pub|abbrev)\s+)*([^\s:(){}]+)\s*:\s*goal\.")
HEAD = re.compile(r"^\s*(?:pub )?(?:record|data) .*\bwhere\b")
USE = re.compile(r"^\s*(?:ghost )?use ([^\s{]+?)\.?\{([^}]*)\}")


def files(root):
    top = os.path.join(root, "crates")
    for folder, dirs, names in os.walk(top):
        dirs[:] = sorted(d for d in dirs if d != "out")
        for name in sorted(names):
            if name.endswith((".rt", ".antt")):
                yield os.path.join(folder, name)


def snake(word):
    return word.replace("-", "_")


def dashed(word):
    return re.search(r"[^\s-]-[^\s-]", word) is not None and re.fullmatch(r"[A-Za-z0-9_'μ₀₁₂-]+", word) is not None


def spans(line, rust):
    """The parts of a line that are neither comment nor string."""
    at, out, comment = 0, [], "//" if rust else "--"
    while at < len(line):
        if line.startswith(comment, at):
            break
        if line[at] == '"':
            end = at + 1
            while end < len(line) and line[end] != '"':
                end += 2 if line[end] == "\\" else 1
            at = end + 1
            continue
        end = at
        while end < len(line) and line[end] != '"' and not line.startswith(comment, end):
            end += 1
        out.append((at, end))
        at = end
    return out


def own(path, crates):
    parts = path.split(".")
    return len(parts) > 1 and parts[0] == "Rattle" and parts[1] in crates


def survey(paths):
    declared, fields, goals = set(), set(), set()
    for path in paths:
        if not path.endswith(".antt"):
            continue
        inside = False
        for line in open(path, encoding="utf-8"):
            if HEAD.match(line):
                inside = True
                continue
            if inside and re.match(r"\S", line):
                inside = False
            found = DECLARED.match(line)
            if not found or not dashed(found.group(1)):
                continue
            if GOAL.match(line):
                goals.add(found.group(1))
                continue
            declared.add(found.group(1))
            if inside and re.match(r"  (?:pub )?\S", line):
                fields.add(found.group(1))
    return declared - goals, fields, goals


def foreign_names(lines, crates):
    out = set()
    for line in lines:
        found = USE.match(line)
        if found and not own(found.group(1), crates):
            out |= {w.strip() for w in found.group(2).split(",")}
    return out


def turn(path, crates, declared, fields, goals):
    rust = path.endswith(".rt")
    lines = open(path, encoding="utf-8").read().split("\n")
    foreign = foreign_names(lines, crates)
    had, gave, out = set(), {}, []
    for line in lines:
        use = USE.match(line)
        if use and not own(use.group(1), crates):
            out.append(line)
            continue
        new, last = "", 0
        for start, end in spans(line, rust):
            for found in WORD.finditer(line, start, end):
                word = found.group(0)
                behind_dot = found.start() > 0 and line[found.start() - 1] == "." and not use
                if not rust and not behind_dot and not (use and found.end() < use.end(1)):
                    had.add(word)
                if not dashed(word) or word in foreign or word in goals:
                    continue
                if behind_dot and word not in fields:
                    continue
                if word not in declared and (rust or use):
                    continue
                gave.setdefault(snake(word), set()).add(word)
                new += line[last:found.start()] + snake(word)
                last = found.end()
        out.append(new + line[last:])
    falls = [f"{path}: {' and '.join(sorted(w))} -> {n}" for n, w in gave.items() if len(w) > 1]
    falls += [f"{path}: {', '.join(w)} -> {n}, which is there already" for n, w in gave.items() if n in had or n in foreign]
    return "\n".join(out), falls


def main():
    root = sys.argv[1] if len(sys.argv) > 1 else "."
    paths = list(files(root))
    crates = set(os.listdir(os.path.join(root, "crates")))
    declared, fields, goals = survey(paths)
    together, texts = [], {}
    whole = {}
    for name in sorted(declared):
        whole.setdefault(snake(name), []).append(name)
    together += [f"{' and '.join(w)} -> {n}" for n, w in whole.items() if len(w) > 1]
    for path in paths:
        texts[path], falls = turn(path, crates, declared, fields, goals)
        together += falls
    if together:
        print("\n".join(together))
        raise SystemExit("respell: names would fall together; nothing was written")
    changed = 0
    for path, text in texts.items():
        if text != open(path, encoding="utf-8").read():
            changed += 1
            with open(path, "w", encoding="utf-8") as f:
                f.write(text)
    print(f"respell: {len(declared)} names, {changed} files changed")


main()
