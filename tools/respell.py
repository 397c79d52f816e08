#!/usr/bin/env python3
"""Spells the names that this repository's specs and proofs declare as today's Rattle spells names: words in snake case.

usage: tools/respell.py FOLDER          rewrites crates/ below FOLDER (.antt, .rt, .edit) and the code spans of its pages
       tools/respell.py FOLDER --table  prints the table of names alone

A definition, lemma or field gets underscores for capitals inside it and for dashes: isGood is is_good, there-and-back is there_and_back.
What begins with a capital is a type or a fact and keeps its capitals. Names that Rust declares, strings, inputs and outputs keep theirs.
Two names that would fall together stop it, but where one is a lemma: that gets _lem.
"""

import collections
import os
import re
import sys

WORD = r"[^\s(){}.;,@\"«»\x60]+"
DECLARED = re.compile(rf"(?m)^(?: *)(?:(?:abbrev|unfoldable|pub|opaque) )*({WORD})(?: \{{[^{{}}\n]*\}})* :(?=\s)")
CAMEL = re.compile(r"[a-z][a-z0-9]*(?:[A-Z][a-z0-9]*)+['₀-₉]*")
RUST = re.compile(r"\b(?:fn|const|struct|enum|mod|static) (\w+)|^\s*(?:pub )?(\w+): ", re.M)
STEP = re.compile(r"/proofs/(?:[^/]+/)+[^/]+\.antt$")


def snake(name):
    if name[:1].isupper():
        # A fact or type keeps its capitals; words behind a dash are joined by an underscore.
        head, *rest = name.split("-")
        return "_".join([head] + [snake(r) for r in rest]) if rest else name
    name = re.sub(r"(?<=[a-z0-9])[A-Z]", lambda m: "_" + m[0].lower(), name)
    return name.replace("-", "_")


def files(root, endings):
    for folder, dirs, names in os.walk(os.path.join(root, "crates")):
        dirs[:] = sorted(d for d in dirs if d not in ("out", ".git", "data"))
        for n in sorted(names):
            if n.endswith(endings):
                yield os.path.join(folder, n)


def text(path):
    with open(path, encoding="utf-8") as f:
        return f.read()


def code(t):
    return re.sub(r"(?m)(?<!\S)--.*$", "", t)


def main(root, show):
    declared = collections.defaultdict(set)
    words = {}
    rust = set()
    for p in files(root, (".antt", ".rt")):
        t = text(p)
        words[p] = set(re.findall(WORD, code(t)))
        if p.endswith(".rt"):
            rust |= {a or b for a, b in RUST.findall(t)}
            continue
        if STEP.search(p):
            continue
        for n in DECLARED.findall(code(t)):
            declared[n].add(p)
    everything = set().union(*words.values())
    table = {}
    for n in sorted(declared):
        new = snake(n)
        if new != n:
            table[n] = new
    # Bound variables and what only a function's proof names, in camel case.
    for w in sorted(everything):
        if CAMEL.fullmatch(w) and w not in table and w not in rust:
            table[w] = snake(w)
    by_new = collections.defaultdict(set)
    for old, new in table.items():
        by_new[new].add(old)
    for new, olds in sorted(by_new.items()):
        meets = set(olds)
        if any(new in ws and (olds & ws) for ws in words.values()) or new in declared:
            meets.add(new)
        if len(meets) > 1:
            # The definition, in camel case, has the name; a lemma, with a dash or in snake case already, gives way.
            lemmas = [m for m in meets if not CAMEL.fullmatch(m) and m not in rust and m in declared and all("/proofs/" in p for p in declared[m])]
            keep = [m for m in meets if m not in lemmas]
            if len(keep) <= 1 and lemmas:
                for m in lemmas if keep else sorted(lemmas)[1:]:
                    table[m] = new + "_lem"
                print(f"fall together: {sorted(meets)}: " + ", ".join(f"{m} is {table.get(m, m)}" for m in sorted(meets)), file=sys.stderr)
            elif any(m not in declared and m not in rust for m in meets):
                print(f"LOOK: {sorted(meets)} -> {new}: {[(m, sorted(declared.get(m, [])))[:2] for m in meets]}", file=sys.stderr)
    if show:
        for old, new in sorted(table.items()):
            print(f"{old}\t{new}")
        return
    dashed = {o for o in table if "-" in o}

    made = everything | set(table.values())

    def turn(t, loose=False):
        def one(m):
            w = m[0]
            if loose and w not in table and CAMEL.fullmatch(w) and snake(w) in made:
                return snake(w)
            if w not in table:
                return w
            if w in dashed and m.start() and t[m.start() - 1] == "." and not re.search(r"(?:specs|proofs)(?:\.\w+)*\.$", t[max(0, m.start() - 80) : m.start()]):
                return w
            return table[w]

        return re.sub(WORD, one, t)

    for p in files(root, (".antt", ".rt", ".edit")):
        old = text(p)
        new = turn(old, p.endswith(".edit"))
        if new != old:
            with open(p, "w", encoding="utf-8") as f:
                f.write(new)
    pages = [os.path.join(root, "README.md")] + [os.path.join(d, n) for d, _, ns in os.walk(os.path.join(root, "docs")) for n in ns if n.endswith(".md") and "landings" not in d and not n.startswith("PORT")]
    for p in pages:
        old = text(p)
        new = re.sub(r"(\x60+)([^\x60\n]+)\1", lambda m: m[1] + turn(m[2], True) + m[1], old)
        if new != old:
            with open(p, "w", encoding="utf-8") as f:
                f.write(new)


main(sys.argv[1], "--table" in sys.argv[2:])
