#!/usr/bin/env python3
"""Brings the repository's own definitions and lemmas to the spelling of today's Rattle: words in snake case.

usage: python3 tools/respell.py, once, at the top, after the kit's own script.

A definition, lemma, local definition or field of a record that stands in an .antt file of specs/ or proofs/ and whose
name has a capital after a small letter, or a dash, is renamed in .antt and .rt files, in must-fail edits and between
backticks in README.md and docs/. Names of types keep their capitals. A dash stays where it joins a word of the library
to another definition, as in `length-written`. Names that Rattle makes (goals, steps, invariants) are not touched.
"""
import collections
import os
import re
import sys

KEPT = {"length-written", "first-map", "after-append", "brought-append", "within-append"}
HEAD = re.compile(r"(?m)^[ \t]*(?:(?:abbrev|unfoldable|pub) )*([a-z][\w'-]*(?: [a-z][\w'-]*)*) :(?=\s)(.*)$")
NAME = re.compile(r"(?<![\w'-])[a-z][\w'-]*")

# a lemma that would have the name of another definition
LEMMAS = {"given-symbols": "given_symbols_lem", "in-range": "in_range_lem", "named-from": "named_from_lem", "contents-of": "contents_of_lem", "well-formed": "well_formed_lem"}


def files(ends):
    for folder, dirs, names in os.walk("crates"):
        dirs[:] = sorted(d for d in dirs if d != "out")
        for name in sorted(names):
            if name.endswith(ends):
                yield os.path.join(folder, name)


def read(path):
    with open(path, encoding="utf-8") as f:
        return f.read()


def spelled(name):
    if name in LEMMAS:
        return LEMMAS[name]
    name = re.sub(r"(?<=[a-z0-9])([A-Z])", lambda m: "_" + m[1].lower(), name)
    return name if name in KEPT else name.replace("-", "_")


def own_names():
    """Each own name with the files that it is defined in; answers to goals are named by Rattle."""
    found = collections.defaultdict(set)
    for path in files(".antt"):
        for m in HEAD.finditer(read(path)):
            if re.match(r"\s*goal\.", m[2]):
                continue
            for name in m[1].split():
                found[name].add(path)
    return found


def main():
    found = own_names()
    renamed = {n: spelled(n) for n in found if spelled(n) != n}
    together = collections.defaultdict(set)
    for n in found:
        together[renamed.get(n, n)].add(n)
    for new, olds in sorted(together.items()):
        if len(olds) > 1:
            print("look: these fall together:", new, sorted(olds), sorted(p for o in olds for p in found[o]))

    def turned(text):
        def one(m):
            return renamed.get(m[0], m[0])

        return NAME.sub(one, text)

    changed = 0
    for path in list(files((".antt", ".rt", ".edit"))):
        old = read(path)
        new = turned(old)
        if new != old:
            changed += 1
            with open(path, "w", encoding="utf-8") as f:
                f.write(new)
    pages = ["README.md"] + [os.path.join("docs", p) for p in sorted(os.listdir("docs")) if p.endswith(".md")]
    for path in pages:
        old = read(path)
        new = re.sub(r"`[^`\n]+`", lambda m: turned(m[0]), old)
        if new != old:
            changed += 1
            with open(path, "w", encoding="utf-8") as f:
                f.write(new)
    print(len(renamed), "names,", changed, "files")
    return 0


sys.exit(main())
