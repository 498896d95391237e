#!/usr/bin/env python3
"""Brings the repository's own names in specs/, proofs/ and clauses to one spelling: words in snake case, types, facts and modules in camel case.

usage: python3 tools/respell.py        at the top of the repository, once, after the kit's port.py

It goes by text, word by word: numberFrom becomes number_from, and in a name of several parts each part alone, numberFrom-append number_from-append. Texts in double quotes stay,
so do the names of functions, constants and fields of src/, which were never in camel case. It prints each file in which two names fall together.
"""

import os
import re
import sys

# Facts, which are spelled as types.
FACTS = {"designatorPinned": "DesignatorPinned", "operandPinned": "OperandPinned", "shapePinned": "ShapePinned", "entrySuits": "EntrySuits", "phraseSuits": "PhraseSuits"}

# A lemma that would have its definition's name gets _lem: in these folders.
LEMMAS = {
    "load_row": ["join/proofs"], "add_row": ["join/proofs"], "no_short": ["join/proofs"], "at_last": ["objtext/proofs"],
    "read_as": ["objtext/proofs", "cells/proofs", "runner/proofs"], "labels_in": ["names/proofs", "join/proofs"],
    "goes_on": ["token/proofs", "join/proofs"], "no_index": ["rules/proofs/Answers.antt", "join/proofs/Step.antt"],
    "char_of": ["scanner/proofs"], "code_by": ["alu/proofs"],
}

WORD = re.compile(r"(?<![\w'.-])[A-Za-z_][\w'-]*(?:\.[A-Za-z_][\w'-]*)*|(?<=[\w)]\.)[A-Za-z_][\w'-]*(?:\.[A-Za-z_][\w'-]*)*")
CAMEL = re.compile(r"[a-z0-9][A-Z]")


def part(p):
    if p in FACTS:
        return FACTS[p]
    if p[:1].islower() and CAMEL.search(p):
        return re.sub(r"(?<=[a-z0-9])([A-Z])", lambda m: "_" + m.group(1).lower(), p)
    return p


def word(w):
    return ".".join("-".join(part(p) for p in q.split("-")) for q in w.split("."))


def line(l):
    pieces = re.split(r'("(?:\\.|[^"\\])*")', l)
    return "".join(p if i % 2 else WORD.sub(lambda m: word(m.group()), p) for i, p in enumerate(pieces))


def names(t):
    return set(re.findall(r"(?<![\w'-])[A-Za-z_][\w'-]*", re.sub(r'"(?:\\.|[^"\\])*"|--.*|//.*', "", t)))


def texts(root):
    for folder, dirs, files in os.walk(root):
        dirs[:] = sorted(d for d in dirs if d not in ("out", ".git", "data", "target"))
        for f in sorted(files):
            yield os.path.join(folder, f)


def main():
    if not os.path.isdir("crates"):
        sys.exit("run it at the top of the repository")
    for p in texts("crates"):
        if not p.endswith((".antt", ".rt", ".edit")):
            continue
        with open(p, encoding="utf-8") as f:
            old = f.read()
        t = old
        for w, places in LEMMAS.items():
            if any(p.startswith("crates/" + x) for x in places):
                t = re.sub(r"(?<![\w'./-])" + w + r"(?![\w'-])", w + "_lem", t)
        before = names(t)
        new = "\n".join(line(l) for l in t.split("\n"))
        if p.endswith(".antt"):
            for n in sorted(before):
                if word(n) != n and word(n) in before:
                    print(f"together: {p}: {n} and {word(n)}")
        if new != old:
            with open(p, "w", encoding="utf-8") as f:
                f.write(new)


main()
