#!/usr/bin/env python3
"""Writes the if-then-else of definitions as `whether t then a else b`: if◌then◌else◌ is the library's own name, and rt ci refuses another thing under it.

usage: python3 tools/whether.py        at the top of the repository, once, after tools/respell.py

It goes by text, in each file of specs/ and proofs/ that imports base's if◌then◌else◌, and in the must-fail edits of these files. Comments and texts in double quotes stay.
"""

import glob
import re

IF = re.compile(r"(?<![\w.'’◌-])if(?![\w'◌-])")
LINE = re.compile(r"^((?:[^\"-]|\"(?:\\.|[^\"\\])*\"|-(?!-))*)(--(?=\s|$|─).*)?$")
CHOOSE = "crates/base/specs/Choose.antt"


def line(l):
    m = LINE.match(l)
    if not m or l.lstrip().startswith("--"):
        return l
    parts = re.split(r'("(?:\\.|[^"\\])*")', m.group(1))
    return "".join(p if i % 2 else IF.sub("whether", p) for i, p in enumerate(parts)) + (m.group(2) or "")


def main():
    turned = set()
    for p in sorted(glob.glob("crates/*/**/*.antt", recursive=True)):
        with open(p, encoding="utf-8") as f:
            old = f.read()
        if "/out/" in p or p != CHOOSE and not re.search(r"use Rattle\.base\.specs\.Choose\.\{[^}]*if◌then◌else◌", old):
            continue
        t = "\n".join(line(l) for l in old.split("\n")).replace("if◌then◌else◌", "whether◌then◌else◌")
        if p == CHOOSE:
            t = t.replace("`if t then a else b`", "`whether t then a else b`")
        if t != old:
            turned.add(p)
            with open(p, "w", encoding="utf-8") as f:
                f.write(t)
    for p in sorted(glob.glob("crates/*/must-fail/*.edit")):
        with open(p, encoding="utf-8") as f:
            old = f.read()
        of, out = None, []
        for l in old.split("\n"):
            if l.startswith("file: "):
                of = "/".join(p.split("/")[:2]) + "/" + l[6:].strip()
            out.append(IF.sub("whether", l) if l.startswith(("old: ", "new: ")) and of in turned else l)
        if "\n".join(out) != old:
            with open(p, "w", encoding="utf-8") as f:
                f.write("\n".join(out))


main()
