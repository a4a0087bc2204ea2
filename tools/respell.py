#!/usr/bin/env python3
"""Brings the repository's own names to today's spelling: definitions and lemmas in snake case, types and theorems in camel case.

usage: tools/respell.py            at the top of the repository, once, after the port's own script

tools/respell.tsv has a row for each name: where it is turned, the old name, the new one.
`all` is everywhere; `pages` is the must-fail edits and pages alone, since the port's script turned these names in code and proofs;
a module is that module and the files that import the name from it.
"""

import glob
import os
import re

HERE = os.path.dirname(os.path.realpath(__file__))
BEFORE, AFTER = r"(?<![\w·'′₂-])", r"(?![\w·'′₂-])"


def rows():
    with open(os.path.join(HERE, "respell.tsv"), encoding="utf-8") as f:
        return [line.rstrip("\n").split("\t") for line in f]


def turner(names):
    if not names:
        return lambda text: text
    word = re.compile(BEFORE + "(" + "|".join(re.escape(n) for n in sorted(names, key=len, reverse=True)) + ")" + AFTER)
    return lambda text: word.sub(lambda m: names[m[1]], text)


def module_of(path):
    group = re.match(r"crates/(\w+)/(specs|proofs)/(.*)\.antt$", path)
    return f"Rattle.{group[1]}.{group[2]}.{group[3].replace('/', '.')}" if group else None


def main():
    everywhere, pages, modules = {}, {}, []
    for where, old, new in rows():
        if where == "all":
            everywhere[old] = new
        elif where == "pages":
            pages[old] = new
        else:
            modules.append((where, old, new))
    turn_all, turn_pages = turner(everywhere), turner(everywhere | pages)
    code = glob.glob("crates/*/src/**/*.rt", recursive=True) + glob.glob("crates/*/specs/**/*.antt", recursive=True)
    code += glob.glob("crates/*/proofs/**/*.antt", recursive=True)
    text = glob.glob("crates/*/must-fail/*.edit") + glob.glob("docs/*.md") + ["README.md"]
    for path in sorted(code + text):
        with open(path, encoding="utf-8") as f:
            old = f.read()
        new = old
        for module, a, b in modules:
            if module_of(path) == module or re.search(rf"use {re.escape(module)}\.\{{[^}}]*{BEFORE}{re.escape(a)}{AFTER}", new):
                new = turner({a: b})(new)
        new = (turn_pages if path in text else turn_all)(new)
        if new != old:
            with open(path, "w", encoding="utf-8") as f:
                f.write(new)


if __name__ == "__main__":
    main()
