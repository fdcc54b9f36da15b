#!/usr/bin/env python3
"""Brings the names of definitions and lemmas of this repository to the spelling of today's Rattle: words in snake case.

usage: python3 tools/port_names.py     at the top of the repository, once, after the kit's port.py

A name is turned wherever it stands in crates/ (sources, specs, proofs, must-fail edits) and in backticks in the pages. Types,
modules and predicates keep their camel case. Functions of src/, exported C names, strings, inputs and outputs are not touched: none
of them is in camel case.
"""

import collections
import os
import re
import sys

CAMEL = re.compile(r"(?<![\w'])[a-z][a-z0-9_]*[A-Z][\w']*")
NUMBER = re.compile(r"^x[0-9A-F_]+$")
# the library's own words
OF_THE_LIBRARY = {"getD", "not_T", "subN"}
# names that would fall together with another of the same file
APART = {"keptSecond": "kept_of_second", "nothingLeft": "nothing_is_left"}


def snake(name):
    if name in APART:
        return APART[name]
    return re.sub(r"(?<=[a-z0-9'])([A-Z])", lambda m: "_" + m.group(1), re.sub(r"([A-Z])([A-Z][a-z])", r"\1_\2", name)).lower()


def files(ends):
    for folder, dirs, names in os.walk("crates"):
        dirs[:] = sorted(d for d in dirs if d != "out")
        for name in sorted(names):
            if name.endswith(ends):
                yield os.path.join(folder, name)


def read(path):
    with open(path, encoding="utf-8") as file:
        return file.read()


def write(path, text):
    with open(path, "w", encoding="utf-8") as file:
        file.write(text)


def main():
    names = set()
    for path in files(".antt"):
        names |= set(CAMEL.findall(re.sub(r"--[^\n]*", "", read(path))))
    names = {n for n in names if n not in OF_THE_LIBRARY and not NUMBER.match(n)}
    turned = collections.defaultdict(set)
    for name in names:
        turned[snake(name)].add(name)
    together = [sorted(v) for v in turned.values() if len(v) > 1]
    if together:
        sys.exit(f"names that fall together: {together}")

    def turn(text):
        return CAMEL.sub(lambda m: snake(m.group(0)) if m.group(0) in names else m.group(0), text)

    for path in files((".antt", ".rt", ".edit")):
        old = read(path)
        new = turn(old)
        if new != old:
            write(path, new)
    pages = ["README.md"] + [os.path.join("docs", n) for n in sorted(os.listdir("docs")) if n.endswith(".md")]
    for path in pages:
        old = read(path)
        new = re.sub(r"`[^`\n]*`", lambda m: turn(m.group(0)), old)
        if new != old:
            write(path, new)
    print(f"{len(names)} names")


if __name__ == "__main__":
    main()
