#!/usr/bin/env python3
"""Spells the repository's own definitions and lemmas as the library spells its own.

usage: python3 tools/respell.py [FOLDER]     (the repository's top; the current folder by default)

Facts and types are in upper camel case, everything else in snake case. The table respelling.txt beside
this script gives each old name and its new one. Only whole names in .antt and .rt files are turned; a name
behind a point is a field and is turned only where it has a capital letter, since a name with a dash there is
one that the prover makes. Strings of the code and its own items are not touched: none of them is in the table.
"""

import os
import re
import sys

HERE = os.path.dirname(os.path.realpath(__file__))
TOKEN = re.compile(r"[^\s(){}\[\];,.@\"`«»⌜⌝≡∷×→λ∙&!|:=<>+*/#]+")


def table():
    with open(os.path.join(HERE, "respelling.txt"), encoding="utf-8") as f:
        return dict(line.split() for line in f if line.strip())


def turned(text, names):
    def one(m):
        word = m.group(0)
        new = names.get(word)
        if new is None:
            return word
        behind_point = m.start() > 0 and text[m.start() - 1] == "."
        if behind_point and not re.search("[A-Z]", word):
            return word
        return new

    return TOKEN.sub(one, text)


def main():
    root = sys.argv[1] if len(sys.argv) > 1 else "."
    names = table()
    for folder, dirs, files in os.walk(os.path.join(root, "crates")):
        dirs[:] = sorted(d for d in dirs if d != "out")
        for name in sorted(files):
            if not name.endswith((".antt", ".rt")):
                continue
            path = os.path.join(folder, name)
            with open(path, encoding="utf-8") as f:
                text = f.read()
            new = turned(text, names)
            if new != text:
                with open(path, "w", encoding="utf-8") as f:
                    f.write(new)


if __name__ == "__main__":
    main()
