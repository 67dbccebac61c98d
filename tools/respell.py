#!/usr/bin/env python3
"""Brings the names of tools/spelling.txt to their new spelling, once, right after the toolchain's port.py.

usage: python3 tools/respell.py [FOLDER]     FOLDER is the top of a checkout; this one if none is given

Each line of spelling.txt is an old name and a new one: definitions, fields and lemmas of specs/ and proofs/, which are
in snake case since the toolchain changed. Only whole names turn, in .antt and .rt files; strings in one line and the
steps of a proof (behind c., w. or goal.) keep theirs. Each old name has a capital or a dash, so no name of the code is one.
"""

import os
import re
import sys

HERE = os.path.dirname(os.path.realpath(__file__))
NAME = re.compile(r"(?<![\w'\-◌])[a-z][\w'\-]*")
STEP = re.compile(r"(?:^|[^\w'\-.])(?:c|w|goal|given)(?:\.[\w'\-]+)*\.$")
STRING = re.compile(r'"(?:[^"\\\n]|\\.)*"')


def spelling():
    with open(os.path.join(HERE, "spelling.txt"), encoding="utf-8") as f:
        return dict(line.split() for line in f if line.strip() and not line.startswith("#"))


def respelled(text, names):
    """The text with each name of the table in its new spelling, but for strings and the steps of a proof."""

    def turn(part):
        def one(m):
            return m.group() if STEP.search(part[: m.start()][-200:]) else names.get(m.group(), m.group())

        return NAME.sub(one, part)

    pieces, at = [], 0
    for m in STRING.finditer(text):
        pieces += [turn(text[at : m.start()]), m.group()]
        at = m.end()
    return "".join(pieces + [turn(text[at:])])


def main(root):
    names = spelling()
    for folder, dirs, files in os.walk(os.path.join(root, "crates")):
        dirs[:] = [d for d in dirs if d != "out"]
        for name in files:
            if name.endswith((".rt", ".antt")):
                path = os.path.join(folder, name)
                with open(path, encoding="utf-8") as f:
                    old = f.read()
                new = respelled(old, names)
                if new != old:
                    with open(path, "w", encoding="utf-8") as f:
                        f.write(new)


if __name__ == "__main__":
    main(sys.argv[1] if len(sys.argv) > 1 else os.path.dirname(HERE))
