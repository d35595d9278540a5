#!/usr/bin/env python3
"""Respells the repository's own definitions and lemmas by the table respell.tsv: words in snake case, a dash only between two names.

usage: python3 tools/respell.py        at the top of the repository, once, after the kit's port.py

The table has a row for each name: old, a tab, new. Whole words turn: in the .antt files, in the .rt files (where such words stand in clauses alone),
in the lines `old:` and `new:` of the edits, and in the code spans of the pages. In comments a word in camel case turns, one with a dash only in a code span,
since it may be plain English.
"""

import glob
import os
import re

HERE = os.path.dirname(os.path.realpath(__file__))
with open(os.path.join(HERE, "respell.tsv"), encoding="utf-8") as rows:
    TABLE = dict(row.rstrip("\n").split("\t") for row in rows)
WORD = re.compile(r"[^\s(){}.;,@\"«»`]+")
SPAN = re.compile(r"`[^`\n]*`")


def code(text):
    return WORD.sub(lambda m: TABLE.get(m[0], m[0]), text)


def spans(text):
    return SPAN.sub(lambda m: code(m[0]), text)


def comment(text):
    camel = lambda m: TABLE[m[0]] if m[0] in TABLE and "-" not in m[0] else m[0]
    return spans(WORD.sub(camel, text))


def lines(text, sign):
    """Each line's code, and its comment, which begins at the sign."""
    out = []
    for line in text.split("\n"):
        at = re.search(rf"(?:^|\s){sign}", line)
        cut = at.start() if at else len(line)
        out.append(code(line[:cut]) + comment(line[cut:]))
    return "\n".join(out)


def edit(text):
    return "\n".join(code(line) if line.startswith(("old:", "new:")) else comment(line) for line in text.split("\n"))


KINDS = [
    ("crates/*/specs/**/*.antt", lambda text: lines(text, "--")),
    ("crates/*/proofs/**/*.antt", lambda text: lines(text, "--")),
    ("crates/*/src/**/*.rt", lambda text: lines(text, "//")),
    ("crates/*/must-fail/*.edit", edit),
    ("docs/*.md", spans),
    ("README.md", spans),
]


def main():
    turned = 0
    for pattern, how in KINDS:
        for path in sorted(glob.glob(pattern, recursive=True)):
            with open(path, encoding="utf-8") as f:
                old = f.read()
            new = how(old)
            if new != old:
                turned += 1
                with open(path, "w", encoding="utf-8") as f:
                    f.write(new)
    print(f"{turned} files turned")


main()
