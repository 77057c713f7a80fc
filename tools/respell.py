#!/usr/bin/env python3
"""Respells the repository's own definitions and lemmas by tools/respell.tsv: words in snake case.

usage: tools/respell.py [FOLDER]     once, at the top of a checkout that the toolchain's port.py has turned

Each row of the table is a name, a tab and the name that stands for it now. A name turns as a whole; of a longer name whose parts
a dash joins, each part with capitals turns by its own row. Read are the .rt and .antt files, the must-fail edits, and of README.md and
docs/ what stands in backticks. Strings of the programs, exported names, inputs and outputs have no row.
"""
import glob
import os
import re
import sys

HERE = os.path.dirname(os.path.abspath(__file__))
NAME = re.compile(r"(?<![A-Za-z0-9_'])[A-Za-z][A-Za-z0-9_']*(?:-[A-Za-z0-9_']+)*")


def turned(text, rows):
    def one(match):
        name = match.group(0)
        if name in rows:
            return rows[name]
        return "-".join(rows.get(part, part) if re.search("[A-Z]", part) else part for part in name.split("-"))

    return NAME.sub(one, text)


def rewrite(path, change):
    with open(path, encoding="utf-8") as f:
        old = f.read()
    new = change(old)
    if new != old:
        with open(path, "w", encoding="utf-8") as f:
            f.write(new)


def main():
    top = sys.argv[1] if len(sys.argv) > 1 else "."
    rows = {}
    with open(os.path.join(HERE, "respell.tsv"), encoding="utf-8") as f:
        for line in f:
            old, new = line.rstrip("\n").split("\t")
            rows[old] = new

    def found(pattern):
        return sorted(glob.glob(os.path.join(top, pattern), recursive=True))

    # the lemma of this name goes out of the way of the definition that gets it
    for path in found("crates/boxes/proofs/Laws.antt"):
        rewrite(path, lambda text: re.sub(r"\bhas_width\b", "has_width_lem", text))
    for pattern in ("crates/**/*.antt", "crates/**/*.rt", "crates/*/must-fail/*.edit"):
        for path in found(pattern):
            rewrite(path, lambda text: turned(text, rows))
    for path in found("README.md") + found("docs/**/*.md"):
        if os.path.basename(path).startswith("PORT"):
            continue
        rewrite(path, lambda text: re.sub(r"`[^`\n]*`", lambda span: turned(span.group(0), rows), text))


main()
