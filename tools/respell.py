#!/usr/bin/env python3
"""Spells the repository's own definitions and lemmas in snake case, as port.py left them to do; run once, at the top, right after port.py.

A word of specs/, proofs/ and clauses with a small first letter and capitals inside, as `setOf` in `setOf-is`, becomes `set_of`; types and modules keep their
capitals. Words of Rust text have none such. Lemmas that would then have a definition's name get another first (LEMMAS). must-fail/*.edit follow.
"""

import glob
import re

# name of a lemma, its new name, the files (below crates/) that mean the lemma by it
LEMMAS = [
    ("tables_after", "tables-after", ["decisions/proofs/Walks.antt", "decisions/proofs/Assuming.antt", "records/proofs/Walks.antt"]),
    ("no_value", "no_value-get", ["entries/proofs/Keeping.antt", "entries/proofs/value_at/Proof.antt", "maps/proofs/Mapping.antt"]),
    ("laid_out", "left_out-laid", ["wider/proofs/Laid.antt"]),
    ("getD-last", "get_or-last", ["rows/proofs/Indexing.antt"]),
    ("walk_before", "walk-is_before", ["undirected/proofs/Before.antt"]),
]
WORD = re.compile(r"[^\W\d][\w'\-]*")
CAMEL = re.compile(r"(?<![A-Za-z0-9])[a-z][a-z0-9]*(?:[A-Z][a-z0-9]*)+")


def snake(word):
    """The word with each part that is in camel case in snake case."""
    return CAMEL.sub(lambda m: re.sub(r"[A-Z]", lambda c: "_" + c.group().lower(), m.group()), word)


def write(path, text, was):
    if text != was:
        with open(path, "w", encoding="utf-8") as f:
            f.write(text)


def read(path):
    with open(path, encoding="utf-8") as f:
        return f.read()


for old, new, paths in LEMMAS:
    for path in paths:
        text = read("crates/" + path)
        write("crates/" + path, re.sub(r"(?<![\w'\-])" + old + r"(?![\w'\-])", new, text), text)
for pattern in ["specs/**/*.antt", "proofs/**/*.antt", "src/**/*.rt", "must-fail/*.edit"]:
    for path in sorted(glob.glob("crates/*/" + pattern, recursive=True)):
        text = read(path)
        write(path, WORD.sub(lambda m: snake(m.group()), text), text)
