#!/usr/bin/env python3
"""Spells the last names with a capital inside in snake case: `maxZ` becomes `max_z`, `getD_table` `get_or_table`, `natAbs_add` `nat_abs_add`.
Run once, at the top, after spell_names.py."""

import glob
import re

NAMES = [(r"\bmaxZ\b", "max_z"), (r"\bgetD(?=_)", "get_or"), (r"(?<=_)getD\b", "get_or"), (r"\bnatAbs(?=_)", "nat_abs"), (r"(?<=_)natAbs(?=\b|_)", "nat_abs")]
FILES = ["crates/*/specs/**/*.antt", "crates/*/proofs/**/*.antt", "crates/*/src/**/*.rt", "crates/*/must-fail/*.edit", "docs/**/*.md", "*.md"]

for pattern in FILES:
    for path in glob.glob(pattern, recursive=True):
        with open(path, encoding="utf-8") as f:
            text = f.read()
        new = text
        for old, to in NAMES:
            new = re.sub(old, to, new)
        if new != text:
            with open(path, "w", encoding="utf-8") as f:
                f.write(new)
