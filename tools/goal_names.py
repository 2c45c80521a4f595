#!/usr/bin/env python3
"""In the files that prove one function, the names of goals and steps: a Rust name in them keeps its underscores, where older files have hyphens, and so do the
checker's words for the ways of a match.

usage: goal_names.py CRATE..     at the top of the repository
"""

import glob
import os
import re
import sys

word = re.compile(r"[A-Za-z][A-Za-z0-9_'-]*")


def rust_names(c):
    names = {"in_ok", "in_err", "in_default", "from_residual", "way_copy_out", "invariant_of"}
    for f in glob.glob(f"crates/{c}/src/**/*.rt", recursive=True):
        names |= set(re.findall(r"\b[a-z][a-z0-9]*(?:_[a-z0-9]+)+\b", open(f, encoding="utf-8").read()))
    return sorted(names, key=lambda n: (-len(n), n))


for c in sys.argv[1:]:
    order = rust_names(c)
    if not order:
        continue
    alone = re.compile("(?<![A-Za-z0-9_'])(" + "|".join(n.replace("_", "-") for n in order) + ")(?![A-Za-z0-9_'])")
    for f in glob.glob(f"crates/{c}/proofs/*/**/*.antt", recursive=True):
        text = open(f, encoding="utf-8").read()
        out = []
        for line in text.split("\n"):
            if not line.startswith("use ") or "Goals" in line:
                line = word.sub(lambda m: alone.sub(lambda k: k[0].replace("-", "_"), m[0]), line)
            out.append(line)
        new = "\n".join(out)
        if new != text:
            open(f, "w", encoding="utf-8").write(new)
            print(f)
