#!/usr/bin/env python3
"""Brings the names of the repository's own definitions and lemmas to one spelling, at the top of the repository.

Words are in snake case, types, modules and laws (definitions of type `Type`) in camel case, and a prime is an apostrophe.
Read are the files of specs/ and proofs/, but not those that prove one function (a folder below proofs/), whose names
the checker makes. Written are all .antt and .rt files. Names of Rust items, strings and comments of .rt files stay.

usage: respell.py [--list]      lists the renamings (and those that fall together) and writes nothing
       respell.py --write
"""

import os
import re
import subprocess
import sys

TOKEN = re.compile(r"[^\s(){}\[\],;.:\"@]+")
DEFINED = re.compile(r"^\s*(?:(?:abbrev|unfoldable|opaque|pub|private)\s+)*(?:pub\s+)?([^\s(){}\[\],;.:\"@]+)\s+:(?:\s+(.*))?$")
RECORD = re.compile(r"^\s*(?:pub\s+)?(?:record|data)\s+([^\s(){}\[\],;.:\"@]+)")
FIELD = re.compile(r"^\s+pub\s+([^\s(){}\[\],;.:\"@]+)\s+:")
# Names that would fall together with another item's.
OTHERWISE = {
    "blocksOf": "block_count",
    "capacityOf": "list_capacity",
    "empty-grid": "empty_grid_means",
    "occupiedIn": "occupied_bit_in",
    "onesBelow": "ones_under",
    "readBack": "read_entries",
    "refusalOf": "refusal_for",
    "row-bit": "row_bit_is",
    "row-of": "row_of_cell",
    "setPair": "with_pair",
    "textOf": "text_for",
    "wordOf": "word_index",
}


def files():
    out = subprocess.run(["git", "ls-files", "crates"], capture_output=True, text=True).stdout.split()
    return [f for f in out if f.endswith((".rt", ".antt")) and os.path.isfile(f)]


def own(f):
    """A file of definitions or lemmas, and not one that proves a function."""
    p = f.split("/")
    return f.endswith(".antt") and ((p[2] == "specs") or (p[2] == "proofs" and len(p) == 4))


def snake(name):
    name = name.replace("′", "'")
    name = re.sub(r"(?<=[A-Za-z0-9])-(?=[A-Za-z0-9])", "_", name)
    name = re.sub(r"(?<=[a-z0-9])([A-Z])", lambda m: "_" + m[1].lower(), name)
    return name if name[:1].isupper() else name


def camel(name):
    name = name.replace("′", "'")
    return "".join(w[:1].upper() + w[1:] for w in re.split(r"[-_]", name))


def is_type(kind):
    """Whether what is defined is a type: what its own type ends in is `Type`."""
    return re.search(r"(?:^|→\s*)Type(?:\s+[0-9]+|\s*\{.*\})?\s*$", kind) is not None


def names(fs):
    found = {}
    for f in fs:
        if not own(f):
            continue
        for line in open(f, encoding="utf-8"):
            if line.lstrip().startswith("--"):
                continue
            m = RECORD.match(line)
            if m:
                found.setdefault(m[1], (camel(m[1]), f))
                continue
            m = DEFINED.match(line.rstrip("\n"))
            if m and not m[1].startswith("◌") and m[1] not in ("module", "where", "let", "in", "use"):
                found.setdefault(m[1], (camel(m[1]) if is_type(m[2] or "") else snake(m[1]), f))
    found = {a: (OTHERWISE.get(a, b[0]), b[1]) for a, b in found.items()}
    return {a: b for a, b in found.items() if a != b[0] and re.match(r"[A-Za-z]", a)}


def code_spans(text):
    """Spans of a .rt file that are no string and no comment."""
    spans, i, start = [], 0, 0
    rx = re.compile(r'//[^\n]*|b?r?"(?:\\.|[^"\\])*"', re.S)
    for m in rx.finditer(text):
        spans.append((start, m.start()))
        start = m.end()
    spans.append((start, len(text)))
    return spans


def turned(text, table, spans):
    out, last = [], 0
    for a, b in spans:
        out.append(text[last:a])
        out.append(TOKEN.sub(lambda m: table.get(m[0], (m[0],))[0], text[a:b]))
        last = b
    out.append(text[last:])
    return "".join(out)


def antt_spans(text):
    spans, start = [], 0
    for m in re.finditer(r'"(?:\\.|[^"\\])*"', text):
        spans.append((start, m.start()))
        start = m.end()
    spans.append((start, len(text)))
    return spans


def main():
    fs = files()
    table = names(fs)
    target = {}
    for old, (new, f) in table.items():
        target.setdefault(new, []).append(old)
    every = {}
    for f in fs:
        for m in TOKEN.finditer(open(f, encoding="utf-8").read()):
            every.setdefault(m[0], set()).add(f)
    for old, (new, f) in sorted(table.items()):
        note = ""
        if len(target[new]) > 1:
            note += "  TOGETHER " + " ".join(target[new])
        if new in every:
            both = every[new] & every.get(old, set())
            note += "  STANDS in %d files, beside it in %s" % (len(every[new]), " ".join(sorted(both)[:4]))
        if "--write" not in sys.argv or note:
            print(f"{old} -> {new}  ({f}){note}")
    if "--write" in sys.argv:
        for f in fs:
            text = open(f, encoding="utf-8").read()
            new = turned(text, table, antt_spans(text) if f.endswith(".antt") else code_spans(text))
            if new != text:
                open(f, "w", encoding="utf-8").write(new)
    print(len(table), "names")


main()
