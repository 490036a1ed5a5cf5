#!/usr/bin/env python3
"""Turns the repository's own definitions and lemmas to snake case, as today's Rattle spells them.

usage: python3 tools/snake_names.py          in the repository, once, after port.py

A word that begins with a small letter and has a capital in it becomes snake case, in specs/, proofs/, clauses, edits and pages:
recordAt is record_at, ltZ-irrefl is lt_z-irrefl. A definition with a dash gets an underscore: rec-s is rec_s. Lemmas keep their
dashes. Functions of src/, fields of Rattle structs, types, modules, constants and strings keep their names.
"""

import glob
import os
import re

# Names that would fall together with another are given here.
FIRST = {  # file: names in it that make room
    "crates/laws/specs/Replaced.antt": {"columns_of": "same-columns"},
    "crates/demands/proofs/LeftOut.antt": {"first_count": "first-counted"},
}
ROOM = {"is_same": "is-same"}  # a lemma of Outcome, wherever it is cited
OTHER = {
    "keptBy": "kept_by_term",
    "keptOf": "kept_of_run",
    "keptOfEach": "kept_of_each_run",
}
# Names that port.py turned, as pages and edits still have them.
TURNED = {
    "natAbs": "nat_abs", "getD": "get_or", "markOf": "mark_of", "topOf": "top_of", "isChain": "is_chain", "rowAt": "row_at",
    "bytesOf": "bytes_of", "valuesOf": "values_of", "byteAt": "byte_at", "wordAt": "word_at", "pAt": "p_at", "uAt": "u_at",
    "vAt": "v_at", "leftOf": "left_of", "opOf": "op_of",
}
DEFINITION = re.compile(r"^(?:abbrev|unfoldable)\s+(?:pub\s+)?([^\s:(){}]+)\s*:", re.M)
CAMEL = re.compile(r"(?<![A-Za-z0-9_'])[a-z][a-z0-9]*(?:[A-Z][A-Za-z0-9]*)+(?![A-Za-z0-9_])")


def snake(word):
    return OTHER.get(word) or TURNED.get(word) or re.sub(r"(?<=[a-z0-9])([A-Z]+)", lambda m: "_" + m.group(1).lower(), word)


def read(path):
    with open(path, encoding="utf-8") as f:
        return f.read()


def write(path, text):
    with open(path, "w", encoding="utf-8") as f:
        f.write(text)


def whole(word):
    return re.compile(r"(?<![\w'-])" + re.escape(word) + r"(?![\w'-])")


def main():
    crates = sorted(p for e in ("antt", "rt", "edit") for p in glob.glob(f"crates/**/*.{e}", recursive=True) if "/out/" not in p)
    pages = ["README.md", *glob.glob("docs/**/*.md", recursive=True), *(p for p in glob.glob(".ci/*") if os.path.isfile(p))]
    known, dashed = set(TURNED), set()
    for p in crates:
        if p.endswith(".antt"):
            t = read(p)
            known |= set(CAMEL.findall(t))
            if "/specs/" in p or "/proofs/" in p:
                dashed |= {d for d in DEFINITION.findall(t) if "-" in d and not d.startswith(("invariant-", "decreases-"))}
    for p, names in FIRST.items():
        t = read(p)
        for old, new in names.items():
            t = whole(old).sub(new, t)
        write(p, t)
    for p in crates + pages:
        t = was = read(p)
        if p.endswith(".antt"):
            for old, new in ROOM.items():
                t = whole(old).sub(new, t)
        t = CAMEL.sub(lambda m: snake(m.group(0)) if m.group(0) in known else m.group(0), t)
        for d in dashed:
            if d in t:
                t = whole(d).sub(d.lower().replace("-", "_"), t)
        if t != was:
            write(p, t)


main()
