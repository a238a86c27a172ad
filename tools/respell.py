#!/usr/bin/env python3
"""Respells the names of definitions and lemmas: words in snake case, types and modules in camel case.

usage: python3 tools/respell.py [FOLDER]     after port.py, once; FOLDER is the top of the repository (default: here)

A name in camel case that begins with a small letter becomes snake case, each part between dashes by itself. Functions of src/, exported C
names, strings, inputs and outputs are in snake case already and stay. Where the new name is one that stands for something else in the same
files, NAMES or IN_PROOFS has another.
"""
import os
import re
import sys

TOKEN = re.compile(r"[A-Za-z][A-Za-z0-9_'₀-₉-]*")
# `\xNN` in words, constants of src/ (`const_Rb`), and names of the kit's library that stand in the proof of pat_write_in_place.
KEPT = {"xNN", "const_Zero", "const_Rb", "getD", "uint_Tells", "uint_Makes", "mut_Tells", "shr_slice_Tells", "mut_slice_Tells", "walk_Meets"}
# afterPuts: a field of OneWrite is called after_puts.
NAMES = {"afterPuts": "after_all_puts", "numberOr0": "number_or_0"}
# Lemmas, by crate, that would have the name of the definition that they are about.
IN_PROOFS = [
    ("host_replay", "left_by", "left_by_lem"),
    ("cmac", "count_under", "count_under_lem"),
    ("work", "count_of", "count_of_lem"),
    ("split", "count_of", "count_of_lem"),
]


def part(word):
    if not re.match(r"[a-z]", word) or not re.search(r"[A-Z]", word):
        return word
    return re.sub(r"(?<=[a-z0-9'])([A-Z])", r"_\1", word).lower()


def name(word):
    if word in KEPT:
        return word
    return NAMES.get(word) or "-".join(part(p) for p in word.split("-"))


def text(path, old):
    lines = []
    for line in old.split("\n"):
        # In words for a reader only what stands in backquotes is a name.
        if path.endswith(".md"):
            line = re.sub(r"`[^`]*`", lambda m: TOKEN.sub(lambda w: name(w.group()), m.group()), line)
        else:
            line = TOKEN.sub(lambda w: name(w.group()), line)
        lines.append(line)
    return "\n".join(lines)


def lemmas(path, old):
    for crate, word, new in IN_PROOFS:
        if path.startswith(f"crates/{crate}/proofs/"):
            old = re.sub(r"(?<![\w.'-])" + word + r"(?![\w'-])", new, old)
    return old


def files(top):
    for folder in ("crates", "docs"):
        for where, dirs, names in os.walk(os.path.join(top, folder)):
            dirs[:] = sorted(d for d in dirs if d != "out")
            for n in sorted(names):
                if n.endswith((".antt", ".rt", ".md")):
                    yield os.path.relpath(os.path.join(where, n), top)
    yield "README.md"


def main():
    top = sys.argv[1] if len(sys.argv) > 1 else "."
    changed = 0
    for path in files(top):
        with open(os.path.join(top, path), encoding="utf-8") as f:
            old = f.read()
        # Lemmas first: what they are about is still in camel case then, but where port.py has turned it.
        new = text(path, lemmas(path, old))
        if new != old:
            changed += 1
            with open(os.path.join(top, path), "w", encoding="utf-8") as f:
                f.write(new)
    print(f"respell: {changed} files changed")


if __name__ == "__main__":
    main()
