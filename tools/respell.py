#!/usr/bin/env python3
"""Spells the repository's own definitions and lemmas as today's Rattle does: words in snake case, types in camel case.

usage: tools/respell.py        at the top of the repository, once, after the kit's own script

A word such as leastTree becomes least_tree, in each part of a name that dashes join; a theorem such as Plans-replay, which
is a type, becomes PlansReplay. Files of crates/ (sources, specs, proofs, edits) and pages are rewritten in place. Rust
items, strings, inputs and outputs hold no such names. A name that would meet one that stands already is listed.
"""

import os
import re
import sys

# The old word for an item of a list or a default, which stands in names of lemmas.
WORDS = {"getD": "get_or"}
# Theorems and records of theorems that are types and whose words were joined by dashes.
TYPES = re.compile(r"[A-Z][a-z]+(?:-[a-z]+)+")
CAMEL = re.compile(r"[a-z][a-z0-9_]*[A-Z][A-Za-z0-9_]*")
NAME = re.compile(r"(?<![\w'-])[A-Za-z][\w'-]*")
# Texts of sources stay as they are.
STRING = re.compile(r'("(?:[^"\\]|\\.)*")')
DECLARED = re.compile(r"^(?:(?:abbrev|unfoldable|pub|data|record|ruleset) )+([A-Z][a-z]+(?:-[a-z]+)+)(?= )", re.M)


def files(top):
    for folder, dirs, names in os.walk(os.path.join(top, "crates")):
        dirs[:] = sorted(d for d in dirs if d != "out")
        for name in sorted(names):
            if name.endswith((".antt", ".rt", ".edit")):
                yield os.path.join(folder, name)
    for folder in ("docs", "refused", "."):
        where = os.path.join(top, folder)
        for name in sorted(os.listdir(where)) if os.path.isdir(where) else []:
            if name.endswith((".md", ".edit")) and not name.startswith("PORT"):
                yield os.path.join(where, name)


def snake(word):
    if word in WORDS:
        return WORDS[word]
    return re.sub(r"(?<=[a-z0-9_])([A-Z])", r"_\1", word).replace("__", "_").lower()


def spelled(name, types):
    if TYPES.fullmatch(name):
        return "".join(w.capitalize() for w in name.split("-")) if name in types else name
    return "-".join(snake(w) if CAMEL.fullmatch(w) else w for w in name.split("-"))


def main():
    texts = {p: open(p, encoding="utf-8").read() for p in files(".")}
    types = {m for p, t in texts.items() if p.endswith(".antt") for m in DECLARED.findall(t)}
    before = {p: set(NAME.findall(STRING.sub("", t))) for p, t in texts.items()}
    standing = set().union(*before.values())
    turned = {n: spelled(n, types) for n in standing if spelled(n, types) != n}
    for path, text in texts.items():
        parts = STRING.split(text) if path.endswith(".rt") else [text]
        new = "".join(p if p[:1] == '"' else NAME.sub(lambda m: turned.get(m[0], m[0]), p) for p in parts)
        if new != text:
            with open(path, "w", encoding="utf-8") as f:
                f.write(new)
    backwards = {}
    for old, new in sorted(turned.items()):
        backwards.setdefault(new, []).append(old)
    for new, olds in sorted(backwards.items()):
        meets = sorted(p for p in before if new in before[p])
        if meets or len(olds) > 1:
            print(f"meets: {', '.join(olds)} -> {new}: {' '.join(meets)}")
    print(f"{len(turned)} names turned in {len(texts)} files")
    return 0


if __name__ == "__main__":
    sys.exit(main())
