#!/usr/bin/env python3
"""Lists the places in crates/*/src where a form of the older language may stand, by the points of docs/DESIGN-PASS.md.

    python3 tools/places.py [-v] [FOLDER]     FOLDER: a checkout of this repository (default: the one of this file)

Without -v only the counts. A hit is a candidate: the page says of each kind which are changed, kept and why.
"""
import difflib
import pathlib
import re
import sys

args = [a for a in sys.argv[1:] if a != "-v"]
verbose = "-v" in sys.argv
root = pathlib.Path(args[0]) if args else pathlib.Path(__file__).resolve().parent.parent


def sources():
    for path in sorted(root.glob("crates/*/src/**/*.rt")):
        yield str(path.relative_to(root / "crates")), path.read_text()


def code(text):
    """The text without comments, line by line."""
    return [re.sub(r"//.*", "", line) for line in text.split("\n")]


FUNCTION = re.compile(r"^( *)(?:pub(?:\([a-z]+\))? )?fn (\w+)", re.M)


def functions():
    """File, name, head, parameters and body of each function that has a body with a statement."""
    for name, text in sources():
        text = "\n".join(code(text))
        for found in FUNCTION.finditer(text):
            indent, fn = found.group(1), found.group(2)
            rest = text[found.start():]
            opened = re.search(r" \{\n|\n%s\{\n|\n%s\{\}|;\n" % (indent, indent), rest)
            if not opened or opened.group().endswith((";\n", "{}")):
                continue
            closed = rest.find("\n%s}" % indent, opened.end() - 1)
            if closed < 0:
                continue
            head = rest[:opened.start()]
            params = re.sub(r"\n *(requires|ensures).*", "", head, flags=re.S)
            yield name, fn, head, params, rest[opened.end():closed]


def hits(pattern):
    found = []
    for name, text in sources():
        for i, line in enumerate(code(text), 1):
            if re.search(pattern, line):
                found.append(f"{name}:{i}: {line.strip()}")
    return found


def option_shaped():
    found = []
    for name, text in sources():
        for m in re.finditer(r"enum (\w+)(?:<[^{]*>)? \{(.*?)\n\}", "\n".join(code(text)), re.S):
            variants = [v for v in re.findall(r"^    (\w+)(\(|,| \{)", m.group(2), re.M)]
            if len(variants) == 2 and any(v[1] != "," for v in variants):
                found.append(f"{name}: enum {m.group(1)}: {[v[0] for v in variants]}")
    return found


def tokens(body):
    return re.findall(r"\w+|[^\w\s]", body)


def twins():
    """Pairs of functions of at least twenty tokens whose bodies agree to four fifths."""
    fns = [(n, f, tokens(b)) for n, f, _, _, b in functions()]
    fns = [x for x in fns if len(x[2]) >= 20]
    found = []
    for i, (n1, f1, a) in enumerate(fns):
        for n2, f2, b in fns[i + 1:]:
            if abs(len(a) - len(b)) > 0.3 * max(len(a), len(b)):
                continue
            m = difflib.SequenceMatcher(None, a, b, autojunk=False)
            if m.real_quick_ratio() >= 0.8 and m.quick_ratio() >= 0.8 and m.ratio() >= 0.8:
                found.append(f"{n1}::{f1} / {n2}::{f2} ({m.ratio():.2f})")
    return found


def long_parameters(limit=5):
    found = []
    for name, fn, _, params, _ in functions():
        inside = params[params.find("("):]
        count = len(re.findall(r"\w+: ", inside))
        if count > limit:
            found.append(f"{name}::{fn}: {count} parameters")
    return found


def shared_clauses(limit=3):
    """Facts of `requires` that stand in so many functions, by their words."""
    places = {}
    for name, fn, head, _, _ in functions():
        for m in re.finditer(r"requires (?:\w+ )?\{ (.*) \}", head):
            for part in re.split(r" × (?![^(]*\))", m.group(1)):
                key = re.sub(r"\.(old|now|new)\b", "", part.strip("() "))
                places.setdefault(key, set()).add(f"{name}::{fn}")
    return [f"{k}: {len(v)}: {', '.join(sorted(v))}" for k, v in sorted(places.items()) if len(v) >= limit]


def counted():
    """Loops over a range of indexes or with a counter moved by hand, and `while` loops but those of `while let`."""
    found = []
    for name, fn, _, _, body in functions():
        for m in re.finditer(r"^ *(while (?!let).*|for \w+ in (?:rev)?\(?[^{]*\.\..*) \{$", body, re.M):
            found.append(f"{name}::{fn}: {m.group(1).strip()}")
        if re.search(r"^ *(for|while|loop)\b", body, re.M):
            for m in re.finditer(r"^ *(\w+ = \w+\.saturating_add\(1\)|\w+ \+= 1);", body, re.M):
                found.append(f"{name}::{fn}: {m.group(1)}")
    return found


POINTS = [
    ("1 enums of the shape of Option or Result", option_shaped),
    ("1 functions that answer Option of a fault", lambda: hits(r"-> Option<\w*(Fault|Refusal)>")),
    ("1 faults handed on by hand", lambda: hits(r"if let Some\(fault\) =|Err\(fault\) => (return )?(Err|Some)\(|Some\(fault\) => (return )?Err\(")),
    ("1 fields that are flags", lambda: hits(r"^ *(pub(\([a-z]+\))? )?\w+: bool,$")),
    ("1 fields that hold a refusal beside the value", lambda: hits(r"refusal: Option<")),
    ("1 numbers for kinds, states or none", lambda: hits(r"const \w+: u32 = u32::MAX|code: u32|state: u32|\b0 => return|unwrap_or\(0\)|unwrap_or\(\(0, 0\)\)")),
    ("2 twins by likeness of bodies", twins),
    ("3 loops that count by hand", counted),
    ("4 orders, equalities and conversions by hand", lambda: hits(r"fn (side_of|report|letter_word|of|\w+_of|from_\w+)\(|\.0 [=<>]=? \w+\.|\w+\.\w+ == \w+\.\w+ &&|=> true,|=> false,")),
    ("4 Display by hand", lambda: hits(r"impl fmt::Display for")),
    ("5 functions of more than five parameters", long_parameters),
    ("5 required facts in three or more functions", shared_clauses),
    ("6 records packed in words", lambda: hits(r"\* 3\b|/ 3\b|\* 2\b\]|/ 2\b;|\* 2\.\.")),
    ("6 tables in parallel, lengths beside", lambda: hits(r"_lines: (Vec|&\[)|parent: &mut \[u32\]|\bn: (u32|usize),$|\bm: (u32|usize),$")),
    ("7 switches on a step", lambda: hits(r"match (call|self\.call|log\[i\]\.call|kind|line\.call|action|change\.action)\b|: bool[,)]")),
]

for title, find in POINTS:
    found = find()
    print(f"{title}: {len(found)}")
    if verbose:
        for line in found:
            print("    " + line)
lines = sum(len(p.read_text().splitlines()) for p in root.glob("crates/*/proofs/**/*.antt"))
answers = len(list(root.glob("crates/*/proofs/**/Answers.antt")))
print(f"8 proofs: {lines} lines, {answers} files of answers")
