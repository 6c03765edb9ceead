#!/usr/bin/env python3
"""Brings the repository's own definitions and lemmas to today's spelling: run once, at the top, after the kit's port.py.

Words are in snake case: a lower-case name with capitals inside gets underscores (`oneRecord`, `one_record`), in the
files of antt, in contracts and comments, in the edits that must fail and in the papers. A dash stays where it joins two
names of definitions (`length-head_of`); elsewhere a declared name has underscores (`is-7`, `is_7`). Types and modules
keep their spelling, and so do names that the checker makes, functions of src/, C names, strings, inputs and outputs.
It stops where two names of one file would fall together.
"""
import collections
import glob
import re
import sys

NAME = re.compile(r"[^\W\d][\w']*(?:-[\w']+)*")
DECLARED = re.compile(r"^ *(?:(?:unfoldable|abbrev|pub|pattern) )*([^\W\d][\w'-]*) *(?:\{[^}]*\})? :(?!=)", re.M)
MADE = re.compile(r"(-requires(-\d+)?|-spec|^returns(-\d+)?|^loop-.*|^invariant-.*|^decreases-.*|^Need-.*|^enum-.*)$")
# words for operators and for what std's lemmas speak of: they are names too
WORDS = set("le lt mem append length drop take reverse splice part eq add sub mul div mod get_or replicate cond and or not".split())
# names that are not the repository's definitions, though they look alike
KEPT = set()
# a lemma that port.py gave the name that a definition gets now
# fields of a record whose new name would be that of a definition beside it
FIELDS = {"house-next": "next_by_house", "house-previous": "previous_by_house", "plain-next": "next_by_plain", "plain-previous": "previous_by_plain"}
FIRST = {"crates/trace_c/proofs/CallLaws.antt": [("one_number", "one_number_lem")]}


def texts(*patterns):
    return sorted(p for pattern in patterns for p in glob.glob(pattern, recursive=True) if "/out/" not in p)


def snake(word):
    if re.match(r"x[0-9A-F]{2}", word) or not re.match(r"[a-z]", word) or not re.search(r"[a-z0-9₀-₉][A-Z]", word) or re.search(r"[A-Z][A-Z]", word):
        return word
    return re.sub(r"(?<=[a-z0-9])[A-Z]", lambda m: "_" + m[0].lower(), word)


def read(path):
    with open(path, encoding="utf-8") as f:
        return f.read()


specs = texts("crates/*/specs/**/*.antt")
lemmas = texts("crates/*/proofs/*.antt")
proofs = [p for p in texts("crates/*/proofs/**/*.antt") if p not in lemmas]
sources = texts("crates/*/src/**/*.rt")
edits = texts("crates/*/must-fail*/*.edit")
papers = ["README.md"] + texts("docs/**/*.md", "samples/*.md", "differential/*.md", "crates/*/must-fail*/*.md")

defined = set()
for p in specs:
    defined |= {m[1] for m in DECLARED.finditer(read(p))}
named = {snake(n) for n in defined if "-" not in n} | {n.replace("-", "_") for n in defined} | WORDS
declared = set(defined)
for p in lemmas:
    declared |= {m[1] for m in DECLARED.finditer(read(p))}


# single words and camel words, as they are spelled from now on
words = {snake(n) for n in declared if "-" not in n}


def respelled(name):
    parts = [snake(x) for x in name.split("-")]
    if name in declared and not MADE.search(name) and len(parts) > 1:
        out = parts[0]
        for before, after in zip(parts, parts[1:]):
            out += ("-" if name not in defined and before in named and after in named else "_") + after
        return FIELDS.get(name, out + "_lem" if out in words else out)
    return "-".join(parts)


def turn(text):
    return NAME.sub(lambda m: m[0] if m[0] in KEPT else respelled(m[0]), text)


def turn_rt(text):
    """The ghost imports, clauses and comments of a source; code and strings stay."""
    out, clause = [], 0
    for line in text.split("\n"):
        code = line.strip()
        if code.startswith(("ghost use", "//", "requires", "ensures", "///", "//!")) or clause:
            clause += line.count("{") - line.count("}")
            if code.startswith(("//",)):
                clause = 0
            line = turn(line)
        out.append(line)
        clause = max(clause, 0)
    return "\n".join(out)


def turn_paper(text):
    """What stands in backticks."""
    return re.sub(r"`[^`\n]+`", lambda m: turn(m[0]), text)


together = []
for p in specs + lemmas + proofs + sources:
    seen = collections.defaultdict(set)
    text = re.sub(r"(?m)(--|//).*$|^(pub |ghost )*use [^{\n]*", "", read(p))
    for m in NAME.finditer(text):
        seen[m[0] if m[0] in KEPT else respelled(m[0])].add(m[0])
    together += [(p, new, sorted(old)) for new, old in seen.items() if len(old) > 1]
if "--look" in sys.argv:
    renamed = {n: respelled(n) for p in specs + lemmas + proofs for n in NAME.findall(read(p)) if respelled(n) != n}
    for n in sorted(renamed):
        print(n, renamed[n])
    print(len(renamed))
    for t in together:
        print("together:", *t)
    sys.exit(0)
for path in specs + lemmas + proofs + edits:
    text = read(path)
    new = text
    for old, name in FIRST.get(path, []):
        new = re.sub(rf"(?<![\w'-]){old}(?![\w'-])", name, new)
    new = turn(new)
    if new != text:
        open(path, "w", encoding="utf-8").write(new)
for path, how in [(p, turn_rt) for p in sources] + [(p, turn_paper) for p in papers]:
    text = read(path)
    new = how(text)
    if new != text:
        open(path, "w", encoding="utf-8").write(new)
