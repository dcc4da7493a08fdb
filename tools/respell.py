#!/usr/bin/env python3
"""Brings the repository's own definitions and lemmas to one spelling: types and facts in upper camel case, all else in snake case.

usage: python3 tools/respell.py [--show]     at the top of the repository; once, after port.py

    On-grid, Sides-allowed  ->  OnGrid, SidesAllowed        (types, records, facts)
    cell-of, few-cells      ->  cell_of, few_cells          (definitions, lemmas, fields, constructors, local names)

The names are those that the .antt files of crates/ declare with a dash in them. Names that Rattle makes (goals, steps) and names that a
file takes from the library keep their dash. In .rt files only names in clauses and ghost items have a dash, so comments and
strings are left alone there, as in .antt files. A new name that something else already has in a crate gets the ending in APART.
--show lists the names and changes nothing.
"""

import collections
import glob
import os
import re
import sys

NAME = r"[^\W\d][\w']*(?:-[\w']+)*"
DASHED = re.compile(r"[^\W\d][\w']*(?:-[\w']+)+")
WORDS = r"(?:(?:abbrev|unfoldable|pub|mutual|data|record|let|where|ruleset|module)\s+)*"
HEAD = re.compile(r"^\s*" + WORDS + r"(" + NAME + r"(?:\s+" + NAME + r")*)\s*(?:[({][^:]*:.*[)}]\s*)*:(?:\s|$)")
BINDER = re.compile(r"[({]((?:" + NAME + r"\s+)*" + NAME + r") :\s")
LET = re.compile(r"\blet\s+(" + NAME + r")\s*[=:]")
LAMBDA = re.compile(r"λ\s+((?:" + NAME + r"\s*)+)\.")
MADE = re.compile(r"^\s*" + WORDS + r"(" + NAME + r") : (?:goal|given)\.")
LIBRARY = re.compile(r"^use (?:Rattle\.std|lib|native|mathlib|Prim)\.[^{]*\{([^}]*)\}")
# a comment, a string, a bracketed name, or a token
PIECES = re.compile(r"--(?=\s|-|$)[^\n]*|//[^\n]*|\"(?:[^\"\\]|\\.)*\"|«[^»]*»|" + NAME)

# new names that fall together with another, and what they are called instead
APART = {
    "Field-map": "IsFieldMap",
    "No-such-cell": "IsNoSuchCell",
    "No-way": "HasNoWay",
    "Not-barred": "IsNotBarred",
    "Not-lawful": "IsNotLawful",
    "Not-pad": "IsNotPad",
    "Not-wired": "IsNotWired",
    "Off-board": "IsOffBoard",
    "Out-of-place": "IsOutOfPlace",
    "Short-report": "IsShortReport",
    "Short-work": "IsShortWork",
    "Wrong-drawing": "IsWrongDrawing",
    "mem-getD": "mem_get_or",
}


def antt_files():
    for part in ("specs", "proofs"):
        yield from sorted(glob.glob(f"crates/*/{part}/**/*.antt", recursive=True))


def source_files():
    yield from sorted(glob.glob("crates/*/src/**/*.rt", recursive=True))


def code(line):
    return re.split(r"(?:^|\s)--(?:\s|-|$)", line)[0]


def declared():
    """The dashed names that the repository declares, and where."""
    found, made = collections.defaultdict(set), set()
    for path in antt_files():
        for line in open(path, encoding="utf-8"):
            line = code(line)
            m = MADE.match(line)
            if m:
                made.add(m.group(1))
                continue
            names = []
            m = HEAD.match(line)
            if m:
                names += m.group(1).split()
            for pattern in (BINDER, LET, LAMBDA):
                for m in pattern.finditer(line):
                    names += m.group(1).split()
            for name in names:
                if "-" in name:
                    found[name].add(path)
    return {n: ps for n, ps in found.items() if n not in made}


def respelled(name):
    if name in APART:
        return APART[name]
    if name[0].isupper():
        return "".join(p[0].upper() + p[1:] for p in name.split("-"))
    return name.replace("-", "_")


def from_library(text):
    taken = set()
    for line in text.split("\n"):
        m = LIBRARY.match(line.replace("ghost use", "use"))
        if m:
            taken |= {w.strip() for w in m.group(1).split(",")}
    return taken


def turn(text, names):
    kept = from_library(text)

    def each(m):
        t = m.group(0)
        return names[t] if t in names and t not in kept else t

    return PIECES.sub(each, text)


def tokens(text):
    return {m.group(0) for m in PIECES.finditer(text) if not m.group(0).startswith(("--", "//", '"'))}


def main():
    show = "--show" in sys.argv
    found = declared()
    names = {n: respelled(n) for n in found}
    taken = collections.defaultdict(set)
    for path in [*antt_files(), *source_files()]:
        for t in tokens(open(path, encoding="utf-8").read()):
            taken[t].add(path)
    by_new = collections.defaultdict(set)
    for old, new in names.items():
        by_new[new].add(old)
    for new, olds in sorted(by_new.items()):
        if len(olds) > 1:
            print(f"fall together: {sorted(olds)} -> {new}")
        places = {p for p in taken.get(new, ()) if p.endswith(".antt")}
        if places:
            print(f"there already: {sorted(olds)} -> {new}, in {sorted(places)[:6]}")
    if show:
        for old in sorted(names):
            print(f"{old} -> {names[old]}")
        return
    for path in [*antt_files(), *source_files()]:
        text = open(path, encoding="utf-8").read()
        new = turn(text, names)
        if new != text:
            open(path, "w", encoding="utf-8").write(new)
    print(f"{len(names)} names")


main()
