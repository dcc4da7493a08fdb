#!/usr/bin/env python3
"""Lists places in crates/*/src that an older form of the language may have left, by kind, and counts them.

    tools/places.py              the tree as it stands
    tools/places.py --at COMMIT  the tree of a commit
    tools/places.py --count      the numbers alone

It goes by text, so a place is one to look at, not a fault.
"""
import collections
import re
import subprocess
import sys
from pathlib import Path

TOP = Path(__file__).resolve().parent.parent


def sources(commit, ending=".rt", folder="src"):
    """The files below crates/*/FOLDER, by name."""
    if commit:
        names = subprocess.run(["git", "-C", TOP, "ls-tree", "-r", "--name-only", commit, "crates"],
                               capture_output=True, text=True, check=True).stdout.split()
        names = [n for n in names if n.endswith(ending) and f"/{folder}/" in n]
        return {n: subprocess.run(["git", "-C", TOP, "show", f"{commit}:{n}"],
                                  capture_output=True, text=True, check=True).stdout for n in names}
    return {str(p.relative_to(TOP)): p.read_text() for p in sorted(TOP.glob(f"crates/*/{folder}/**/*{ending}"))}


def line_of(text, at):
    return text.count("\n", 0, at) + 1


def block(text, at):
    """The text of the braces that open at or after `at`."""
    start = text.index("{", at)
    depth = 0
    for i in range(start, len(text)):
        if text[i] == "{":
            depth += 1
        elif text[i] == "}":
            depth -= 1
            if depth == 0:
                return text[start:i + 1]
    return text[start:]


# 1. An Option or a Result that is taken apart to be wrapped again, flags, tables of numbers.
WRAPS = [
    ("an arm that wraps again", r"^\s*(?:None => None|None => (?:return )?Err\(.*|Err\((\w+)\) => Err\(\1\)|Err\(_\) => None|Ok\((\w+)\) => Ok\(\2\)|Ok\((\w+)\) => Some\(\3\)|Some\((\w+)\) => Ok\(\4\)),"),
    ("an arm that answers a bool", r"^\s*(?:None|Err\(_\)) => (?:true|false),"),
    ("an arm that gives a default", r"^\s*(?:None|Err\(_\)) => (?:\d+|' '|return|\"\w*\"),"),
    ("an error handed on by hand", r"if let Err\((\w+)\) = [^{]*\{\s*return Err\(\1\);"),
    ("if, Some, else None", r"if [^{};]*\{\s*Some\([^;]*?\)\s*\} else \{\s*None\s*\}"),
    ("let else that returns an Err", r"let (?:Some|Ok)\([^=]*\) = [^;]*? else \{\s*return Err\("),
    ("a flag for an error", r"Result<bool,"),
    ("a number for a case", r"^\s*\w+::\w+(?: \{ \.\. \})? => \d+,"),
]

# 3. Loops.
HEAD = re.compile(r"^[ \t]*(?:'\w+: )?(for [^{]*|while [^{]*|loop )\{", re.M)


def loops(text):
    for m in HEAD.finditer(text):
        head, body = m.group(1), block(text, m.start())
        var = re.match(r"for (\w+) in", head)
        if head.startswith("loop") or re.match(r"while [^l]", head):
            yield m.start(), "a loop that counts by hand"
        elif var and ".." in head and re.search(r"\[%s\b" % var.group(1), body):
            yield m.start(), "an index by hand"
        elif re.search(r"return (?:true|false|Some\(|Ok\(true\))", body) and "for" in head:
            yield m.start(), "a search"
        elif re.search(r"\b(?:count|sum|accepted|k) \+= ", body):
            yield m.start(), "a count or a sum"
        elif re.fullmatch(r"\{\s*\*\w+ = [^;]*;\s*\}", body):
            yield m.start(), "a fill"
        elif re.search(r"let mut (\w+) = Vec::new\(\w+\);\s*$", text[:m.start()]) and re.search(r"\.push\(", body):
            yield m.start(), "a collection"


# 4. Equality, conversion and printing by hand.
BY_HAND = [
    ("a conversion or a text by hand", r"^\s*(?:pub(?:\(crate\))? )?fn (?:number|word|letter_of|layer|meaning|same|read_kind|read_call|read_verb|line_fault|digit)\b"),
    ("equality by hand", r"(\w+)\.(\w+) == (\w+)(?:\.\2)?\s*&&\s*\(?\1\.(\w+) == (?:\3\.\4|\w+)"),
    ("a test for a case by match", r"^\s*Record::(?:Free|Barred)(?: \| [\w:]+)? => (?:true|false|None),"),
]


# 5. Clauses and parameters that come again and again.
FN = re.compile(r"^[ \t]*(?:pub(?:\(crate\))? )?(?:extern \"C\" )?fn (\w+)(?:<[^(]*>)?\((.*?)\)[^{;]*?(?:\{$|;$|\n(.*?)^\s*\{$|\n(.*?);$)", re.M | re.S)


def clauses(m):
    """The requires of a function."""
    text = m.group(3) or m.group(4) or ""
    return re.findall(r"requires (?:\w+ )?\{ ([^\n]*) \}", text)



def facts(files):
    """Facts that stand in a requires of three functions of a crate or more."""
    found = collections.defaultdict(set)
    for name, text in files.items():
        crate = name.split("/")[1]
        for m in FN.finditer(text):
            for c in clauses(m):
                fact = re.sub(r"\.(?:old|new|now|entry)\b", "", c)
                found[crate, fact].add(f"{name}:{m.group(1)}")
    return {k: v for k, v in found.items() if len(v) >= 3}


def travellers(files):
    """Parameters of functions that come together in three functions of a crate or more, one never without the other."""
    having = collections.defaultdict(set)
    for name, text in files.items():
        if name.endswith("tests.rt"):
            continue
        crate = name.split("/")[1]
        for m in FN.finditer(text):
            for p in re.findall(r"(\w+): ", m.group(2)):
                having[crate, p].add((name, m.group(1)))
    out = set()
    for (crate, p), at in having.items():
        if len(at) < 3:
            continue
        group = tuple(sorted(q for (c, q), other in having.items() if c == crate and at <= other))
        if len(group) > 1:
            out.add((crate, group, len(at)))
    return sorted(out)


# 6. A length beside a buffer, flags in a list.
BUFFERS = [
    ("a buffer with a length beside", r"\w+\[(?:count|first|place|at)(?: as usize)?\]"),
    ("a list of flags", r"Vec<bool>"),
    ("a list searched for a key", r"for pad in pads \{"),
]

# 7. A switch on which step to run.
SWITCHES = [("a switch on which step to run", r"match (?:kind|mark|verb|plan\.kind|order\.wish|order\.kind) \{")]


def search(files, kinds):
    for kind, pattern in kinds:
        for name, text in files.items():
            for m in re.finditer(pattern, text, re.M):
                yield kind, name, line_of(text, m.start())


def places(commit):
    files = sources(commit)
    yield 1, list(search(files, WRAPS))
    yield 3, [(kind, n, line_of(t, at)) for n, t in files.items() for at, kind in loops(t)]
    yield 4, list(search(files, BY_HAND))
    yield 5, ([(f"{c}: {fact}", ", ".join(sorted(w)), 0) for (c, fact), w in sorted(facts(files).items())]
              + [(f"{c}: parameters {', '.join(g)}", f"{k} functions", 0) for c, g, k in travellers(files)])
    yield 6, list(search(files, BUFFERS))
    yield 7, list(search(files, SWITCHES))
    answers = sources(commit, ".antt", "proofs")
    yield 8, [(f"{c}: answers", f"{k}", 0) for c, k in sorted(collections.Counter(
        n.split("/")[1] for n, t in answers.items() if n.endswith("Answers.antt")
        for _ in re.finditer(r"^pub [\w'-]+ : goal\.", t, re.M)).items())]


def main():
    arguments = sys.argv[1:]
    commit = arguments[arguments.index("--at") + 1] if "--at" in arguments else None
    for point, found in places(commit):
        print(f"== point {point}: {len(found)}" if point != 8 else f"== point 8: {sum(int(w) for _, w, _ in found)} answers")
        if "--count" not in arguments:
            for kind, name, line in found:
                print(f"  {kind}: {name}{f':{line}' if line else ''}")


main()
