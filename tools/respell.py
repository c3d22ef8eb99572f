#!/usr/bin/env python3
"""Brings this repository's own definitions and lemmas to one spelling: types and modules in camel case, all else in snake case.

usage: python3 tools/respell.py        at the top, after the kit's own script for an older repository, once

A name that a file of specs/ or proofs/ of a room gives, and every local name there, loses its capitals inside and its dashes.
A name that comes from the kit keeps its spelling, and so does a name that the check makes for a function's proof. A lemma that
would then have its definition's name ends in _lem. Names in backquotes in README.md and docs/ follow. Prints where two names
of one file would fall together; it writes nothing then.
"""

import collections
import os
import re
import sys

ROOT = os.path.dirname(os.path.dirname(os.path.realpath(__file__)))
CRATES = os.path.join(ROOT, "crates")
TOKEN = re.compile(r"[^\s(){}\[\];,.\"«»`|:]+")
AWKWARD = re.compile(r"^[a-z][a-z0-9]*[A-Z]|[a-z0-9][A-Z]|[A-Za-z0-9₀]-[A-Za-z0-9]")
DECLARED = re.compile(r"^\s*(?:(?:pattern|unfoldable|abbrev|pub|data|record)\s+)*([^\s(){}\[\];,.:=λ→]+)(?: \{[^}]*\}| \([^)]*\))* :(?:\s|$)")

# What falls together with another name: a lemma named as the definition that it is about, and a constructor named as a function.
FIXED = {
    "answer-fields": "answer_fields_lem",
    "as-hour": "as_hour_lem",
    "cut-from": "cut_from_lem",
    "fault-of": "fault_of_lem",
    "fresh-book": "fresh_book_lem",
    "goesOn": "may_go_on",
    "hour-text": "hour_text_lem",
    "hour-within": "hour_within_lem",
    "plain-within": "plain_between",
    "sum-line": "the_sum",
    "in-range": "in_range_lem",
    "is-above": "is_above_lem",
    "last-grower": "last_grower_lem",
    "line-with": "line_with_lem",
    "loads-counted": "loads_counted_lem",
    "past-line": "past_line_lem",
    "plan-text": "plan_text_lem",
    "plan-written": "plan_written_lem",
    "start-in-range": "start_in_range_lem",
}
# The same in one file alone; as_plain is the lemma, which the kit's script had respelled. A field of a record keeps its name.
FIXED_IN = {
    ("hours/proofs/Promises.antt", "as_plain"): "as_plain_lem",
    ("limit/proofs/YesText.antt", "in-range"): "in_range",
    ("limit/proofs/YesPlan.antt", "in-range"): "in_range",
    ("lines/proofs/FieldReading.antt", "hour-within"): "hour_between",
    ("lines/specs/Meaning.antt", "hour-within"): "hour_between",
}


def files(*endings):
    for folder, dirs, names in os.walk(CRATES):
        dirs[:] = sorted(d for d in dirs if d != "out")
        for name in sorted(names):
            if name.endswith(endings):
                yield os.path.join(folder, name)


def shared(path):
    """A file of specs/, or a file of laws: not what belongs to one function's proof."""
    parts = os.path.relpath(path, CRATES).split(os.sep)
    return parts[1] == "specs" or (parts[1] == "proofs" and len(parts) == 3)


def snake(name):
    if name in FIXED:
        return FIXED[name]
    name = name.replace("-", "_")
    if not name[:1].isupper():
        name = re.sub(r"([a-z0-9])([A-Z])", lambda m: m.group(1) + "_" + m.group(2).lower(), name)
    return name


def awkward(name):
    if name[:1].isupper():
        return "-" in name and name[-1] != "-"
    return bool(AWKWARD.search(name))


def read(path):
    with open(path, encoding="utf-8") as f:
        return f.read()


def code(line):
    return re.sub(r"--( .*)?$", "", line)


own, kit = set(), set()
for path in files(".antt"):
    lines = read(path).splitlines()
    for line in lines:
        m = re.match(r"\s*(?:pub )?use (\S+?)\.\{(.*)\}\s*$", code(line))
        if m and (not m.group(1).startswith("Rattle.") or m.group(1).startswith("Rattle.std.")):
            kit |= {w for n in m.group(2).split(",") for w in n.split(" as ")[:1] for w in [w.strip()]}
        m = DECLARED.match(code(line))
        if m and shared(path) and awkward(m.group(1)):
            own.add(m.group(1))
own -= kit


def renamed(token, rel, everything):
    fixed = FIXED_IN.get((rel, token))
    if fixed:
        return fixed
    if token in own:
        return snake(token)
    if everything and token not in kit and awkward(token):
        return snake(token)
    return token


def turn(text, rel, everything, clauses_only=False):
    out, seen = [], collections.defaultdict(set)
    for line in text.split("\n"):
        head, tail = line, ""
        if rel.endswith(".antt"):
            head = code(line)
            tail = line[len(head):]
            tail = re.sub(r"`[^`]*`", lambda m: TOKEN.sub(lambda t: renamed(t.group(), rel, False), m.group()), tail)
        head = head.replace(".in-range", ".in_range")
        quoted = re.split(r'("(?:[^"\\]|\\.)*")', head)
        for i in range(0, len(quoted), 2):
            def one(m):
                new = renamed(m.group(), rel, everything)
                seen[new].add(m.group())
                return new
            quoted[i] = TOKEN.sub(one, quoted[i])
        out.append("".join(quoted) + tail)
    for new, olds in sorted(seen.items()):
        if len(olds) > 1:
            print(f"{rel}: {' and '.join(sorted(olds))} fall together")
    return "\n".join(out)


made = {}
for path in files(".antt"):
    rel = os.path.relpath(path, CRATES)
    by_hand = os.path.basename(path) in ("ByHand.antt", "Thin.antt")
    text = turn(read(path), rel, shared(path) and not by_hand)
    if not shared(path):
        text = re.sub(r"(?m)^((?:pub )?)([A-Za-z0-9_-]+)-spec( [:=])", lambda m: m.group(1) + m.group(2).replace("-", "_") + "_spec" + m.group(3), text)
        text = re.sub(r"(?m)^([A-Za-z0-9_-]+)-spec =$", lambda m: m.group(1).replace("-", "_") + "_spec =", text)
    made[path] = text
for path in files(".rt", ".edit"):
    made[path] = turn(read(path), os.path.relpath(path, CRATES), False)
for name in ["README.md"] + ["docs/" + n for n in sorted(os.listdir(os.path.join(ROOT, "docs"))) if n.endswith(".md")]:
    path = os.path.join(ROOT, name)
    made[path] = re.sub(r"`[^`\n]*`", lambda m: TOKEN.sub(lambda t: renamed(t.group(), name, False), m.group()), read(path))

if "--dry" in sys.argv:
    raise SystemExit
changed = 0
for path, text in made.items():
    if text != read(path):
        with open(path, "w", encoding="utf-8") as f:
            f.write(text)
        changed += 1
print(f"respell: {len(own)} names, {changed} files")
