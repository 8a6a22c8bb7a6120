#!/usr/bin/env python3
"""Counts, in crates/*/src and crates/*/proofs, the places that docs/DESIGN-PASS.md speaks of, a line for each point.

forms.py            counts the work tree
forms.py --list     names each place too"""

import glob
import re
import sys
from collections import Counter, defaultdict

LISTS = "--list" in sys.argv[1:]
SOURCES = {f: open(f).read() for f in sorted(glob.glob("crates/*/src/**/*.rt", recursive=True))}
ANSWERS = {f: open(f).read() for f in sorted(glob.glob("crates/*/proofs/**/Answers.antt", recursive=True))}
REFUSALS = """BAD_CONTEXT BAD_WORK BAD_POLICY ZERO_WEIGHT POLICY_TOO_LARGE NODES_FULL TABLE_FULL CACHE_FULL FUEL_SPENT NOT_A_COST LIMITS_EXCEEDED
TOP_LEVEL_NON_SAFE OUTPUT_TOO_SMALL BAD_TREE BAD_LOG ILL_TYPED TREE_TOO_LARGE NO_ENTRY KEY_TOO_LARGE TREE_TOO_TALL NOT_ITS_INDEX TOO_MANY_VARIABLES NOT_B
NOT_SAFE MALLEABLE LOCALLY_INVALID OTHER_MEANING""".split()
EMPTY = "Missing|None|Broken|Full|Nothing|Unknown|Other|IllTyped|NotAType|TooMany|TooSmall|Taken|NoWay|Refused"


def places(pattern, files=SOURCES, flags=re.M):
    return [f"{f}:{s.count(chr(10), 0, m.start()) + 1}: {' '.join(m.group(0).split())[:100]}" for f, s in files.items() for m in re.finditer(pattern, s, flags)]


def enums():
    """Enums whose variants but one hold nothing, one of them by a name of what is not there; and those with a variant for a refusal's number."""
    found = []
    for f, s in SOURCES.items():
        for m in re.finditer(r"^(?:pub )?enum (\w+) \{\n(.*?)^\}", s, re.M | re.S):
            variants = re.findall(r"^    (\w+)(\(.*\))?,$", m.group(2), re.M)
            full = [v for v, held in variants if held]
            if full and any(re.fullmatch(EMPTY, v) for v, held in variants) and len([v for v in full if v != "Refused"]) <= 1:
                found.append(f"{f}:{s.count(chr(10), 0, m.start()) + 1}: enum {m.group(1)} {{ {', '.join(v + h for v, h in variants)} }}")
    return found


def flags():
    """Structs with a bool that says whether the other fields mean anything."""
    found = []
    for f, s in SOURCES.items():
        for m in re.finditer(r"^(?:pub )?struct (\w+)(?:<[^>]*>)? \{\n(.*?)^\}", s, re.M | re.S):
            if re.search(r"^    (?:pub )?(found|fits|taken|there|is_there|told|given|ok|good|whole|stop|stopped|done|valid|large): bool,$", m.group(2), re.M):
                found.append(f"{f}:{s.count(chr(10), 0, m.start()) + 1}: struct {m.group(1)}")
    return found


def heads():
    """(file, line, name, parameters, clauses) of each function."""
    for f, s in SOURCES.items():
        for m in re.finditer(r"^( *)(?:pub )?fn (\w+)(?:<[^>]*>)?\(([^)]*)\)(.*?)(?:\n\1\{$| \{$)", s, re.M | re.S):
            yield f, s.count("\n", 0, m.start()) + 1, m.group(2), [" ".join(p.split()) for p in m.group(3).split(",") if p.strip()], m.group(4)


def facts():
    """Facts that stand in the requires of three functions or more."""
    where = defaultdict(set)
    for f, line, name, _, clauses in heads():
        for m in re.finditer(r"requires(?: \w+)? \{ (.*) \}", clauses):
            for fact in m.group(1).split(" × "):
                fact = fact.lstrip("(")
                while fact.count(")") > fact.count("("):
                    fact = fact[:-1]
                where[fact].add((f, name))
    return [f"{len(w)} functions: {fact}" for fact, w in sorted(where.items(), key=lambda x: -len(x[1])) if len(w) >= 3]


def travelling():
    """Runs of four parameters that stand together in three functions or more."""
    where = defaultdict(set)
    for f, line, name, params, _ in heads():
        for i in range(len(params) - 3):
            where[", ".join(params[i:i + 4])].add((f, name))
    return [f"{len(w)} functions: {run}" for run, w in sorted(where.items(), key=lambda x: -len(x[1])) if len(w) >= 3]


def beside():
    """Arrays that are passed, held or handed back with a length beside them."""
    found = []
    for f, line, name, params, _ in heads():
        if any(re.search(r": \[\w+; \w+\]", p) for p in params) and any(re.match(r"(n|len|count|k|used|own): usize", p) for p in params):
            found.append(f"{f}:{line}: fn {name}")
    for f, s in SOURCES.items():
        for m in re.finditer(r"^(?:pub )?struct (\w+)(?:<[^>]*>)? \{\n(.*?)^\}", s, re.M | re.S):
            if re.search(r": \[\w+; \w+\]", m.group(2)) and re.search(r"^    (?:pub )?(n|len|count|many): usize", m.group(2), re.M):
                found.append(f"{f}:{s.count(chr(10), 0, m.start()) + 1}: struct {m.group(1)}")
    return found


def twins():
    """Functions of a crate whose names differ in a number alone (u16_at, u32_at), and bodies of three lines or more that stand twice with other names in them."""
    found = []
    groups = defaultdict(set)
    bodies = defaultdict(list)
    for f, s in SOURCES.items():
        for m in re.finditer(r"^( *)(?:pub )?fn (\w+)[^;]*?\n\1\{\n(.*?)^\1\}", s, re.M | re.S):
            crate, name = f.split("/")[1], m.group(2)
            if re.search(r"\d", name):
                groups[crate, re.sub(r"\d+", "#", name)].add(name)
            lines = m.group(3).strip().split("\n")
            if len(lines) >= 3:
                shape = re.sub(r"\b\d[\w.]*\b|\b[A-Z_0-9]{2,}\b|\b[a-z_][a-z_0-9]*\b|\b[A-Z]\w*\b", "x", m.group(3))
                bodies[crate, re.sub(r"\s+", " ", shape)].append(name)
    found += [f"crates/{c}: {', '.join(sorted(v))}" for (c, _), v in groups.items() if len(v) > 1]
    found += [f"crates/{c}: one shape: {', '.join(v)}" for (c, _), v in bodies.items() if len(v) > 1]
    return found


POINTS = [
    ("1a  enums of the shape of Option or Result", enums()),
    ("1b  constants for the numbers of refusals", places(r"^(?:pub )?const (?:" + "|".join(REFUSALS) + r"): u\d+ = \d+;")),
    ("1c  structs with a flag for the other fields", flags()),
    ("1d  arms for the numbers of kinds and refusals", places(r"^ *\d+(?:\.\.=\d+)?(?: \| \d+(?:\.\.=\d+)?)* =>")),
    ("2   twins", twins()),
    ("3   loops that count by hand", places(r"^ *while .*\{$")),
    ("4   equality, order, extremes and conversions by hand", places(r"^ *(?:pub )?fn (?:same\w*|equal\w*|eq|cmp\w*|greater|lesser|larger|smaller|min\w*|max\w*|either|both|one|one_if|compare\w*|of_number|to_number|from_number)\(|^(?:pub )?enum Ordering")),
    ("5a  facts in three requires or more", facts()),
    ("5b  runs of four parameters in three functions or more", travelling()),
    ("6   arrays with a length beside", beside()),
    ("7   switches on the number of a step", places(r"^ *(?:pub )?fn \w+\([^)]*\bnumber: u8\b[^)]*\)")),
    ("8   answers that say only `omega arith`, `search rules` or `refl`", places(r"^\S+ (?:\w+ )?c = (?:omega arith|search rules|refl)$", ANSWERS)),
]

for name, found in POINTS:
    print(f"{len(found):5}  {name}")
    if LISTS:
        for place in found:
            print(f"         {place}")
