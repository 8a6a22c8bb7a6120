#!/usr/bin/env python3
"""Respells the repository's own definitions and lemmas as today's Rattle spells names: functions, lemmas, fields and constructors in
snake case (`costOf` is `cost_of`, `orB-means` is `or_b-means`). Types and facts, exported names, functions of src/, strings and numbers
keep their names. Run once at the top, after port.py.

A lemma whose name would fall together with that of a definition in reach gets `_lem`: LEMMAS, by crate.
"""

import glob
import os
import re
import sys

# By crate: a lemma or a variable of its proofs, and its new name.
LEMMAS = {
    "output": {"front_length": "front_length_lem"},
    "valid_laws": {"is_false": "is_false_lem"},
    "bip379": {"is_same": "is_same_lem"},
    "candidates": {"made_as": "made_as_lem"},
    "definition_laws": {"made_as": "made_as_lem"},
    "choice": {"passed_over": "passed_over_lem"},
    "spend_elements": {"range_length": "range_length_lem"},
    "nodes": {"row_word": "row_word_lem"},
    "differ": {"same_count": "same_counts"},
    "moving": {"too_large": "too_large_lem"},
    "accept_entry": {"too_many": "too_many_lem"},
}

CAMEL = re.compile(r"(?<![\w'])[a-z][a-z0-9]*[A-Z][\w']*")


def snake(word):
    word = re.sub(r"([a-z0-9A-Z])([A-Z][a-z]+)", r"\1_\2", word)
    return re.sub(r"([a-z0-9])([A-Z])", r"\1_\2", word).lower()


def turned(text, names):
    return CAMEL.sub(lambda m: snake(m[0]) if m[0] in names else m[0], text)


def own_names(files):
    """The camel-cased words that stand in specs/ and proofs/ outside comments: each is the repository's own."""
    found = set()
    for f in files:
        if f.endswith(".antt"):
            text = re.sub(r"--[^\n]*|\"[^\"\n]*\"", "", read(f))
            found |= {m for m in CAMEL.findall(text)}
    return found


def read(f):
    with open(f, encoding="utf-8", newline="") as it:
        return it.read()


def write(f, text):
    with open(f, "w", encoding="utf-8", newline="") as it:
        it.write(text)


def outside_strings(text, turn):
    parts = re.split(r'("(?:[^"\\\n]|\\.)*")', text)
    return "".join(p if i % 2 else turn(p) for i, p in enumerate(parts))


def aliases_out(text):
    """`let x = c.before.args in .. x.at ..` is `.. c.before.args.at ..`: a name of a step hides no definition."""
    items = re.split(r"(\n\n)", text)
    out = []
    for item in items:
        while True:
            m = re.search(r"let ([\w'-]+) = \(?(c(?:\.[\w'-]+)+)\)? in\s*", item)
            if not m:
                break
            name, path = m[1], m[2]
            rest = item[m.end():]
            pattern = r"(?<![\w.'-])" + re.escape(name) + r"(?=\.[\w'-])" if re.search(
                r"(?<![\w.'-])" + re.escape(name) + r"(?=\.)", rest) else r"(?<![\w.'-])" + re.escape(name) + r"(?![\w'-])"
            rest = re.sub(r"(?<![\w.'-])" + re.escape(name) + r"(?=\.[\w'-])", lambda _: path, rest)
            # bare uses: the whole record
            if name not in ("slot_of",):
                rest = re.sub(r"(?<![\w.'-])" + re.escape(name) + r"(?![\w'.-])", lambda _: path, rest)
            item = item[: m.start()] + rest
        out.append(item)
    return "".join(out)


def main():
    top = sys.argv[1] if len(sys.argv) > 1 else "."
    os.chdir(top)
    files = [f for p in ("specs", "proofs") for f in glob.glob(f"crates/*/{p}/**/*.antt", recursive=True)]
    files += glob.glob("crates/*/src/**/*.rt", recursive=True)
    for f in files:
        if os.path.basename(f) == "Proof.antt":
            text = read(f)
            new = aliases_out(text)
            if new != text:
                write(f, new)
    names = own_names(files)
    for f in files:
        text = read(f)
        crate = f.split("/")[1]
        new = text
        if f.endswith(".antt") and f.split("/")[2] == "proofs":
            for old, to in LEMMAS.get(crate, {}).items():
                new = re.sub(r"(?<![\w.'-])" + old + r"(?![\w'.-])", to, new)
        new = outside_strings(new, lambda t: turned(t, names))
        if new != text:
            write(f, new)
    for f in glob.glob("crates/*/must-fail/*.edit") + glob.glob("docs/**/*.md", recursive=True) + ["README.md"]:
        text = read(f)
        new = outside_strings(text, lambda t: turned(t, names))
        if new != text:
            write(f, new)
    print(f"{len(names)} names")


main()
