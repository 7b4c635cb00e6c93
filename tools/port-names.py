#!/usr/bin/env python3
"""Spells the definitions, lemmas, fields and constructors of this repository in snake case, as the library has its own.

usage: tools/port-names.py [FOLDER]    of a checkout on which port.py has run; the default is this one

It is run once, right after /opt/rattle/port/port.py. What it changes:
  .antt  each whole word that the texts declare in camel or in kebab case; in a comment also what stands in its rows of names
  .rt    the same in clauses, `ghost use` items and comments; strings stay
Where a lemma would get its function's name it ends in _lem; the few other names that would fall together are in BY_HAND.
The table of what it renamed is written to docs/port-names.tsv.
"""

import collections
import os
import re
import sys

NAME = r"[^\s(){}.;,@\"«»:]+"
WORD = re.compile(r"[^\s(){}.;,@\"«»|]+")
DECLARED = re.compile(r"(?m)^ *(?:(?:pub|abbrev|unfoldable|opaque) +)*(" + NAME + r")(?: [({][^{}()\n]*[})])* :(?= |$)")
KEBAB = re.compile(r"[a-z0-9']-[A-Za-z0-9]")
CAMEL = re.compile(r"[a-z0-9][A-Z]")
WALKS = ("Proof.antt", "Answers.antt", "Invariants.antt")

# Names that would fall together with another one in snake case, and what they are called.
BY_HAND = {
    "cardParcels": "most_card_parcels",
    "cardRings": "most_card_rings",
    "cardVertices": "most_card_vertices",
    "coordinate-list": "coordinate_count",
    "record-list": "record_count",
    "relation-list": "relation_count",
    "holds-first": "first_holds",
    "holds-second": "second_holds",
    "inRows": "within_rows",
    "ring-count": "ring_count",
    "second-pieces": "second_pieces",
    "low_x": "low_x_lem",
    "step_by": "step_by_lem",
    "in-range": "in_range_lem",
    "in-turn": "in_turn_lem",
    "bit-and": "bit_and_lem",
    "bit-or": "bit_or_lem",
    "rank-at": "rank_at_lem",
    "sum-to": "sum_to_lem",
    "value-at": "value_at_lem",
    "entry-of": "entry_of_lem",
}
# The same in one file alone.
IN_FILE = {"crates/drawn/proofs/Steps.antt": {"in-row": "in_row_lem"}}
# A name in snake case that is renamed only where it is a lemma, in these files alone.
ONLY_IN = {"low_x": "crates/edge/", "step_by": "crates/edge/proofs/AnyOrder.antt"}


def snake(name):
    words = re.sub(r"(?<=[a-z0-9])[A-Z]", lambda m: "_" + m[0].lower(), name)
    return words.replace("-", "_")


def texts(top):
    for folder, dirs, files in os.walk(os.path.join(top, "crates")):
        dirs[:] = sorted(d for d in dirs if d != "out")
        for name in sorted(files):
            if name.endswith((".rt", ".antt")):
                path = os.path.join(folder, name)
                yield os.path.relpath(path, top), open(path, encoding="utf-8").read()


def table(files):
    declared = set()
    for path, text in files:
        if path.endswith(".antt") and os.path.basename(path) not in WALKS:
            declared |= set(DECLARED.findall(re.sub(r"--[^\n]*", "", text)))
    old = {n for n in declared if n[0].islower() and (KEBAB.search(n) or CAMEL.search(n))}
    taken = collections.defaultdict(set)
    for n in old:
        taken[snake(n)].add(n)
    rows = {n: snake(n) for n in old}
    for new, names in taken.items():
        if len(names) > 1:
            for n in names:
                if "-" in n:
                    rows[n] = new + "_lem"
    rows.update(BY_HAND)
    return rows


def turn_words(text, rows):
    return WORD.sub(lambda m: rows.get(m[0], m[0]), text)


def turn_comment(text, rows, there):
    """A comment: names in camel case and in code spans turn; a name in kebab case turns where the file's code has it or in a row of names."""
    def word(m):
        w = m[0]
        bare = w.strip("`'")
        if bare not in rows:
            return w
        if "-" in bare and not (w.startswith("`") or bare in there):
            return w
        if "-" not in bare and "_" in bare:
            return w
        return w.replace(bare, rows[bare])
    row = re.match(r"(--  +\S.*?\S)( {2,})(?=\S)", text)
    if not row:
        return WORD.sub(word, text)
    # A row of names keeps its second column where there is room.
    head = WORD.sub(word, row[1])
    gap = max(2, len(row[2]) - (len(head) - len(row[1])))
    return head + " " * gap + WORD.sub(word, text[row.end():])


STRING = re.compile(r'(b?"(?:\\.|[^"\\\n])*")')


def turn(path, text, rows):
    rows = dict(rows)
    for name, where in ONLY_IN.items():
        if not path.startswith(where):
            rows.pop(name, None)
    rows.update(IN_FILE.get(path, {}))
    there = set(WORD.findall(re.sub(r"(--|//)[^\n]*", "", text)))
    lines = []
    mark = "--" if path.endswith(".antt") else "//"
    for line in text.split("\n"):
        at = line.find(mark) if path.endswith(".rt") else (line.find("--") if re.match(r"\s*--", line) or " -- " in line else -1)
        code, comment = (line, "") if at < 0 else (line[:at], line[at:])
        if path.endswith(".rt"):
            parts = STRING.split(code)
            code = "".join(p if i % 2 else turn_words(p, rows) for i, p in enumerate(parts))
        else:
            code = turn_words(code, rows)
        lines.append(code + turn_comment(comment, rows, there))
    return "\n".join(lines)


def main():
    top = sys.argv[1] if len(sys.argv) > 1 else os.path.join(os.path.dirname(os.path.abspath(__file__)), "..")
    files = list(texts(top))
    rows = table(files)
    changed = 0
    for path, text in files:
        new = turn(path, text, rows)
        if new != text:
            with open(os.path.join(top, path), "w", encoding="utf-8") as f:
                f.write(new)
            changed += 1
    with open(os.path.join(top, "docs", "port-names.tsv"), "w", encoding="utf-8") as f:
        for old in sorted(rows):
            f.write(f"{old}\t{rows[old]}\n")
    print(f"{len(rows)} names, {changed} files")


main()
