#!/usr/bin/env python3
"""Spells this repository's own definitions and lemmas as Rattle's names are spelled: words in snake case.

usage: tools/respell.py [--check]     at the top of the repository, once, behind port.py; --check writes nothing

It goes by whole words: every name that a file of specs/ or proofs/ declares, 'movedFrom' and 'sum-ext', becomes 'moved_from' and
'sum_ext', in those files, in the clauses and the 'ghost use' lines of the sources, and in comments that quote one in backquotes. A lemma
that would get its definition's name ends in '_lem' (LEMMAS). Functions of src/, exported names, strings, inputs and outputs keep theirs.
Names that Rattle makes in the walk of a Proof.antt (what stands behind a dot there, and what is declared at 'tie.') are left alone.
A line 'look:' says where a new name stands in a file already.
"""
import collections
import os
import re
import sys

WORD = r"[^\s(){}\[\].;,@\"«»`]+"
DECLARED = re.compile(rf"^ *(?:pub |abbrev |unfoldable |data |record )*({WORD})(?: \{{[^{{}}\n]*\}})* :(?= |$)", re.M)
LET = re.compile(rf"\blet ({WORD})(?= [:=])")
MADE = re.compile(rf"^({WORD}) : tie\.", re.M)
CLAUSE = re.compile(r"(?:requires|ensures)\s*\*?\s*(?:\w+\s*)?\{|ghost use\b|ghost\s+\w+\s*[:=]\s*\{")

# a lemma beside a definition of the same words
LEMMAS = """add-refused at_back at_front call-there chart-edges chart-size chart-weights chord-crossings closed-crossings crossings-closed
each-once edge-within field-bytes field_found first-least has_room is-valid is-weight kept_next lay-refused least-cost linked-run listed-bytes
listed-length lower-bits on_edge order-at order-bytes other_at place_at place-back place-next played-from rest-at round-refused row-weight
same-edge same_edges same-list settle-refused sift-best sift-refused sifted-order size-found step-at swept-next taken_out unit-weighted
vertex-at was-valid with-bit written-bytes zero-from""".split()
# where a file has the new name for something of its own
LOCAL = {"read_as": "reread", "bit-and": "bit_and_lem"}


def snake(name):
    words = re.sub(r"(?<=[a-z0-9])[A-Z]", lambda m: "_" + m[0].lower(), name)
    return words.replace("-", "_").replace("′", "'")


def texts(kinds):
    for folder, dirs, files in os.walk("crates"):
        dirs[:] = sorted(d for d in dirs if d != "out")
        for f in sorted(files):
            if f.endswith(kinds):
                path = os.path.join(folder, f)
                with open(path, encoding="utf-8") as t:
                    yield path, t.read()


def spelling():
    table = {}
    for path, text in texts(".antt"):
        made = set(MADE.findall(text))
        for name in DECLARED.findall(text) + LET.findall(text):
            if name not in made and name[0].islower() and not name.endswith("-spec"):
                table[name] = snake(name)
    table = {a: b for a, b in table.items() if a != b}
    table.update({name: snake(name) + "_lem" for name in LEMMAS})
    table.update(LOCAL)
    return table


def turned(text, table, behind_a_dot):
    def one(m):
        word = m[0]
        if not behind_a_dot and text[m.start() - 1 : m.start()] == ".":
            return word
        return table.get(word, word)

    return re.sub(WORD, one, text)


def closing(text, at):
    depth = 1
    while depth:
        depth += {"{": 1, "}": -1}.get(text[at], 0)
        at += 1
    return at


def source(text, table):
    out, at = [], 0
    while True:
        m = CLAUSE.search(text, at)
        if not m:
            return "".join(out) + comments(text[at:], table)
        end = closing(text, m.end()) if m[0].endswith("{") else text.index(";", m.end())
        out += [comments(text[at : m.start()], table), turned(text[m.start() : end], table, True)]
        at = end


def comments(text, table):
    return re.sub(r"//[^\n]*", lambda m: re.sub(r"`[^`\n]+`", lambda q: turned(q[0], table, True), m[0]), text)


def main():
    check = "--check" in sys.argv[1:]
    table = spelling()
    count = collections.Counter()
    for path, text in texts((".antt", ".rt")):
        if path.endswith(".antt"):
            new = turned(text, table, not path.endswith("Proof.antt"))
            words = set(re.findall(WORD, text))
            for old in sorted(words & set(table)):
                if table[old] in words:
                    print(f"look: {path}: {old} becomes {table[old]}, which stands there already")
        else:
            new = source(text, table)
        if new != text:
            count["files"] += 1
            if not check:
                with open(path, "w", encoding="utf-8") as t:
                    t.write(new)
    print(f"{len(table)} names, {count['files']} files")


main()
