#!/usr/bin/env python3
"""Spells the must-fail edits as the files that they edit are spelled, behind port.py and tools/respell.py.

usage: tools/edits.py [--check] [OLD]     at the top of the repository, once; OLD: the last commit in the older form (the third of docs/PORT.md)

Each 'old:' and 'new:' text goes by whole words: the repository's own names by the table of tools/respell.py, made anew of the files of OLD, and
Rattle's by WORDS. A projection is written tight: '(k .cost)' becomes 'k.cost'. A pair that adds names to an import adds them to an import of
today's file, or goes where the file has them. An edit of a Proof.antt follows to the Answers.antt or Invariants.antt that has its text.
A line 'left:' says which edit cannot be applied to today's files: that one is brought over by hand. --check writes nothing.
"""
import glob
import os
import re
import subprocess
import sys

WORD = r"[^\s(){}\[\].;,@\"«»`]+"
WORDS = {
    "getD": "get_or", "flatMap": "flat_map", "Bool·beq": "beq", "_to_": "◌to◌", "_+_": "◌+◌", "_-_": "◌-◌", "_*_": "◌*◌", "_/_": "◌/◌",
    "_%_": "◌%◌", "_^_": "◌^◌", "_<_": "◌<◌", "_≤_": "◌≤◌", "_≡_": "◌≡◌", "_∷_": "◌∷◌", "_++_": "◌++◌", "_&&_": "◌&&◌", "_∙_": "◌∙◌",
}  # fmt: skip
OPERATORS = ["to", "at", "in", "let", "record", "elim", "where"]
PRELUDE = "use Rattle.std.specs.Prelude.{"


def old_texts(commit):
    names = subprocess.run(["git", "ls-tree", "-r", "--name-only", commit, "crates"], capture_output=True, text=True, check=True).stdout.split("\n")
    for name in names:
        if name.endswith(".antt"):
            yield name, subprocess.run(["git", "show", f"{commit}:{name}"], capture_output=True, text=True, check=True).stdout


def spelling(commit):
    """The table of tools/respell.py, of the files as they were."""
    with open(os.path.join(os.path.dirname(__file__), "respell.py"), encoding="utf-8") as f:
        rules = {}
        exec(f.read().replace("\nmain()\n", "\n"), rules)
    table = {}
    for path, text in old_texts(commit):
        made = set(rules["MADE"].findall(text))
        for name in rules["DECLARED"].findall(text) + rules["LET"].findall(text):
            if name not in made and name[0].islower() and not name.endswith("-spec"):
                table[name] = rules["snake"](name)
    table.update({name: rules["snake"](name) + "_lem" for name in rules["LEMMAS"]})
    table.update(rules["LOCAL"])
    table.update(WORDS)
    return {a: b for a, b in table.items() if a != b}


def tight(text):
    """Projections as today: '(k .cost)' becomes 'k.cost', and 'played s .count' '(played s).count'."""
    while True:
        m = re.search(rf"(?<=\S) \.(?={WORD})", text)
        if not m:
            break
        ends, depth, at, atoms = m.start(), 0, m.start(), 0
        while at > 0:
            ch = text[at - 1]
            if ch in ")]":
                depth += 1
            elif ch in "([" and depth == 0 or ch in ",;" and depth == 0:
                break
            elif ch in "([":
                depth -= 1
            if depth == 0 and ch == " ":
                if text[at - 2 : at - 1] == ".":
                    break
                word = re.match(rf"{WORD}|", text[at:ends].lstrip())[0]
                if word in OPERATORS or word and not word[0].isalnum():
                    break
            at -= 1
        term = text[at:ends]
        lead = len(term) - len(term.lstrip())
        word = re.match(rf"{WORD}|", term.lstrip())[0]
        if word in OPERATORS or word and not (word[0].isalnum() or word[0] == "_"):
            lead += len(word) + len(term.lstrip()[len(word) :]) - len(term.lstrip()[len(word) :].lstrip(" ."))
        term, at = term[lead:], at + lead
        depth = 0
        for ch in term:
            depth += {"(": 1, "[": 1, ")": -1, "]": -1}.get(ch, 0)
            atoms += ch == " " and depth == 0
        text = text[:at] + (f"({term})" if atoms else term) + text[m.end() - 1 :]
    while True:
        less = re.sub(rf"(?<!\w)\(((?:\([^()]*\)|{WORD})(?:\.{WORD})+)\)", r"\1", text)
        if less == text:
            return text
        text = less


def spelled(text, table):
    """A text of specs/ or proofs/."""
    return re.sub(WORD, lambda m: table.get(m[0], m[0]), tight(text))


def imported(text, old, new, table):
    """The pair that adds to today's file what the old pair of imports added, or None where nothing is to be added."""
    names = lambda t: [table.get(n.strip(), n.strip()) for n in t[t.index("{") + 1 :].rstrip("}").split(",") if n.strip()]
    here = set(re.findall(WORD, " ".join(re.findall(r"^use [^\n]*\{([^}]*)\}", text, re.M))))
    more = [n for n in names(new) if n not in names(old) and n not in here]
    if not more:
        return None
    module = re.match(r"use Rattle·(\w+)·specs\.specs\.([\w.]+)\.\{", old)
    start = f"use Rattle.{module[1]}.specs.{module[2]}.{{" if module else PRELUDE
    return start, start + ", ".join(more) + ", "


def main():
    args = [a for a in sys.argv[1:] if a != "--check"]
    check = "--check" in sys.argv[1:]
    table = spelling(args[0] if args else "deb329c")
    left = 0
    for edit in sorted(glob.glob("crates/*/must-fail/*.edit")):
        crate = edit.split("/must-fail/")[0]
        with open(edit, encoding="utf-8") as f:
            lines = f.read().split("\n")
        out, path, old, why, texts = [], None, None, None, {}
        for at, line in enumerate(lines):
            if line.startswith("file: "):
                path = line[6:].strip()
                old = None
                out.append(line)
                if path.endswith("/Proof.antt"):
                    coming = [l[5:] for l in lines[at:] if l.startswith("old: ")]
                    for name in ("Answers.antt", "Invariants.antt"):
                        other = path[: -len("Proof.antt")] + name
                        if os.path.isfile(f"{crate}/{other}"):
                            with open(f"{crate}/{other}", encoding="utf-8") as f:
                                if spelled(coming[0], table) in f.read():
                                    path, out[-1] = other, f"file: {other}"
                if path not in texts:
                    if os.path.isfile(f"{crate}/{path}"):
                        with open(f"{crate}/{path}", encoding="utf-8") as f:
                            texts[path] = f.read()
                    else:
                        why = why or f"there is no {path}"
                        texts[path] = ""
            elif line.startswith("old: "):
                old = line[5:]
            elif line.startswith("new:"):
                new = line[4:].removeprefix(" ")
                if path.endswith(".antt"):
                    if old.startswith("use ") and "{" in old:
                        pair = imported(texts[path], old, new, table)
                        if not pair:
                            old = None
                            continue
                    else:
                        pair = spelled(old, table), spelled(new, table)
                else:
                    pair = old, new
                if texts[path].count(pair[0]) != 1:
                    why = why or f"{path} has {texts[path].count(pair[0])} times: {pair[0]}"
                else:
                    texts[path] = texts[path].replace(*pair)
                out += [f"old: {pair[0]}", f"new: {pair[1]}".rstrip(" ") if not pair[1] else f"new: {pair[1]}"]
                old = None
            else:
                out.append(line)
        if why:
            left += 1
            print(f"left: {edit}: {why}")
        if not check and out != lines:
            with open(edit, "w", encoding="utf-8") as f:
                f.write("\n".join(out))
    print(f"{left} left")


main()
