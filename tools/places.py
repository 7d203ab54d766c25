#!/usr/bin/env python3
"""Counts in crates/*/src how many functions take the same parameters together (docs/DESIGN-PASS.md, point 5)."""
import collections
import glob
import re

TOGETHER = [("out", "at"), ("line", "at"), ("n", "order", "weights"), ("n", "adjacency", "weights"), ("weights", "opens")]


def parameters(text):
    for name, inner in re.findall(r"fn\s+(\w+)[^(]*\(([^)]*)\)", text, re.S):
        yield name, {part.split(":")[0].strip() for part in inner.split(",") if ":" in part}


def main():
    sources = {path: open(path).read() for path in sorted(glob.glob("crates/*/src/*.rt"))}
    for names in TOGETHER:
        found = collections.Counter()
        for path, text in sources.items():
            found[path.split("/")[1]] += sum(set(names) <= have for _, have in parameters(text))
        crates = ", ".join(f"{crate} {count}" for crate, count in sorted(found.items()) if count)
        print(f"{', '.join(names)}: {sum(found.values())} ({crates})")


if __name__ == "__main__":
    main()
