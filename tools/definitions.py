#!/usr/bin/env python3
"""Prints the table of definitions for docs/TRUST.md: for each crate its files in specs/, with their lines without comments, imports and blanks."""
import os
import re

root = os.path.join(os.path.dirname(os.path.abspath(__file__)), "..")


def lines(path):
    with open(path) as text:
        return sum(1 for row in text if row.strip() and not row.lstrip().startswith(("--", "use ")))


crates = [m.group(1) for m in (re.match(r"(\w+):", row) for row in open(os.path.join(root, "crates.txt"))) if m]
total = 0
print("| Crate | Definitions, lines without comments and imports |\n|---|---|")
for crate in crates:
    folder = os.path.join(root, "crates", crate, "specs")
    files = sorted(f for f in os.listdir(folder) if f != "Lib.antt") if os.path.isdir(folder) else []
    counts = [(f[:-5], lines(os.path.join(folder, f))) for f in files]
    total += sum(n for _, n in counts)
    if counts:
        print("| `%s` | %s |" % (crate, ", ".join("%s %d" % c for c in counts)))
print("\n%d lines in all." % total)
