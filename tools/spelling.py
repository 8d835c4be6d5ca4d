#!/usr/bin/env python3
"""Brings the names of definitions and lemmas to snake case: in the Rattle and antt files, in the edits and in the pages.

usage: tools/spelling.py [--list] [--write]            at the top of the checkout

Taken are the names that stand in an antt file or a clause and have a capital after a small first letter. Functions of
src/, C names, strings, inputs and outputs have none and stay. Names that
fall together are printed; with --write the files are written.
"""

import os
import re
import sys

WORD = re.compile(r"(?<![A-Za-z0-9_'])(?!b'.')[a-z][\w']*[A-Z][\w']*")
# A lemma that would have the new name of a definition that it uses.
FIRST = {"crates/words/proofs/WriteRead.antt": [("width_code", "width_back")]}


def files(*ends):
    for top in ("crates", "docs", "tools", "README.md"):
        if os.path.isfile(top):
            yield top
        for folder, dirs, names in os.walk(top):
            dirs[:] = sorted(d for d in dirs if d != "out")
            for name in sorted(names):
                if name.endswith(ends):
                    yield os.path.join(folder, name)


def read(path):
    with open(path, encoding="utf-8") as f:
        return f.read()


def snake(name):
    out = re.sub(r"(?<=[a-z0-9'])([A-Z])", lambda m: "_" + m.group(1).lower(), name)
    return re.sub(r"[A-Z]", lambda m: m.group(0).lower(), out)


def plain(text):
    return re.sub(r"(--|//).*", "", text)


def statement(path, text):
    """The name by which the proof of a function is found: the function's, with _spec."""
    name = os.path.basename(os.path.dirname(path))
    old = "(?:%s|%s)-spec" % (re.escape(name), re.escape(name.replace("_", "-")))
    return re.sub(r"(?<![\w'-])%s(?![\w'-])" % old, name + "_spec", text)


def main():
    texts = {p: read(p) for p in files(".antt", ".rt", ".edit", ".md")}
    found = set()
    for path, text in texts.items():
        if not path.endswith((".antt", ".rt")):
            continue
        found |= set(WORD.findall(plain(text)))
    names = {n: snake(n) for n in found}
    clash = []
    for path, text in texts.items():
        if path.endswith(".antt"):
            body = plain(text)
            words = set(re.findall(r"(?<![\w'.-])[a-z_][\w']*(?![\w'-])", body))
            clash += [(path, n, names[n]) for n in sorted(set(WORD.findall(body))) if names[n] in words]
    back = {}
    for n, t in names.items():
        back.setdefault(t, []).append(n)
    twice = sorted(v for v in back.values() if len(v) > 1)
    for path, n, t in clash:
        print(f"stands already in {path}: {n} -> {t}")
    for v in twice:
        print("fall together:", *v)
    if "--list" in sys.argv:
        for n in sorted(names):
            print(n, names[n])
    if "--write" not in sys.argv:
        return
    for path, text in texts.items():
        new = text
        for old, name in FIRST.get(path, []):
            new = re.sub(r"\b%s\b" % old, name, new)
        new = WORD.sub(lambda m: names.get(m.group(0), m.group(0)), new)
        if path.endswith("/Proof.antt"):
            new = statement(path, new)
        if new != text:
            with open(path, "w", encoding="utf-8") as f:
                f.write(new)


main()
