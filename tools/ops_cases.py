#!/usr/bin/env python3
"""Writes crates/ops_test/stdin: the cases of each FILE (lines of the form of shared/vectors/ops.txt), a part a file.

usage: tools/ops_cases.py crates/ops_test/stdin VECTORS-DIR/after-2/ops.txt VECTORS-DIR/after-2/corners-ops.txt
           tools/examples.txt

A part: the number of its cases, 8 bytes, and the cases, 100 bytes each, little-endian:

bytes 0-3    the word
bytes 4-9    the numbers of wd, ws, wt, rs, rt, rd
byte 10      0: the result is wd, 1: it is rd
byte 11      zero
bytes 12-59  the values of wd, ws, wt before, 16 bytes each
bytes 60-83  the values of rs, rt, rd before, 8 bytes each
bytes 84-99  the result
"""
import sys


def number(text, size):
    return int(text, 16).to_bytes(size, "little")


def registers(word):
    """The registers that the word's bits name, as the head of ops.txt says."""
    low = [word >> at & 31 for at in (6, 11, 16)]
    rs, rd = (21, 11) if word >> 26 == 0 else (11, 6)
    return bytes(low + [word >> at & 31 for at in (rs, 16, rd)])


def cases(name):
    for line in open(name):
        part = line.split()
        if part[:1] != ["O"]:
            continue
        word, wd, ws, wt, rs, rt, rd, arrow, kind, result = part[1:]
        assert arrow == "->" and kind in ("W", "G"), line
        head = number(word, 4) + registers(int(word, 16)) + bytes([kind == "G", 0])
        vectors = b"".join(number(x, 16) for x in (wd, ws, wt))
        yield head + vectors + b"".join(number(x, 8) for x in (rs, rt, rd)) + number(result, 16)


with open(sys.argv[1], "wb") as out:
    for name in sys.argv[2:]:
        part = list(cases(name))
        out.write(len(part).to_bytes(8, "little") + b"".join(part))
        print(name, len(part), "cases")
