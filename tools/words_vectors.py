#!/usr/bin/env python3
"""Writes crates/words_test/stdin: the cases of decode.txt and encode.txt in shared/vectors/after-2, then of
corners-decode.txt and corners-encode.txt, and cases of our own that are refused; 32 bytes each.

usage: tools/words_vectors.py ../shared/vectors/after-2 > crates/words_test/stdin

byte 0       0 decode, 1 encode, 2 an encode case that no Instr can hold (a format or a number that its field's type
             lacks); 3 to 5 the same of the corners; 7 encode, of our own
bytes 1-4    the word, little-endian (0 where writing is refused)
decode:
byte 5       the length of the word's line
bytes 6-31   the text of the line, and blanks
encode:
byte 5       the number: 0 or 6
byte 6       the class: the place of the variant in isa's Instr
bytes 7-8    the operation's place in the table of operations, little-endian; of a class of one operation too
byte 9       the format: 0 B, 1 H, 2 W, 3 D; 0 where the class has none
bytes 10-12  the registers, in the order of the listing
bytes 13-14  the immediate, index, offset or shift: the field's bits, little-endian

What the manual says of a mnemonic is taken from shared/isa/instructions.tsv, of those of Table 4.7 from left-out.tsv
beside it, and not from crates/ops.
"""
import csv
import os
import re
import struct
import sys

# Format, operands and data formats, where these tell two classes apart, in the order of Instr's variants.
CLASSES = [
    "3R wd,ws,wt ", "3R wd,ws[rt] ", "I5 wd,ws,u5 ", "I5 wd,ws,s5 ", "I10 wd,s10 ", "BIT wd,ws,m ", "I8 wd,ws,i8 B ",
    "I8 wd,ws,i8 BHW ", "ELM wd,ws[n] ", "ELM wd[n],ws[0] ", "ELM rd,ws[n] ", "ELM wd[n],rs ", "ELM wd,ws ",
    "ELM rd,cs ", "ELM cd,rs ", "VEC wd,ws,wt ", "2R wd,rs ", "2R wd,ws ", "MI10 wd,s10(rs) ", "BRANCH wt,s16 BHWD ",
    "BRANCH wt,s16 V ", "SPECIAL rd,rs,rt,sa ", "3RF wd,ws,wt ",
]  # fmt: skip
REGISTERS = {"wd": "$w", "ws": "$w", "wt": "$w", "rd": "$", "rs": "$", "rt": "$", "cd": "$", "cs": "$"}
LIMITS = {"s5": (-16, 16), "s10": (-512, 512), "s16": (-32768, 32768)}  # what a signed field's bits can mean


class Lacks(Exception):
    pass


def place(row):
    """The place of a row's operation, as crates/ops/specs/Places.antt numbers them."""
    minor = int(row["minor_opcode"].replace("df", "00"), 2)
    bits = re.match(r"25\.\.\d+=([01]+)", row["operation_field"])
    code = bits[1] if bits else "0"
    if row["format"] == "ELM":
        return (336 if code.endswith("111110") else 320) + int(code[:4], 2)
    if row["format"] == "VEC":
        return 352 + int(code, 2)
    if row["format"] == "3RF":
        return 384 + (minor - 26) * 16 + int(code, 2)
    if row["format"] == "2R":
        return 432 + int(code[5:], 2)
    if row["format"] == "BRANCH":
        return 440 + int(code[:3], 2)
    if row["format"] == "SPECIAL":
        return 448 + minor
    return minor * 8 + int(code, 2)


def read_rows(path):
    return list(csv.DictReader(open(path), delimiter="\t"))


def table(isa):
    """The manual's rows by mnemonic and by whether the format is V, each with its class and place."""
    rows = {}
    fixed = [row for row in read_rows(os.path.join(isa, "left-out.tsv")) if row["table"] == "4.7"]
    for row in read_rows(os.path.join(isa, "instructions.tsv")) + [dict(row, operands="wd,ws,wt") for row in fixed]:
        said = "{format} {operands} {data_formats} ".format(**row)
        row["class"] = next(k for k, start in enumerate(CLASSES) if said.startswith(start))
        row["place"] = place(row)
        row["fields"] = re.findall(r"[a-z]\w*", row["operands"])
        rows[row["mnemonic"], row["data_formats"] == "V"] = row
    return rows


def row_of(rows, mnemonic, df):
    return rows.get((mnemonic, df == "V")) or rows.get((mnemonic, df != "V"))


def text(row, df, values):
    """The text of a line, by document 01."""

    def shown(field):
        value = values[field[0]]
        if row["format"] == "MI10" and field[0] == "s10":
            value <<= "BHWD".index(df)
        return REGISTERS.get(field[0], "") + str(value + (field[0] == "sa"))

    operands = re.sub(r"[a-z]\w*", shown, row["operands"])
    return row["mnemonic"] + ("" if df == "-" else "." + df) + " " + operands


def immediate(field, value):
    low, high = LIMITS.get(field, (0, 256))
    if not low <= value < high:
        raise Lacks
    return value % (high - low)


def facts(row, df, values):
    """The bytes 6 to 14 of an encode case."""
    widths = row["data_formats"] not in ("B", "V", "-")
    if df not in "BHWD" if widths else df != row["data_formats"]:
        raise Lacks
    registers = [values[f] for f in row["fields"] if f in REGISTERS]
    if not all(0 <= r < 256 for r in registers):
        raise Lacks
    numbers = [immediate(f, values[f]) for f in row["fields"] if f not in REGISTERS]
    a, b, c = (registers + [0, 0])[:3]
    code = "BHWD".index(df) if widths else 0
    return struct.pack("<BHBBBBH", row["class"], row["place"], code, a, b, c, sum(numbers))


def record(kind, word, number, rest=b"", blank=b"\0"):
    return struct.pack("<BIB", kind, word, number) + rest.ljust(26, blank)


def read_values(tokens):
    return {k: int(v) for k, v in (t.split("=") for t in tokens)}


def decode_cases(path, first, rows):
    for t in (line.split() for line in open(path) if line.startswith("D")):
        line = "; " + t[2]
        if t[2] == "0":
            line = text(row_of(rows, t[3], t[4]), t[4], read_values(t[5:]))
        assert len(line) <= 26
        yield record(first, int(t[1], 16), 19 + len(line), line.encode(), b" ")


def encode_cases(path, first, rows):
    for t in (line.split() for line in open(path) if line.startswith("E")):
        word, number = (0, 6) if t[-1] == "6" else (int(t[-1], 16), 0)
        try:
            yield record(first + 1, word, number, facts(row_of(rows, t[1], t[2]), t[2], read_values(t[3:-2])))
        except Lacks:
            assert number == 6
            yield record(first + 2, 0, 6)


def own_cases(rows):
    """Each class of several operations at a place of each other class, at three reserved places, at one of what is left
    out, at the one past the table and at the last; signed fields of one bit more; and MUL_Q in B and D, and with 32 for
    each of its registers."""
    classes = [row["class"] for row in rows.values()]
    places = {row["class"]: row["place"] for row in rows.values()}
    for k in sorted(k for k in places if classes.count(k) > 1):
        others = [places[other] for other in places if other != k]
        for at in others + [15 * 8 + 1, 10 * 8 + 4, 26 * 8, 384, 512, 65535]:
            yield record(7, 0, 6, struct.pack("<BHBBBBH", k, at, 1, 1, 2, 3, 1))
    for mnemonic, imm in (("MAXI_S", 32), ("LDI", 1024), ("LD", 1024)):
        row = rows[mnemonic, False]
        yield record(7, 0, 6, struct.pack("<BHBBBBH", row["class"], row["place"], 1, 1, 2, 3, imm))
    row = rows["MUL_Q", False]
    for df, wd, ws, wt in ((0, 1, 2, 3), (3, 1, 2, 3), (1, 32, 2, 3), (1, 1, 32, 3), (1, 1, 2, 32)):
        yield record(7, 0, 6, struct.pack("<BHBBBBH", row["class"], row["place"], df, wd, ws, wt, 0))


def main():
    rows, out = table(os.path.join(sys.argv[1], "../../isa")), []
    for first, prefix in ((0, ""), (3, "corners-")):
        path = os.path.join(sys.argv[1], prefix)
        out += decode_cases(path + "decode.txt", first, rows)
        out += encode_cases(path + "encode.txt", first, rows)
    out += own_cases(rows)
    sys.stdout.buffer.write(b"".join(out))


main()
