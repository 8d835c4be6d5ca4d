"""assemble.py FILE.s..: writes FILE.hex (a word a line), FILE.words (the words as little-endian bytes, what `list`
reads) and FILE.lst (the listing, base 0) beside each source.
assemble.py --check DIR: assembles each DIR/*.s and compares with the DIR/*.hex that stands there.

The words come from the encoding tables ../shared/isa/instructions.tsv and, for request 2/12's Table 4.7, left-out.tsv
beside it: format, minor opcode, operation field. A source line is `label:` or `mnemonic operands`, `#` begins a
comment; a branch names its label.
"""
import csv
import glob
import os
import re
import sys

ROOT = os.path.dirname(os.path.dirname(os.path.abspath(__file__)))
ISA = os.path.join(ROOT, "..", "shared", "isa")
FORMATS = "BHWD"
# where a field of a name stands, by format where it differs
PLACES = {"wd": 6, "ws": 11, "wt": 16, "rd": 6, "cd": 6, "rs": 11, "cs": 11, "rt": 16, "u5": 16, "s5": 16, "i8": 16}


def listed(name):
    with open(os.path.join(ISA, name), newline="") as f:
        return list(csv.DictReader(f, delimiter="\t"))


def rows():
    # left-out.tsv does not name the operands
    fixed = [{**r, "operands": "wd,ws,wt"} for r in listed("left-out.tsv") if r["table"] == "4.7"]
    table = {}
    for r in listed("instructions.tsv") + fixed:
        table.setdefault(r["mnemonic"], []).append(r)
    return table


def set_bits(word, text, df):
    """the operation field: `25..23=011`, several parted by `;`"""
    for part in text.split(";"):
        m = re.match(r"(\d+)\.\.(\d+)=(.*)", part)
        if m:
            bits = df if m[3] == "df" else int(m[3], 2)
            word |= bits << int(m[2])
    return word


def values(pattern, text):
    """the operands by name; $w5, $5 and plain numbers all give their number"""
    names = re.findall(r"[a-z]\w*", pattern)
    numbers = re.findall(r"-?(?:0x[0-9a-f]+|\d+)", text.replace("$w", " ").replace("$", " "))
    if "ws[0]" in pattern:  # INSVE: a zero that is no field
        numbers = numbers[:-1]
    if len(names) != len(numbers):
        raise ValueError(f"operands {pattern}: {text}")
    return dict(zip(names, (int(x, 0) for x in numbers)))


def encode(table, mnemonic, operands):
    name, _, dot = mnemonic.upper().partition(".")
    row = next(r for r in table[name] if (dot or "-") in (r["data_formats"] if dot != "V" else r["data_formats"][:1]))
    df = FORMATS.find(dot) if dot in FORMATS and dot else 0
    f = values(row["operands"], operands)
    kind = row["format"]
    if kind == "SPECIAL":
        return f["rs"] << 21 | f["rt"] << 16 | f["rd"] << 11 | f["sa"] - 1 << 6 | int(row["minor_opcode"], 2)
    if kind == "BRANCH":
        word = set_bits(0b010001 << 26, row["operation_field"], df)
        return word | (df << 21 if dot != "V" else 0) | f["wt"] << 16 | f["s16"] & 0xFFFF
    word = 0b011110 << 26
    if kind == "MI10":
        offset = f.pop("s10")
        if offset % (1 << df):
            raise ValueError("offset")
        word |= (offset >> df & 0x3FF) << 16 | f["rs"] << 11 | f["wd"] << 6
        return word | int(row["minor_opcode"][:4], 2) << 2 | df
    word = set_bits(word | int(row["minor_opcode"], 2), row["operation_field"], df)
    if kind in ("3R", "I5", "I10"):
        word |= df << 21
    elif kind == "3RF":
        word |= row["data_formats"].index(dot) << 21
    elif kind == "2R":
        word |= df << 16
    elif kind == "ELM" and "n" in f:
        word |= [0, 0b100000, 0b110000, 0b111000][df] << 16 | f.pop("n") << 16
    elif kind == "BIT":
        word |= [0b1110000, 0b1100000, 0b1000000, 0][df] << 16 | f.pop("m") << 16
    if "s10" in f:
        word |= (f.pop("s10") & 0x3FF) << 11
    for field, x in f.items():
        word |= (x & (0xFF if field == "i8" else 0x1F)) << PLACES[field]
    return word


def assemble(path):
    table, lines, labels = rows(), [], {}
    for line in open(path):
        line = line.split("#")[0].strip()
        if line.endswith(":"):
            labels[line[:-1]] = len(lines)
        elif line:
            lines.append(line.split(None, 1))
    out = []
    for i, (mnemonic, operands) in enumerate(lines):
        first, _, last = operands.replace(" ", "").rpartition(",")
        text = f"{first},{labels[last] - i - 1}" if last in labels else operands.replace(" ", "")
        out.append((encode(table, mnemonic, text), f"{mnemonic.upper()} {text}"))
    return out


def main(names):
    if names[:1] == ["--check"]:
        for path in sorted(glob.glob(names[1] + "/*.s")):
            words = [f"{w:08X}" for w, _ in assemble(path)]
            agree = words == open(path[:-2] + ".hex").read().split()
            print(f"{os.path.basename(path)}: {len(words)} words {'agree' if agree else 'DIFFER'}")
        return
    for path in names:
        code = assemble(path)
        with open(path[:-2] + ".hex", "w") as f:
            f.writelines(f"{w:08X}\n" for w, _ in code)
        with open(path[:-2] + ".words", "wb") as f:
            f.writelines(w.to_bytes(4, "little") for w, _ in code)
        with open(path[:-2] + ".lst", "w") as f:
            f.writelines(f"{4 * i:08X}: {w:08X} {text}\n" for i, (w, text) in enumerate(code))


main(sys.argv[1:])
