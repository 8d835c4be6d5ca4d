#!/usr/bin/env python3
"""Makes the data of crates/list, crates/list_long and crates/list_test from ../shared/vectors/after-2/list.txt.

The file's L lines have an address, a word, the line's length and the line.
list_test/stdin has 73 bytes for each: address and word, little-endian, the length, the line with blanks up to 64.
list/stdin has the two words of document 01's example, the words of the same lines, one behind the other, and three bytes more; list/stdout has
the example's two lines as the paper prints them, then the texts at addresses 8, 12, ..
list_long has the file's S case of 16,385 bytes: the bytes, and its T lines.
"""
import os

root = os.path.join(os.path.dirname(os.path.abspath(__file__)), "..")
records = []
words = [bytes.fromhex("4E094278"), bytes.fromhex("C6095178")]
lines = ["00000000: 7842094E ADDV.W $w5,$w1,$w2\n", "00000004: 785109C6 ADDVI.W $w7,$w1,17\n"]
long_bytes, long_lines, inside = b"", [], False
with open(os.path.join(root, "../shared/vectors/after-2/list.txt")) as vectors:
    for row in vectors:
        if row.startswith("L "):
            _, address, word, length, line = row.rstrip("\n").split(" ", 4)
            assert len(line) == int(length)
            little = int(word, 16).to_bytes(4, "little")
            records.append(int(address, 16).to_bytes(4, "little") + little + bytes([int(length)]) + line.encode().ljust(64))
            lines.append("%08X%s\n" % (4 * len(words), line[8:]))
            words.append(little)
        elif row.startswith("S 16385 "):
            long_bytes, inside = bytes.fromhex(row.split()[2]), True
        elif row.startswith("T ") and inside:
            long_lines.append(row[2:])
        elif row == "end\n":
            inside = False
lines.append("; 3 bytes over\n")
files = {
    "list_test/stdin": b"".join(records),
    "list_test/stdout": b"lines: %d of %d agree\n" % (len(records), len(records)),
    "list_long/stdin": long_bytes,
    "list_long/stdout": "".join(long_lines).encode(),
    "list/stdin": b"".join(words) + b"\x4e\x09\x42",
    "list/stdout": "".join(lines).encode(),
}
for name, data in files.items():
    with open(os.path.join(root, "crates", name), "wb") as out:
        out.write(data)
