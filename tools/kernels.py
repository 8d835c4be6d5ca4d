"""kernels.py: writes host/kernels/NAME.bin from ../shared/vectors/kernels/NAME.vec, for host/bench.c.

Little-endian, in this order: program base, table base, work base (8 bytes each); budget, reason, count, and the lengths
of program, table and work window (4 each); then bytes: program, table, and twice, before and after, vectors (512),
generals (256), work, control (24, docs/LAYOUT.md).
"""
import glob
import os
import struct

ROOT = os.path.dirname(os.path.dirname(os.path.abspath(__file__)))


def data(token):
    if token == "-":
        return b""
    if token[0] == "x":
        times, digits = token[1:].split(":")
        return bytes.fromhex(digits) * int(times)
    return bytes.fromhex(token)


def control(order, pc, mark, target, msacsr, switch):
    return struct.pack("<QQIHBB", int(pc, 16), int(target, 16), int(msacsr, 16), int(mark), int(switch), int(order))


def main():
    for path in sorted(glob.glob(os.path.join(ROOT, "..", "shared", "vectors", "kernels", "*.vec"))):
        f = {line.split()[0]: line.split()[1:] for line in open(path) if line[1] == " "}
        after = {k: data(f[k.lower()][-1] if f[k] == ["="] else f[k][0]) for k in "VGW"}
        program, table, work = (data(f[k][1]) for k in "ptw")
        out = struct.pack("<3Q", *(int(f[k][0], 16) for k in "ptw"))
        out += struct.pack("<6I", int(f["b"][0]), int(f["="][0]), int(f["="][1]), len(program), len(table), len(work))
        out += program + table
        out += data(f["v"][0]) + data(f["g"][0]) + work + control(f["r"][2], *f["c"])
        out += after["V"] + after["G"] + after["W"] + control(f["r"][2], *f["C"])
        name = os.path.basename(path)[:-4]
        with open(os.path.join(ROOT, "host", "kernels", name + ".bin"), "wb") as to:
            to.write(out)


main()
