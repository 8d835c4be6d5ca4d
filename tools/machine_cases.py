#!/usr/bin/env python3
"""Writes crates/machine_test/stdin: the cases of step.txt, run.txt, kernels/*.vec, corners-step.txt and
corners-run.txt, whole, each from the first folder that has it; document 01's edges of a set-up, and accesses about two
windows that stop; a step of each mnemonic and format of ops.txt; control blocks, those outside docs/LAYOUT.md among
them; the cases of VECTORS-DIR/after-6 that name a reason, which have its word and its fact; values for MSACSR; the
big-endian cases of VECTORS-DIR/after-7; loads and stores of each format in both byte orders; and the fixed-point
multiplies of request 2/12 on corners, with one register for two or three, in programs, and with the switch off; and
programs of branches, forward and not, with the budget that is enough (request 10/12) and with less.

usage: tools/machine_cases.py VECTORS-DIR/after-2 VECTORS-DIR > crates/machine_test/stdin

All numbers are little-endian. The cases follow each other, each begun by a byte 1:

the head (112 bytes), the vector registers (513), the general registers (264) and the control block (280) before: kept
    from case to case (zeros at first), and pieces each say what changes
the contents before of program, table and work window: pieces each, put into windows that were filled with the pattern
    of the head
the contents after of vector registers, general registers, control block and work window: pieces each, put into the
    contents before

Pieces: their count (1 byte), and for each its place (2 bytes), its length (1 byte) and its bytes.

The head, by the place of each:
0           group, its place in GROUPS below
1           entry: 0 msa_step, 1 msa_run
2           number of the case in its group (2 bytes)
4           budget (4)
8           the reason (4)
12          the count of a run (4)
16          the address that is missing (8)
24, 32, 40  bases of program, table, work window (8 each)
48 to 68    lengths of vector registers, general registers, control block, program, table, work window (4 each)
72, 76, 80  patterns of program, table, work window (4 each)
84, 88, 92  what stands behind the reason: kind (4), word (4) and fact (8); of a step before it, of a run after it
100, 108    a counter (8), that of the control block before, and what msa_budget answers for it (4)
"""
import functools
import glob
import itertools
import os
import struct
import sys

GROUPS = ["step", "run", "kernels", "corners-step", "corners-run", "edges", "forms", "blocks", "why", "order", "fixed"]
GROUPS += ["forward"]
KERNELS = ["beams", "correlate", "movavg", "peak", "threshold"]
BLOCK = "<QQIHBB"  # program counter, target, MSACSR, slot mark, MSA switch, byte order
ADDV_W = 0x7842094E  # ADDV.W $w5,$w1,$w2
LD_B, ST_B = 0x78000960, 0x78000964  # LD.B $w5,0($1), ST.B $w5,0($1); formats H, W, D: 1, 2, 3 more
CTCMSA = 0x783E0859  # CTCMSA $1,$1: to MSACSR
BZ_V, BNZ_V = 0x45600000, 0x45E00000  # of $w0 and offset 0
ODD = 0xFEDCBA9876543211  # a target that no set-up accepts of a taken mark


def laid(pc=0, mark=0, target=0, csr=0, on=1, order=0):
    """The bytes of a control block."""
    return struct.pack(BLOCK, pc, target, csr, mark, on, order)


def data(token):
    if token == "-":
        return b""
    if token.startswith("x"):
        n, digits = token[1:].split(":")
        return bytes.fromhex(digits) * int(n)
    return bytes.fromhex(token)


def window(text):
    base, token = text.split()
    return int(base, 16), data(token)


def control(text, order):
    pc, mark, target, csr, on = text.split()
    return laid(int(pc, 16), int(mark), int(target, 16), int(csr, 16), int(on), order)


def parsed(path, group):
    fields = {}
    for line in open(path):
        key, _, rest = line.rstrip("\n").partition(" ")
        if key == "end":
            # division by zero as on the boards, and the fixed-point multiplies; neither concerns a word of a kernel
            assert group == "kernels" or fields["r"].split()[:2] == ["1", "1"], fields["case"]
            yield case_of(fields, group)
            fields = {}
        elif key != "#":
            fields[key] = rest


def case_of(f, group):
    name, entry = f["case"].split()
    reason, count = f["="].split()
    order = int(f["r"].split()[2])
    c = {"group": group, "entry": entry, "v": data(f["v"]), "g": data(f["g"])}
    c["c"], c["C"] = control(f["c"], order), control(f["C"], order)
    for k in "ptw":
        c[k + "b"], c[k] = window(f[k])
    for k in "VGW":
        c[k] = c[k.lower()] if f[k] == "=" else data(f[k])
    number = name.partition("-")[2]
    c["number"] = KERNELS.index(number) + 1 if group == "kernels" else int(number)
    c["budget"] = int(f.get("b", "0"))
    c["reason"], c["count"], c["missing"] = int(reason), 0 if count == "-" else int(count), int(f["a"], 16)
    assert "x" not in f or behind(c)[1:] == tuple(int(x, 16) for x in f["x"].split()), f["case"]
    assert not multiplies(c) or c["V"] == multiplied(c["v"], word_at(c)), f["case"]
    return c


def word_at(c, block="c"):
    """The word at the program counter of a control block, and 0 where there is none."""
    at = int.from_bytes(c[block][:8], "little") - c["pb"]
    whole = 0 <= at <= len(c["p"]) - 4 and at % 4 == 0
    return int.from_bytes(c["p"][at : at + 4], "little") if whole else 0


KIND = {11: 1, 12: 2, 13: 2, 14: 2, 15: 2, 16: 3, 17: 4, 18: 4, 19: 5}


def armed(v):
    """The bits of a value for MSACSR that arm a trap."""
    v &= 0x0107FFFF
    return v & 0x20000 or v & v << 5 & 0x1F000


def behind(c):
    """Request 6/12: the kind of the fact, the word and the fact behind the reason of a case, by the machine before a
    step and after a run."""
    block, generals = ("C", "G") if c["entry"] == "run" else ("c", "g")
    reason = c["reason"]
    if reason not in KIND:
        return 0, 0, 0
    if reason == 11:
        return 1, 0, int.from_bytes(c[block][:8], "little")
    w = word_at(c, block)
    x = int.from_bytes(c[generals][8 * (w >> 11 & 31) :][:8], "little")  # rs
    offset = ((w >> 16 & 1023 ^ 512) - 512) << (w & 3)
    facts = {16: 0, 17: c["missing"], 18: (x + offset) % 2**64, 19: armed(x)}
    return KIND[reason], w, facts.get(reason, w)


def edge(number, entry, reason, **given):
    c = {
        "group": "edges", "number": number, "entry": entry, "reason": reason, "count": 0, "missing": 0, "budget": 0,
        "v": bytes((7 * i) % 256 for i in range(512)), "g": bytes(256), "p": struct.pack("<I", ADDV_W), "t": b"",
        "w": bytes(range(16)), "pb": 0, "tb": 0, "wb": 1000, "c": laid(),
    }  # fmt: skip
    c.update(given)
    for k in "vgwc":
        c.setdefault(k.upper(), c[k])
    return c


def added(v):
    words = [struct.unpack_from("<4I", v, 16 * r) for r in (1, 2)]
    return v[:80] + struct.pack("<4I", *((a + b) % 2**32 for a, b in zip(*words))) + v[96:]


def general_1(x):
    """General registers of which $1 is x and the others are zero."""
    return bytes(8) + struct.pack("<Q", x) + bytes(240)


def edges():
    """Document 01, "Sums to check against": the set-up, the loads about a window of 16 bytes, and the budgets of a
    one-word program; then accesses that stop."""
    v = edge(0, "step", 0)["v"]
    done = {"V": added(v), "C": laid(4)}
    n = iter(range(1, 10000))
    for entry in ("step", "run"):
        ran = {"step": {"reason": 0}, "run": {"reason": 20, "count": 1, "budget": 1}}[entry]
        yield edge(next(n), entry, **ran, **done)
        for length in (511, 513):
            yield edge(next(n), entry, 1, v=bytes(length), budget=1)
        yield edge(next(n), entry, **ran, **done, p=struct.pack("<I", ADDV_W) * 65536)
        yield edge(next(n), entry, 2, p=struct.pack("<I", ADDV_W) * 65537, budget=1)
        yield edge(next(n), entry, **ran, V=done["V"], c=laid(csr=0x0107FFFF), C=laid(4, csr=0x0107FFFF))
        yield edge(next(n), entry, 5, c=laid(csr=0x00080000), budget=1)
        for at in (999, 1000, 1001):
            load = {"g": general_1(at), "p": struct.pack("<I", LD_B)}
            if at == 1000:
                yield edge(next(n), entry, **ran, **load, V=v[:80] + bytes(range(16)) + v[96:], C=done["C"])
            else:
                yield edge(next(n), entry, 17, **load, budget=1, missing=999 if at == 999 else 1016)
    yield edge(next(n), "run", 20)
    yield edge(next(n), "run", 20, budget=1, count=1, **done)
    yield edge(next(n), "run", 11, budget=2, count=1, **done)
    for reason, missing, given in stopped_accesses():
        for entry in ("step", "run"):
            yield edge(next(n), entry, reason, missing=missing, budget=1, **given)


def stopped_accesses():
    """Request 3/12: a load and a store at every address about two windows, the table and the work window, those of them
    that stop with 17 or 18. The windows touch, stand at the two ends of memory, or are shorter than an access."""
    layouts = [(0x1000, 24, 0x1018, 20), (0x1014, 24, 0x1000, 20), (2**64 - 24, 24, 0, 20), (0, 24, 2**64 - 20, 20)]
    for table, table_bytes, work, work_bytes in layouts + [(0x1000, 5, 0x1008, 9)]:
        windows = [{base + k for k in range(n)} for base, n in ((table, table_bytes), (work, work_bytes))]
        for at in sorted({(x - k) % 2**64 for w in windows for x in w for k in range(16)}):
            addresses = [(at + k) % 2**64 for k in range(16)]
            whole = [w.issuperset(addresses) for w in windows]
            holding = next((w for w in windows if at in w), {})
            for word in (LD_B, ST_B):
                given = {"p": struct.pack("<I", word), "g": general_1(at), "tb": table, "wb": work}
                given.update(t=bytes(table_bytes), w=bytes(range(work_bytes)))
                if not any(whole):
                    yield 17, next(x for x in addresses if x not in holding), given
                elif word == ST_B and whole[0]:
                    yield 18, 0, given


def common(n, seed):
    """Bytes of no meaning: a linear congruence modulo 2^32, its top bytes."""
    out = bytearray()
    for _ in range(n):
        seed = (1664525 * seed + 1013904223) % 2**32
        out.append(seed >> 24)
    return bytes(out)


def put(file, size, r, digits):
    return file[: size * r] + int(digits, 16).to_bytes(size, "little") + file[size * r + size :]


def forms(path):
    """The first of the eight cases of each mnemonic and format of ops.txt, as a step."""
    lines = [line.split()[1:] for line in open(path) if line.startswith("O ")]
    for number, (word, wd, ws, wt, rs, rt, rd, _, kind, result) in enumerate(lines[::8], 1):
        w = int(word, 16)
        v, g = common(512, 1), bytes(8) + common(248, 2)
        for at, digits in ((6, wd), (11, ws), (16, wt)):
            v = put(v, 16, w >> at & 31, digits)
        places = (11, 16, 6) if w >> 26 else (21, 16, 11)  # LSA and DLSA have major opcode 0
        for at, digits in zip(places, (rs, rt, rd)):
            g = put(g, 8, w >> at & 31, digits)
        after = {"V": put(v, 16, w >> 6 & 31, result)} if kind == "W" else {}
        if kind == "G":
            r = w >> places[2] & 31
            after = {"G": put(g, 8, r, result) if r else g}
        yield edge(number, "step", 0, group="forms", v=v, g=g, p=struct.pack("<I", w), C=laid(4), **after)


# a bit in each place, and the numbers about a byte
NUMBERS = [0, 1, 2, 3, 4] + [1 << k for k in range(3, 16)] + [255, 257, 258, 65535]
# of switch and order as one number, as bytes 22 and 23 have it: these, and each switch of the layout beside more orders
SETTINGS = NUMBERS + [order << 8 | on for order in (2, 3, 128, 255) for on in (0, 1) if order << 8 | on not in NUMBERS]
ACCEPTED = [0, 1, 256, 257]  # those of the layout
# what is answered before 5
EARLIER = [
    (1, {"v": bytes(511)}),
    (1, {"g": bytes(255)}),
    (2, {"pb": 2}),
    (2, {"p": struct.pack("<IH", ADDV_W, 0)}),
    (3, {"wb": 2**64 - 1}),
    (4, {"t": bytes(16), "tb": 1000}),
]


def block_answer(b):
    """What a step of ADDV.W at address 0 answers, where only the control block b can be refused: docs/LAYOUT.md."""
    if len(b) != 24:
        return 5
    pc, target, csr, mark, on, order = struct.unpack(BLOCK, b)
    if pc % 4 or csr & ~0x0107FFFF or mark > 2 or (mark == 2 and target % 4) or on > 1 or order > 1:
        return 5
    return 0 if on else 16


def block_ways(b):
    """The block b for a step, a run of one and a run of none."""
    reason = block_answer(b)
    done = {}
    if reason == 0:
        _, target, csr, mark, _, order = struct.unpack(BLOCK, b)
        done = {"V": added(edge(0, "step", 0)["v"]), "C": laid(target if mark == 2 else 4, csr=csr, order=order)}
    yield edge(0, "step", reason, c=b, **done)
    yield edge(0, "run", 20 if reason == 0 else reason, c=b, budget=1, count=int(reason == 0), **done)
    yield edge(0, "run", 5 if reason == 5 else 20, c=b)


def refused_earlier(b):
    for reason, given in EARLIER:
        for entry in ("step", "run"):
            yield edge(0, entry, reason, c=b, budget=1, **given)


def odd_targets(cases):
    """The first case of each entry, reason and mark that is not taken, with a target beside it, which is not looked at:
    it is kept where nothing was finished, else 0 is written."""
    seen = set()
    for c in cases:
        pc, _, csr, mark, on, order = struct.unpack(BLOCK, c["c"])
        finished = c["count"] > 0 or c["reason"] == 0
        key = c["entry"], c["reason"], finished, mark
        if mark < 2 and key not in seen:
            seen.add(key)
            b = laid(pc, mark, ODD, csr, on, order)
            yield {**c, "c": b, "C": c["C"] if finished else b}


def blocks(cases):
    lengths = [(laid() + bytes(256))[:n] for n in [*range(50), 280]]
    pairs = [(m, s) for m in NUMBERS for s in SETTINGS if m < 3 or s in ACCEPTED or m == s]
    marks = [laid(0, m, ODD if m < 2 else 8, 0x0107FFFF, s & 255, s >> 8) for m, s in pairs]
    others = [laid(pc=2), laid(mark=2, target=10), laid(csr=0x00080000)]
    out = [c for b in lengths + marks + others for c in block_ways(b)]
    outside = [lengths[n] for n in (0, 23, 25)] + [laid(mark=m) for m in (3, 255, 256, 512, 65535)]
    outside += [laid(on=s & 255, order=s >> 8) for s in SETTINGS if s not in ACCEPTED] + others
    out += [c for b in outside for c in refused_earlier(b)]
    # the shared cases have no run from a slot that is not taken to an access outside the windows
    run = {"p": struct.pack("<II", ADDV_W, LD_B), "V": added(edge(0, "step", 0)["v"]), "C": laid(4)}
    return out + [*odd_targets([*cases, edge(0, "run", 17, c=laid(mark=1), budget=2, count=1, **run)])]


def trap_values():
    """CTCMSA of values with every choice of bits 16..12, beside the same, the other, all and no bits of 11..7, with and
    without bit 17 and bits that MSACSR has not."""
    for high in range(32):
        for low in (high, 31 - high, 31, 0):
            for more in (0, 0x20000, 0xFFFFFFFFFEF80000, 0xFFFFFFFFFEFA007F):
                x = high << 12 | low << 7 | more
                given = {"g": general_1(x), "p": struct.pack("<I", CTCMSA)}
                if armed(x):
                    yield edge(0, "step", 19, **given)
                else:
                    yield edge(0, "step", 0, **given, C=laid(4, csr=x & 0x0107FFFF))


def turned(b, size, order):
    """The sixteen bytes of a register, in elements of this size, as memory has them, and back: Table 3.1."""
    return b"".join(b[i : i + size][:: -1 if order else 1] for i in range(0, 16, size))


def accesses():
    """Request 7/12: LD and ST of $w5, each format in both orders, from the table, from and to the work window, at
    addresses that are no multiple of a size, with a negative and a positive offset; as a step and as a run. Then a
    store of $w5 and a load of $w6 at the same address, each format after each."""
    v, t, w = edge(0, "step", 0)["v"], bytes(range(100, 140)), bytes(range(200, 240))
    for order in (0, 1):
        windows = {"t": t, "tb": 0x1000, "w": w, "wb": 0x2000, "c": laid(order=order)}
        for f in range(4):
            stored = turned(v[80:96], 1 << f, order)
            for s10 in (-2, 1):
                for word, at in ((LD_B, 0x1005), (LD_B, 0x2007), (ST_B, 0x2003)):
                    after = {"W": w[:3] + stored + w[19:]}
                    if word == LD_B:
                        found = t[5:21] if at == 0x1005 else w[7:23]
                        after = {"V": v[:80] + turned(found, 1 << f, order) + v[96:]}
                    given = {**windows, **after, "p": struct.pack("<I", word + f | (s10 & 1023) << 16)}
                    given.update(g=general_1(at - (s10 << f)), C=laid(4, order=order))
                    yield edge(0, "step", 0, **given)
                    yield edge(0, "run", 11, budget=2, count=1, **given)
            for g in range(4):
                given = {**windows, "p": struct.pack("<II", ST_B + f, LD_B + g + (1 << 6)), "g": general_1(0x2003)}
                given.update(V=v[:96] + turned(stored, 1 << g, order) + v[112:], W=w[:3] + stored + w[19:])
                yield edge(0, "run", 11, budget=3, count=2, **given, C=laid(8, order=order))


MUL, MADD, MSUB, ROUNDED = 4, 5, 6, 8  # operations of the minor opcode 011100; ROUNDED is added
ELEMENTS = {2: "<8h", 4: "<4i"}  # of a register, by the bytes of one: H, W
FIXED = [(op + rounded, size) for op in (MUL, MADD, MSUB) for rounded in (0, ROUNDED) for size in ELEMENTS]


def fixed_word(operation, size, wd, ws, wt):
    return 0x7800001C | operation << 22 | (size == 4) << 21 | wt << 16 | ws << 11 | wd << 6


def fixed_point(operation, one, d, s, t):
    """Request 2/12: the element that one of the six leaves of d, s and t. Elements count steps, one of them to the
    number 1: the exact result, and half a step more where it is rounded, is floored and clamped once."""
    exact = {MUL: s * t, MADD: d * one + s * t, MSUB: d * one - s * t}[operation & 7]
    if operation & ROUNDED:
        exact += one // 2
    return max(-one, min(exact // one, one - 1))


def multiplied(v, w):
    """The vector registers v after the word w, one of the six."""
    size = 4 if w >> 21 & 1 else 2
    places = [16 * (w >> at & 31) for at in (6, 11, 16)]
    lanes = zip(*(struct.unpack_from(ELEMENTS[size], v, at) for at in places))
    after = [fixed_point(w >> 22 & 15, 1 << 8 * size - 1, *lane) for lane in lanes]
    return v[: places[0]] + struct.pack(ELEMENTS[size], *after) + v[places[0] + 16 :]


def multiplies(c):
    """Whether a case is a finished step of one of the six: no other word of the minor opcode 011100 is finished."""
    return c["entry"] == "step" and c["reason"] == 0 and word_at(c) & 0xFC00003F == 0x7800001C


def corners(size):
    """The elements at the ends and about 0, and those whose product by 1, 3 or -1 is half a step, one and a half, or
    off that by the least there is."""
    one = 1 << 8 * size - 1
    half = one // 2
    return [-one, 1 - one, -half - 1, -half, -1, 0, 1, 3, half - 1, half, half + 1, one - 1]


def packed(size, elements):
    """Registers of these elements, one behind the other."""
    return struct.pack(f"<{len(elements)}{ELEMENTS[size][-1]}", *elements)


def fixed_case(words, v, order):
    """A step of the word, or a run of the words to their end; all are of the six."""
    given = {"v": v, "V": functools.reduce(multiplied, words, v), "c": laid(order=order)}
    given.update(p=struct.pack(f"<{len(words)}I", *words), C=laid(4 * len(words), order=order))
    if len(words) == 1:
        return edge(0, "step", 0, **given)
    return edge(0, "run", 11, budget=len(words) + 1, count=len(words), **given)


def fixed_pairs():
    """Each form on each pair of corners, in $w5 and $w6: MUL_Q and MULR_Q as a step, the others as a run, a word for
    each of the old registers $w0 to $w4, whose elements are all lowest, -1, 0, 1 or highest. The order changes from
    case to case."""
    for operation, size in FIXED:
        each = corners(size)
        olds = packed(size, [x for x in (each[0], -1, 0, 1, each[-1]) for _ in range(16 // size)])
        firsts, seconds = (packed(size, side) for side in zip(*itertools.product(each, each)))
        words = [fixed_word(operation, size, wd, 5, 6) for wd in range(1 if operation & 7 == MUL else 5)]
        for at in range(0, len(firsts), 16):
            v = olds + firsts[at : at + 16] + seconds[at : at + 16] + common(400, 3)
            yield fixed_case(words, v, at // 16 % 2)


def fixed_same_registers():
    """Each form on three registers of corners, as a run of three words: wd, ws and wt are one register, and two of them
    are."""
    for operation, size in FIXED:
        elements = corners(size) * (4 // size)
        v = packed(size, elements) + packed(size, elements[::-1]) + common(416, 4)
        for n, registers in enumerate(((0, 0, 0), (0, 0, 3), (0, 3, 0), (0, 3, 3))):
            yield fixed_case([fixed_word(operation, size, *(r + k for r in registers)) for k in range(3)], v, n % 2)


def fixed_program(size, branch):
    """LD of $w5 and $w6, MADD_Q and MSUBR_Q to $w7, a branch of $w0 over MULR_Q with MUL_Q in its slot, both to $w9,
    and ST of $w7 and $w9: the words, and those of the six that are done where $w0 is zero."""
    access = [size // 2 + (k * 16 // size << 16) for k in range(4)]  # of $w5, 16k behind $1
    loads = [LD_B + access[0], LD_B + access[1] + (1 << 6)]
    sums = [fixed_word(MADD, size, 7, 5, 6), fixed_word(MSUB + ROUNDED, size, 7, 6, 8)]
    products = [fixed_word(MUL, size, 9, 7, 5), fixed_word(MUL + ROUNDED, size, 9, 9, 6)]
    stores = [ST_B + access[2] + (2 << 6), ST_B + access[3] + (4 << 6)]
    return loads + sums + [branch + 2] + products + stores, sums + products[: 1 if branch == BZ_V else 2]


def fixed_programs():
    """The program in each format, the branch taken and not taken, in both orders. It loads from the table and from the
    work window, and stores behind that."""
    for size, order, branch in itertools.product(ELEMENTS, (0, 1), (BZ_V, BNZ_V)):
        words, done = fixed_program(size, branch)
        first, second = (packed(size, corners(size))[part] for part in (slice(16), slice(-16, None)))
        v = bytes(16) + common(496, 6)
        after = functools.reduce(multiplied, done, v[:80] + first + second + v[112:])
        memory = [turned(r, size, order) for r in (first, second, after[112:128], after[144:160])]
        given = {"t": memory[0], "w": memory[1] + bytes(32), "W": b"".join(memory[1:]), "tb": 0x1000, "wb": 0x1010}
        given.update(v=v, V=after, g=general_1(0x1000), c=laid(order=order), C=laid(36, order=order))
        yield edge(0, "run", 11, budget=len(done) + 6, count=len(done) + 5, p=struct.pack("<9I", *words), **given)


def fixed_off():
    """A step of each form with the switch off, beside each mark."""
    for n, (operation, size) in enumerate(FIXED):
        block = laid(mark=n % 3, target=8 if n % 3 == 2 else 0, on=0, order=n // 2 % 2)
        yield edge(0, "step", 16, p=struct.pack("<I", fixed_word(operation, size, 5, 1, 2)), c=block)


def branch_offset(w):
    """The signed offset of a word that is BZ.V, BNZ.V, BZ or BNZ; None of another."""
    if w >> 21 in (0b01000101011, 0b01000101111) or w >> 24 == 0b01000111:
        return (w & 0xFFFF ^ 0x8000) - 0x8000
    return None


def enough(program, base, counter):
    """Request 10/12: what msa_budget answers."""
    if base % 4 or len(program) % 4 or len(program) > 4 * 65536 or base + len(program) > 2**64:
        return 0
    addresses = range(base, base + len(program), 4)
    if counter not in addresses:
        return 1
    offsets = [branch_offset(w) for (w,) in struct.iter_unpack("<I", program)]
    return len(offsets) - addresses.index(counter) + 1 if all(x is None or x >= 1 for x in offsets) else 0


MOVE_V, LSA = 0x78BE18D9, 0x00220005  # MOVE.V $w3,$w3 and LSA $0,$1,$2,1: they change nothing
UNREAD = {0x00000000: 14, 0x7800003F: 12, 0x7800001B: 13}  # NOP, an unassigned MSA word, and one that is left out


def branched(words, base, pc, budget, on):
    """A run of such words and of branches by $w0, which is zero, and $w1, none of whose bytes is: reason, count,
    program counter, mark and target."""
    mark, target = 0, 0
    for count in range(budget):
        at = pc - base
        if not 0 <= at < 4 * len(words):
            return 11, count, pc, mark, target
        w = words[at // 4]
        offset = branch_offset(w)
        reason = UNREAD.get(w) or (15 if offset is not None and mark else 16 if not on and w != LSA else 0)
        if reason:
            return reason, count, pc, mark, target
        after = target if mark == 2 else (pc + 4) % 2**64
        mark, target = 0, 0
        if offset is not None:
            zero = w >> 16 & 31 == 0
            taken = zero == (w >> 21 in (0b01000101011, 0b01000111000, 0b01000111001, 0b01000111010, 0b01000111011))
            mark, target = (2, (pc + 4 + 4 * offset) % 2**64) if taken else (1, 0)
        pc = after
    return 20, budget, pc, mark, target


def branch_programs():
    """Programs of no meaning, of these words and of branches forward; every fourth also has offsets of 0 and less."""
    heads = [op << 21 for op in (0b01000101011, 0b01000101111, *range(0b01000111000, 0b01001000000))]
    for seed in range(160):
        draw = iter(common(400, 100 + seed))
        n = 1 + next(draw) % 24
        words = []
        for _ in range(n):
            kind = next(draw) % 8
            if kind < 3:
                offset = [1, 1, 2, 3, n, 32767][next(draw) % 6]
                if seed % 4 == 0 and next(draw) % 3 == 0:
                    offset = -(next(draw) % 4)
                words.append(heads[next(draw) % 10] | next(draw) % 2 << 16 | offset & 0xFFFF)
            elif kind == 3 and next(draw) % 4 == 0:
                words.append([*UNREAD][next(draw) % 3])
            else:
                words.append(LSA if kind == 4 else MOVE_V)
        yield seed, words


def branches():
    """Each program from some of its words and from its end, where it begins low in memory or ends at 2^64: as runs with
    the budget that is enough, or 99 where there is none, with one less, and with 0."""
    v = bytes(16) + b"\1" * 16 + common(480, 5)
    reached = none = 0
    for seed, words in branch_programs():
        program = struct.pack(f"<{len(words)}I", *words)
        base = 2**64 - len(program) if seed % 2 else 4096 * (seed % 3)
        on = int(seed % 16 != 3)
        for i in sorted({0, len(words) // 2, len(words) - 1, len(words)}):
            pc = (base + 4 * i) % 2**64
            b = enough(program, base, pc) or 99
            for budget in sorted({b, b - 1, 0}):
                reason, count, after, mark, target = branched(words, base, pc, budget, on)
                assert b == 99 or count < b and (budget < b or reason != 20)
                reached += count == len(words) - i > 1 and b != 99
                none += b == 99
                given = {"p": program, "pb": base, "c": laid(pc, on=on), "budget": budget, "count": count, "v": v}
                yield edge(0, "run", reason, **given, C=laid(after, mark, target, on=on) if count else laid(pc, on=on))
    assert reached > 50 and none > 50


def pieces(old, new):
    """What changes old into new; places that stand less than four apart go together."""
    assert len(old) == len(new)
    at = [i for i, (x, y) in enumerate(zip(old, new)) if x != y]
    spans = []
    for i in at:
        if spans and i - spans[-1][1] < 4 and i - spans[-1][0] < 255:
            spans[-1][1] = i + 1
        else:
            spans.append([i, i + 1])
    return bytes([len(spans)]) + b"".join(struct.pack("<HB", a, e - a) + new[a:e] for a, e in spans)


def pattern(b):
    """The four bytes that a window is filled with: its first four where it is long."""
    return b[:4] if len(b) > 8192 else bytes(4)


def filled(b):
    return (pattern(b) * (len(b) // 4 + 1))[: len(b)]


def head(c):
    h = struct.pack("<BBHI", GROUPS.index(c["group"]), c["entry"] == "run", c["number"], c["budget"])
    h += struct.pack("<IIQ", c["reason"], c["count"], c["missing"])
    h += struct.pack("<QQQ", c["pb"], c["tb"], c["wb"])
    h += struct.pack("<6I", *(len(c[k]) for k in "vgcptw")) + b"".join(pattern(c[k]) for k in "ptw")
    counter = int.from_bytes(c["c"][:8], "little")
    return h + struct.pack("<IIQQI", *behind(c), counter, enough(c["p"], c["pb"], counter))


def record(c, kept):
    """The bytes of the case; kept has what is kept from case to case."""
    assert all(len(c[k]) <= 1048577 for k in "ptw")  # what the program holds
    now = [head(c)] + [c[k] + old[len(c[k]) :] for k, old in zip("vgc", kept[1:])]
    out = b"\1" + b"".join(pieces(old, new) for old, new in zip(kept, now))
    out += b"".join(pieces(filled(c[k]), c[k]) for k in "ptw")
    return out + b"".join(pieces(c[k], c[k.upper()]) for k in "vgcw"), now


def newest(name):
    """The files of that name in the first folder that has any."""
    return next(filter(None, (sorted(glob.glob(os.path.join(folder, name))) for folder in sys.argv[1:])))


def numbered(group, cases):
    return [{**c, "group": group, "number": n} for n, c in enumerate(cases, 1)]


def main():
    cases = []
    for group, name in zip(GROUPS, ["step.txt", "run.txt", "kernels/*.vec", "corners-step.txt", "corners-run.txt"]):
        for path in newest(name):
            cases += parsed(path, group)
    cases += edges()
    cases += forms(*newest("ops.txt"))
    shared = parsed(os.path.join(sys.argv[-1], "after-6", "step.txt"), "why")
    cases += numbered("why", [*(c for c in shared if c["reason"]), *trap_values()])
    shared = [os.path.join(sys.argv[-1], "after-7", name) for name in ("step.txt", "run.txt")]
    cases += numbered("order", [*(c for path in shared for c in parsed(path, "order") if c["c"][23]), *accesses()])
    cases += numbered("blocks", blocks(cases))
    cases += numbered("fixed", [*fixed_pairs(), *fixed_same_registers(), *fixed_programs(), *fixed_off()])
    cases += numbered("forward", branches())
    kept = [bytes(n) for n in (112, 513, 264, 280)]
    for c in cases:
        text, kept = record(c, kept)
        sys.stdout.buffer.write(text)


main()
