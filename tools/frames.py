#!/usr/bin/env python3
"""How much stack the functions of an x86-64 archive can take, read off its machine code.

    tools/frames.py ARCHIVE [OBJDUMP]

Prints a line for each exported function: the bytes below its caller's frame (its return address, its own frame and
those of what it calls), how many of these are its own, and the calls that lead to the deepest byte. Then, further in,
the same of each function that these reach.

It goes every way through the code of each function and counts what is pushed, put aside and touched below the stack
pointer. It ends with status 1 where that would be no bound: a function that calls itself, also through others; a call
through a pointer, or an address of a function that is kept; a stack pointer that is moved by a number that is not in
the code; an instruction that is reached with two depths; a call of what the archive does not have."""
import re
import subprocess
import sys

ADDRESS = 8  # bytes of a return address
SECTION = re.compile(r"^Disassembly of section (.*):$")
FUNCTION = re.compile(r"^([0-9a-f]+) <(.*)>:$")
LINE = re.compile(r"^ *([0-9a-f]+):\t(\S+) *(.*?)(?: +#.*)?$")
MOVED = re.compile(r"^\s*[0-9a-f]+: R_X86_64_\w+\s+(.*?)(?:[+-]0x[0-9a-f]+)?$")
BELOW = re.compile(r"-0x([0-9a-f]+)\(%rsp")
NUMBER = re.compile(r"^(?:\$(-?)0x([0-9a-f]+)|(-?)0x([0-9a-f]+)\(%rsp\)),%rsp$")
PADDING = ("nop", "data16", "cs", "xchg", "int3")


def fail(text):
    sys.exit("frames: " + text)


def dump(objdump, *words):
    return subprocess.run([objdump, *words], capture_output=True, text=True, check=True).stdout.splitlines()


class Function:
    """Its instructions by their place, each with what it names of another function; the bytes that it uses itself;
    and what it calls, with the bytes in use at the call."""

    def __init__(self, name):
        self.name, self.code, self.own, self.calls = name, {}, 0, set()
        self.depths, self.jumps = {}, set()

    def fail(self, at, text):
        fail(f"{self.name}, {at:x}: {text}")

    def follow(self):
        """All ways from its first instruction, and from each that only a jump through a table can reach."""
        places = sorted(self.code)
        self.next = dict(zip(places, places[1:]))
        self.walk(places[0], 0)
        for at in places:
            if at not in self.depths and not self.code[at][0].startswith(PADDING):
                if len(self.jumps) != 1:
                    self.fail(at, "no way leads here that can be followed")
                self.walk(at, min(self.jumps))

    def walk(self, at, depth):
        ways = [(at, depth)]
        while ways:
            at, depth = ways.pop()
            if at not in self.depths:
                self.depths[at] = depth
                ways += self.step(at, depth, *self.code[at])
            elif self.depths[at] != depth:
                self.fail(at, f"reached with {self.depths[at]} bytes in use and with {depth}")

    def step(self, at, depth, what, operands, named):
        """Where an instruction leads, with the bytes that are in use there."""
        for bytes_below in BELOW.findall(operands):
            self.own = max(self.own, depth + int(bytes_below, 16))
        if what in ("ret", "ud2"):
            if what == "ret" and depth != 0:
                self.fail(at, f"returns with {depth} bytes in use")
            return []
        if what == "call":
            if operands.startswith("*"):
                self.fail(at, "a call through a pointer")
            self.calls.add((named or self.name, depth + ADDRESS))
        elif what == "jmp" and operands.startswith("*"):
            self.jumps.add(depth)
            return []
        elif what == "jmp" and named is not None:
            self.calls.add((named, depth))
            return []
        elif what == "jmp":
            return [(int(operands.split()[0], 16), depth)]
        elif what.startswith("j"):
            return [(int(operands.split()[0], 16), depth), (self.next[at], depth)]
        after = self.moved(at, depth, what, operands)
        self.own = max(self.own, after)
        return [(self.next[at], after)]

    def moved(self, at, depth, what, operands):
        """The bytes in use after an instruction."""
        if what == "push":
            return depth + 8
        if what == "pop" and operands != "%rsp":
            return depth - 8
        if not operands.endswith("%rsp") or what in ("cmp", "test"):
            return depth
        by = NUMBER.match(operands)
        if by is None or what not in ("sub", "add", "lea"):
            self.fail(at, f"sets the stack pointer: {what} {operands}")
        size = int(by.group(2) or by.group(4), 16)
        return depth + size if (what == "sub") != bool(by.group(1) or by.group(3)) else depth - size


def functions(archive, objdump):
    """The functions of the archive, each in a section of its own."""
    found, section, here, at = {}, "", None, None
    for line in dump(objdump, "-dr", "--no-show-raw-insn", archive):
        head, start, code, moved = SECTION.match(line), FUNCTION.match(line), LINE.match(line), MOVED.match(line)
        if head:
            section = head.group(1)
        elif start:
            if int(start.group(1), 16) != 0 or section != ".text." + start.group(2):
                fail(f"{start.group(2)} has no section of its own")
            here = found[start.group(2)] = Function(start.group(2))
        elif code:
            at = int(code.group(1), 16)
            here.code[at] = code.group(2), code.group(3), None
        elif moved and not moved.group(1).startswith((".rodata", ".L")):
            what, operands, _ = here.code[at]
            if not what.startswith(("call", "j")):
                here.fail(at, f"takes the address of {moved.group(1)}")
            here.code[at] = what, operands, moved.group(1).removeprefix(".text.")
    return found


def look_at_data(archive, objdump):
    """A place of the code that stands in the data must be in a jump table of its own function."""
    section = ""
    for line in dump(objdump, "-r", archive):
        head = re.match(r"^RELOCATION RECORDS FOR \[(.*)\]:$", line)
        named = re.search(r"\s\.text\.(\S+?)(?:[+-]0x[0-9a-f]+)?$", line)
        if head:
            section = head.group(1)
        elif named and not section.startswith(".text.") and section != ".rodata." + named.group(1):
            fail(f"{section} keeps the address of {named.group(1)}")


def deepest(found, name, above=()):
    """The most bytes in use below the return address of a function, and the calls that lead there."""
    if name in above:
        fail("these call each other: " + " > ".join(above[above.index(name):] + (name,)))
    if name not in found:
        fail(f"{above[-1]} calls {name}, which the archive does not have")
    ways = [(found[name].own, (name,))]
    for callee, used in found[name].calls:
        below, way = deepest(found, callee, above + (name,))
        ways.append((used + below, (name,) + way))
    return max(ways)


def reached(found, name):
    """The functions that a function reaches, without itself."""
    return set().union(*({callee} | reached(found, callee) for callee, _ in found[name].calls))


def line(found, name):
    most, way = deepest(found, name)
    return f"{most + ADDRESS:6} {found[name].own + ADDRESS:6}  {' > '.join(way)}"


def main():
    if len(sys.argv) not in (2, 3):
        sys.exit(__doc__)
    archive, objdump = sys.argv[1], sys.argv[2] if len(sys.argv) == 3 else "objdump"
    found = functions(archive, objdump)
    look_at_data(archive, objdump)
    for function in found.values():
        function.follow()
    exported = sorted(name for name in found if "::" not in name)
    for name in exported:
        print(line(found, name))
    for name in sorted(set().union(*(reached(found, name) for name in exported))):
        print("    " + line(found, name))


main()
