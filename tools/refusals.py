#!/usr/bin/env python3
"""How each must-fail edit was refused: reads what `rt must-fail` or `rt ci` printed and says, for every edit, what its
first error (or, in a function that Rattle proves by itself, the first note) begins with, and then how many there are of
each kind.

    tools/refusals.py FILE      FILE: what one of these commands printed"""
import collections
import re
import sys

KINDS = [
    ("terms differ", r"differ|two (values|sides|types) are|but this has type|lands at index"),
    ("omega: does not follow", r"`omega`: the (goal|part \S+ of the goal) does not follow"),
    ("equation left over", r"what it leaves must be a path|goal `⊥`"),
    ("ensures not proved", r"it is not proved that"),
    ("search finds no proof", r"`search`: no proof"),
    ("cc gives up", r"`cc` met a bound|`cc`: "),
    ("rw finds nothing", r"`rw`: no occurrence"),
]


def kind(text):
    found = [(m.start(), name) for name, pattern in KINDS for m in [re.search(pattern, text)] if m]
    return min(found)[1] if found else "another"


SAID = re.compile(r"^rt: must-fail (\w+/\w+)\.edit: refused, as it must be(?: \(.*?\))?: (.*)$")
count = collections.Counter()
with open(sys.argv[1]) as said:
    for line in said:
        found = SAID.match(line.rstrip("\n"))
        if found:
            count[kind(found.group(2))] += 1
            print("%s: %s: %s" % (found.group(1), kind(found.group(2)), found.group(2)))
for name, n in count.most_common():
    print("%4d  %s" % (n, name))
