#!/usr/bin/env python3
"""Holds docs/PROMISES.md and docs/READING.md to the repository: every public function of the library crates, which is
what another crate calls, or C, or a program in Rattle (ENTRIES), has a line with two wrong answers or more, each of
which is an edit of its crate, in the gate (crates/NAME/must-fail) or by hand (tools/more_edits/NAME) as the line says;
every edit is named; every theorem and every path named is there. And every public contract leaves one answer: it is an
equation for the answer and for each buffer lent for writing, or a record of which UNIQUE names the theorem; the
exceptions are those that PROMISES lists under "leaves no one answer".
Prints what is missing; ends with status 1 if anything is."""
import glob
import os
import re
import sys

root = os.path.join(os.path.dirname(os.path.abspath(__file__)), "..")
os.chdir(root)
missing = []
promises = open("docs/PROMISES.md").read()

gate = {p.split("/")[1] + "/" + os.path.basename(p)[:-5] for p in glob.glob("crates/*/must-fail/*.edit")}
by_hand = {p.split("/")[2] + "/" + os.path.basename(p)[:-5] for p in glob.glob("tools/more_edits/*/*.edit")}
both = gate & by_hand
missing += ["in the gate and by hand: " + label for label in sorted(both)]
named = set(re.findall(r"`(\w+/\w+)`", promises))
lines = set()
table = promises.split("## Public functions")[1].split("**The statements themselves**")[0]
for row in re.findall(r"(?m)^\| `([\w:]+)` \|(.*)\|(.*)\|(.*)\|$", table):
    function, _, in_gate, hand = row
    crate = function.split("::")[0]
    lines.add(function)
    here = [(crate + "/" + label, gate) for label in re.findall(r"`(\w+)`", in_gate)] + [(crate + "/" + label, by_hand) for label in re.findall(r"`(\w+)`", hand)]
    missing += ["label without an edit there: " + label for label, edits in here if label not in edits]
    if len(here) < 2:
        missing.append("fewer than two wrong answers: " + function)
    named |= {label for label, _ in here}
missing += ["edit without a line: " + label for label in sorted((gate | by_hand) - named)]
missing += ["label without an edit: " + label for label in sorted(named - gate - by_hand) if os.path.isdir("crates/" + label.split("/")[0] + "/src") and not os.path.exists("crates/" + label)]

# a record that a contract may be, and the theorem that two answers which meet it are one
UNIQUE = {
    "Checks": "one-setup", "Each1": "one_word", "Each2": "one_word", "Each3": "one_word", "Element": "one-element",
    "Fetches": "one-fetched", "Holds": "one-register", "Lanes": "one_word", "ListedIs": "one-listed",
    "Lists": "line-unique", "Puts": "put-unique", "Reads": "read-unique", "ReadsTo": "one-read", "RunIs": "one-run",
    "RunsTo": "one-run", "StepIs": "one-advance", "StepsTo": "one-step", "WholeIs": "one-step", "WhyIs": "one-why",
    "Writes": "write-unique",
}


def open_ends(signature):
    """What a contract leaves open: the answer, and the name of each buffer lent for writing."""
    head = re.split(r"\n\s+(?:requires|ensures)", signature)[0]
    left = set(re.findall(r"(\w+): &(?:'\w+ )?mut", head)) | ({"result"} if "->" in head else set())
    for fact in re.findall(r"ensures(?: \w+)? \{\s*(.*?)\s*\}\s*(?=\n\s*(?:ensures|requires)|$)", signature, re.S):
        record = re.match(r"(?:\w+\.)?([A-Z]\w+) ", fact)
        if record and record.group(1) in UNIQUE:
            left -= {"result"} if re.search(r"(?<![\w.])result(?!\w)", fact) else set()
            left -= {b for b in left if "%s.new" % b in fact}
        elif re.match(r"(?:\(?let .* in\s+|\(?(?:\([^→]*\) → )?)result ≡ ", fact, re.S):
            left.discard("result")
        left -= {b for b in left if re.match(r"%s\.new\s+≡ " % b, fact)}
    return left


def ungrouped(code):
    """The code with a `use` line for each name of a group."""
    def lines(found):
        return "\n".join("use %s::%s;" % (found.group(1), name.strip()) for name in found.group(2).split(","))
    return re.sub(r"(?m)^use ([\w:]+)::\{([^{}]*)\};", lines, code)


def is_called(function, crate_uses):
    """Whether the text of some other crate names the function: by its whole path, by a name that a `use` line brings
    in, or by its module's."""
    crate, name = function.split("::")[0], function.split("::")[-1]
    module = function.rsplit("::", 1)[0]
    for other, code in crate_uses:
        if other == crate:
            continue
        ways = [re.escape(function)]
        brought = r"(?m)^use (%s|%s::\*);" % (re.escape(function), re.escape(module))
        if re.search(brought, code):
            ways.append(name)
        if re.search(r"(?m)^use %s;" % re.escape(module), code):
            ways.append(module.split("::")[-1] + "::" + name)
        if any(re.search(r"(?<![\w:])%s\(" % way, code) for way in ways):
            return True
    return False


ENTRIES = {"lent::step"}
functions = set()
exceptions = set(re.findall(r"`([\w:]+)`", (re.findall(r"leaves no one answer: (.*)", promises) + [""])[0]))
paths = sorted(glob.glob("crates/*/src/*.rt"))
sources = [(path.split("/")[1], os.path.basename(path)[:-3], open(path).read()) for path in paths]
codes = [(crate, ungrouped(re.sub(r"(?m)^\s*(?://|ghost ).*", "", text))) for crate, _, text in sources]
libraries = {crate for crate, name, _ in sources if name == "lib"}
for crate, name, text in sources:
    if crate not in libraries:
        continue
    path = crate if name == "lib" else crate + "::" + name
    apart = re.sub(r"(?m) \{$", "\n{", text)
    for outside, f, signature in re.findall(r'(?ms)^pub (extern "C" )?fn (\w+)(.*?)^\{', apart):
        if not outside and path + "::" + f not in ENTRIES and not is_called(path + "::" + f, codes):
            continue
        functions.add(path + "::" + f)
        if path + "::" + f in exceptions:
            continue
        missing += ["contract of %s::%s leaves open: %s" % (path, f, what) for what in sorted(open_ends(signature))]
        if "ensures" not in signature:
            missing.append("no promise: %s::%s" % (path, f))
missing += ["exception that is no public function: " + f for f in sorted(exceptions - functions)]
missing += ["public function without a line: " + f for f in sorted(functions - lines)]
missing += ["line without a public function: " + f for f in sorted(lines - functions)]

proofs = "\n".join(open(p).read() for p in glob.glob("crates/*/proofs/**/*.antt", recursive=True))
for name in sorted(set(UNIQUE.values())):
    if not re.search(r"(?m)^pub %s :" % name, proofs):
        missing.append("no theorem " + name)
for page in ["docs/PROMISES.md", "docs/READING.md"]:
    for name in set(re.findall(r"`([a-z]+(?:-[a-z]+)+)`", open(page).read())):
        if not re.search(r"(?m)^\s*(pub )?%s :" % re.escape(name), proofs):
            missing.append("%s: no theorem %s" % (page, name))
for page in ["README.md"] + [p for p in glob.glob("docs/*.md") if p != "docs/PORT.md"]:
    for path in set(re.findall(r"`((?:crates/|docs/|host/|include/|tools/)?[\w/]+\.(?:antt|rt|md|py|sh|h|c|s|lst|words|hex|txt))`", open(page).read())):
        found = os.path.exists(path) or os.path.exists("crates/" + path) or glob.glob("**/" + path, recursive=True)
        if not found:
            missing.append("%s: no file %s" % (page, path))
print("\n".join(missing) or "nothing is missing")
sys.exit(bool(missing))
