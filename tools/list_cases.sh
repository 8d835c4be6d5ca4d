#!/bin/sh
# Runs the S cases of ../shared/vectors/after-2/list.txt through target/bin/list, whole and in pieces, and counts how
# many agree.
cd "$(dirname "$0")/.." || exit 1
python3 - "$@" <<'P'
import subprocess, sys
cases, now = [], None
for row in open("../shared/vectors/after-2/list.txt"):
    row = row.rstrip("\n")
    if row.startswith("S "):
        now = (b"" if row.split()[2] == "-" else bytes.fromhex(row.split()[2]), [])
        cases.append(now)
    elif row.startswith("T "):
        now[1].append(row[2:])
    elif row == "end":
        now = None
run = sys.argv[1:] or ["target/bin/list"]
good = 0
for data, lines in cases:
    want = "".join(line + "\n" for line in lines).encode()
    whole = subprocess.run(run, input=data, stdout=subprocess.PIPE).stdout
    pieces = subprocess.Popen(run, stdin=subprocess.PIPE, stdout=subprocess.PIPE)
    if len(data) < 100:
        for byte in data:
            pieces.stdin.write(bytes([byte]))
            pieces.stdin.flush()
        slow = pieces.communicate()[0]
    else:
        slow = pieces.communicate(data)[0]
    good += whole == want and slow == want
print(good, "of", len(cases), "agree")
P
