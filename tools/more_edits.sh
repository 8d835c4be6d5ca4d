#!/bin/sh
# Tries the must-fail edits of tools/more_edits, which the gate has no time for: in a copy of the repository whose own
# edits are put aside.
#
#     tools/more_edits.sh [CRATE..]      without names, every crate that has some
#
# Each must be refused, as in the gate; ends with status 1 if one is not. Then says how each was refused.
set -eu
root=$(cd "$(dirname "$0")/.." && pwd)
copy=$(mktemp -d)
trap 'rm -rf "$copy"' EXIT
cp -r "$root/crates" "$root/crates.txt" "$copy"
rm -rf "$copy"/crates/*/must-fail "$copy"/crates/*/out
[ $# -gt 0 ] || set -- $(ls "$root/tools/more_edits")
for crate in "$@"; do
    cp -r "$root/tools/more_edits/$crate" "$copy/crates/$crate/must-fail"
done
cd "$copy"
status=0
rt must-fail "$@" >"$copy/said" 2>&1 || status=1
grep '^rt: \(must-fail\|ok\|FAILED\)' "$copy/said" || status=1
"$root/tools/refusals.py" "$copy/said"
exit $status
