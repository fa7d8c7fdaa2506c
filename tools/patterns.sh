#!/bin/sh
# Compares what `Pattern` and `RegexSet` of `patterns` find with what the kit's regex crate finds, in a copy of the
# repository with one more crate, outside the gate:
#     tools/patterns.sh
# It begins with the rows of the kit's own tests. Then ten thousand patterns, alone and in pairs, are searched for in
# random bytes and in texts that are not ASCII: for a match and for its end alone, from every offset, for all matches,
# and for which patterns match. It prints the differences, and how many searches there were. Nothing is proved: the
# program runs under a sanitizer.
set -eu
tools=$(cd "$(dirname "$0")" && pwd)
copy=$(mktemp -d)
trap 'rm -rf "$copy"' EXIT
(cd "$tools/.." && git ls-files -z | tar -c --null -T -) | tar -x -C "$copy"
mkdir -p "$copy/crates/compared/src"
cp "$tools/compare/patterns.in" "$copy/crates/compared/src/main.rt"
echo 'compared: patterns regex regex_automata anyhow' >> "$copy/crates.txt"
cd "$copy/crates/compared"
rt try --seconds 86400
