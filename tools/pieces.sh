#!/bin/sh
# Compares the results of searches and walks in pieces with those of searches of the whole haystack, in a copy of the
# repository with one more crate, outside the gate:
#     tools/pieces.sh [SEED]
# 3,000 random NFAs get six haystacks each, which arrive in pieces of random lengths. Between calls the cache serves
# other searches, is reset, or is replaced by another one; and the result is requested, as if the haystack ended there
# and as if it continued: of a search its match, of a walk all matches so far, and the set of their patterns. It prints
# how many results there were, and how many differ. Nothing is proved: the program runs under a sanitizer.
set -eu
tools=$(cd "$(dirname "$0")" && pwd)
copy=$(mktemp -d)
trap 'rm -rf "$copy"' EXIT
(cd "$tools/.." && git ls-files -z | tar -c --null -T -) | tar -x -C "$copy"
mkdir -p "$copy/crates/compared/src"
cp "$tools/compare/pieces.in" "$copy/crates/compared/src/main.rt"
echo 'compared: regex_automata' >> "$copy/crates.txt"
cd "$copy/crates/compared"
rt try --seconds 86400 -- "${1:-1}"
