#!/bin/sh
# Compares the matches and groups that the library for C reports with those of RE2, outside the gate:
#     tools/groups.sh [SEARCHES [SEED]]
# It searches for random patterns, alone and in pairs, in short texts, 400,000 times if no number is given, and prints
# the differences, and how many matches and groups were compared. Their first match is sought, unanchored and anchored.
# It needs c++ and libre2-dev, and the library, which `make` in bindings/c builds.
set -eu
tools=$(cd "$(dirname "$0")" && pwd)
room=$(mktemp -d)
trap 'rm -rf "$room"' EXIT
c++ -O2 -std=c++17 -I"$tools/../bindings/c/include" -o "$room/groups" "$tools/compare/groups.cc" \
    "$tools/../bindings/c/out/liblazydfa.a" -lre2
"$room/groups" "$@"
