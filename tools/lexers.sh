#!/bin/sh
# Compares the tokens of crates/lexer with those that Python's re finds, in a copy of the repository, outside the gate:
#     tools/lexers.sh [CASES [SEED]]
# It makes random rules, with repetitions of both kinds, alternatives and assertions, and short texts, 400 if no number
# is given. A difference is printed, and then the status is not 0.
set -eu
top=$(cd "$(dirname "$0")/.." && pwd)
copy=$(mktemp -d)
trap 'rm -rf "$copy"' EXIT
(cd "$top" && git ls-files -z | tar -c --null -T -) | tar -x -C "$copy"
python3 "$top/tools/compare/lexers.py" "${1:-400}" "${2:-1}" > "$copy/crates/lexer/src/tests.rt"
cd "$copy/crates/lexer"
rt try --test
