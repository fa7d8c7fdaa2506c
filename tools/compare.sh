#!/bin/sh
# Compares the library with a slow model in Python, in a copy of the repository, outside the gate:
#     tools/compare.sh [NFAS [SEED]]
# The program `lazydfa` answers a script over this many random NFAs. From each NFA `build_from_nfa` builds two regexes,
# which get random requests. The replies must equal those that compare/model.py finds by following the paths of the NFA
# one by one. It prints how many replies it compared, and the shortest part of the script with a wrong one. Nothing is
# proved: the program runs under a sanitizer.
set -eu
nfas=${1:-3000}
seed=${2:-1}
tools=$(cd "$(dirname "$0")" && pwd)
copy=$(mktemp -d)
trap 'rm -rf "$copy"' EXIT
(cd "$tools/.." && git ls-files -z | tar -c --null -T -) | tar -x -C "$copy"
python3 -B "$tools/compare/compare.py" ask "$nfas" "$seed" > "$copy/asked"
(cd "$copy/crates/lazydfa" && rt try --seconds 86400 < "$copy/asked" > "$copy/answered") ||
    { tail -n 1 "$copy/answered"; exit 1; }
python3 -B "$tools/compare/compare.py" check "$nfas" "$seed" < "$copy/answered"
