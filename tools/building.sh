#!/bin/sh
# Measures how long it takes to build NFAs, reversed NFAs and regexes, in a copy of the repository with one more crate:
#     tools/building.sh
# It proves what is not proved yet, and then prints a line for each NFA, as measure/building.in describes.
# BUILDING_COPY names a copy to reuse.
set -eu
top=$(cd "$(dirname "$0")/.." && pwd)
copy=${BUILDING_COPY:-$(mktemp -d)}
(cd "$top" && git ls-files -z | tar -c --null -T -) | tar -x -C "$copy"
for crate in automata_base automata_determinize automata_transform automata_config automata_hybrid \
    regex_automata; do
    if [ -d "$top/crates/$crate/out" ] && [ ! -d "$copy/crates/$crate/out" ]; then
        cp -r "$top/crates/$crate/out" "$copy/crates/$crate/out"
    fi
done
mkdir -p "$copy/crates/building/src"
cp "$top/tools/measure/building.in" "$copy/crates/building/src/main.rt"
echo 'building: regex_automata' >> "$copy/crates.txt"
cd "$copy/crates/building"
rt run --jobs 2 > "$copy/proved" 2>&1 || { cat "$copy/proved"; exit 1; }
out/building
