#!/bin/sh
# Copies the library into a repository of your own, and begins a program there:
#     tools/vendor.sh [--proved] FOLDER [PROGRAM]
# FOLDER gets the library's crates and their lines of crates.txt, in place of those with the same names that it has:
# called again from a later state of this repository, it copies that state. PROGRAM is a copy of the example words,
# unless FOLDER has such a crate already.
#
# With --proved it also copies what `rt lib`, `rt check` or `rt run` proved of the library here (some 3 GB), so that
# your first check proves your program alone. rt accepts these if they belong to the same kit and the same sources, and
# otherwise proves the library itself.
set -eu
proved=
[ "${1-}" != --proved ] || { proved=yes; shift; }
[ "$#" -ge 1 ] || { echo 'usage: tools/vendor.sh [--proved] FOLDER [PROGRAM]' >&2; exit 2; }
top=$(cd "$(dirname "$0")/.." && pwd -P)
mkdir -p "$1/crates"
cd "$1"
[ "$(pwd -P)" != "$top" ] || { echo 'tools/vendor.sh: FOLDER is this repository' >&2; exit 2; }
touch crates.txt
for crate in automata_base automata_determinize automata_transform automata_config automata_hybrid \
    regex_automata match_facts meaning prefilters patterns lexer meta; do
    mkdir -p "crates/$crate"
    for part in src specs proofs; do
        rm -rf "crates/$crate/$part"
        [ ! -d "$top/crates/$crate/$part" ] || cp -R "$top/crates/$crate/$part" "crates/$crate/"
    done
    cp "$top"/LICENSE-* "crates/$crate/"
    { grep -v "^$crate:" crates.txt || :; grep "^$crate:" "$top/crates.txt"; } > crates.txt.new
    mv crates.txt.new crates.txt
    [ "$proved" ] || continue
    if [ -f "$top/crates/$crate/out/rlib/stamp" ]; then
        rm -rf "crates/$crate/out/rlib"
        mkdir -p "crates/$crate/out"
        cp -R "$top/crates/$crate/out/rlib" "crates/$crate/out/"
    else
        echo "tools/vendor.sh: $crate is not proved here: (cd crates/$crate && rt lib) proves it" >&2
    fi
done
[ -e .gitignore ] || echo out/ > .gitignore
[ "$#" -ge 2 ] && [ ! -e "crates/$2" ] || exit 0
mkdir "crates/$2" "crates/$2/src"
cp "$top/crates/examples/src/words.rt" "crates/$2/src/main.rt"
cp "$top/crates/examples/stdout" "crates/$2/"
echo "$2: patterns regex_automata anyhow" >> crates.txt
