#!/bin/sh
# Measures the library, a lean twin in unchecked Rust, RE2 and the kit's `regex`, and the C library, grep, RE2 and the
# Rust crate regex, in a copy of the repository with two more crates, outside the gate:
#     tools/measure.sh [ROUNDS [WORK..]]
# It needs rt, g++, Python 3, RE2's headers and library, and rustc; without rustc the twin is left out. Seven rounds,
# the default, take five minutes, and fifteen on a busy machine. The crates `measure` and `kit_works` are proved before
# that, which takes ten more minutes; so are the library's crates, which takes half an hour more, unless each has its
# proofs in `out/` (`rt all check`).
#
# A round runs each work with the four programs in turn, so that ratios are computed from runs close in time. For each
# work it prints the median of the rounds, in nanoseconds of processor time per unit, with the first and the third
# quartile in brackets; and the times of the others divided by ours, likewise. On a machine that others use, times vary
# by half and more: a result is as reliable as its brackets are narrow. The works are in measure/measure.in and
# measure/mixed.in, those of the kit's `regex` in measure/kit.in, the texts of all in measure/texts.in, and their units
# in measure/works. The running text of `prose` and `prosetail` consists of lines of the licence. With all works it
# draws the plot docs/speed.svg. MEASURE_COPY names a copy to reuse.
#
# The works of the C library are in measure/from_c.c, and their units in measure/works_c: with all works, and with `c`
# in place of the works, they are measured after the others, in their own rounds. Those whose names begin with `spans_`
# or `which_` read what measure/made.py generates: a pattern, and a text that looks like Russian, Chinese, JSON, source
# code or English. grep counts the lines with a date in a file, in the locale C, and its time is its user time, to a
# thousandth of a second; the others have the same lines in memory. The crate regex is built by cargo from the sources
# that Debian's package librust-regex-dev installs, or those in the folder that REGEX_SOURCES names; without cargo or
# these sources it is left out.
set -eu
rounds=${1:-7}
[ "$#" -eq 0 ] || shift
top=$(cd "$(dirname "$0")/.." && pwd)
copy=${MEASURE_COPY:-$(mktemp -d)}
(cd "$top" && git ls-files -z | tar -c --null -T -) | tar -x -C "$copy"
for crate in automata_base automata_determinize automata_transform automata_config automata_hybrid \
    regex_automata lazydfa_c; do
    if [ -d "$top/crates/$crate/out" ] && [ ! -d "$copy/crates/$crate/out" ]; then
        cp -r "$top/crates/$crate/out" "$copy/crates/$crate/out"
    fi
done
g++ -O2 -o "$copy/re2" "$top/tools/measure/re2.cc" -lre2

tell() { # ROUND WHO PROGRAM WORK
    given=$copy/made/$4
    [ -f "$given" ] || given=$top/LICENSE-APACHE
    [ ! -x "$3" ] || "$3" "$4" < "$given" | sed "s/^/$1 $2 /" >> "$copy/told"
}

grep_dates() { # ROUND
    found=$(LC_ALL=C TIMEFORMAT=%3U bash -c 'time grep -cE "[0-9]{4}-[0-9]{2}-[0-9]{2}" "$1"' grep "$copy/dates.txt" 2>&1)
    echo "$found" | awk -v round="$1" 'NR == 1 { count = $1 } END { print round, "grep dates", count, $1 * 1e6 }' >> "$copy/told"
}

make_regex() {
    sources=${REGEX_SOURCES:-/usr/share/cargo/registry}
    if ! command -v cargo > /dev/null || ! ls -d "$sources"/regex-1.* > /dev/null 2>&1; then
        echo 'without cargo and the sources of the crate regex, its times are left out'
        return 0
    fi
    mkdir -p "$copy/regex/src" "$copy/regex/.cargo"
    cp "$top/tools/measure/regex/Cargo.toml" "$copy/regex/"
    cp "$top/tools/measure/regex/main.rs" "$copy/regex/src/"
    printf '[source.crates-io]\nreplace-with = "here"\n[source.here]\ndirectory = "%s"\n' "$sources" > "$copy/regex/.cargo/config.toml"
    (cd "$copy/regex" && cargo build --release --offline) > "$copy/built_regex" 2>&1 || { cat "$copy/built_regex"; exit 1; }
}

make_twin() {
    rm -f "$copy/twin"
    if command -v rustc > /dev/null; then
        rustc --edition 2021 --crate-name twin -O -C codegen-units=1 -C target-cpu=x86-64-v2 -C panic=abort \
            -o "$copy/twin" "$top/tools/measure/twin/main.rs"
    else
        echo 'without rustc there is no twin'
    fi
}

measure_c() {
    make -C "$copy/bindings/c" > "$copy/proved_c" 2>&1 || { cat "$copy/proved_c"; exit 1; }
    cc -O2 -I"$copy/bindings/c/include" -o "$copy/from_c" "$top/tools/measure/from_c.c" "$copy/bindings/c/out/liblazydfa.a"
    "$copy/from_c" text > "$copy/dates.txt"
    mkdir -p "$copy/made"
    "$top/tools/measure/made.py" "$copy/made"
    make_regex
    : > "$copy/told"
    round=1
    while [ "$round" -le "$rounds" ]; do
        for work in $(cut -d ' ' -f 1 "$top/tools/measure/works_c"); do
            tell "$round" here "$copy/from_c" "$work"
            tell "$round" twin "$copy/twin" "$work"
            tell "$round" re2 "$copy/re2" "$work"
            tell "$round" regex "$copy/regex/target/release/regex_works" "$work"
        done
        grep_dates "$round"
        round=$((round + 1))
    done
    awk -v others='grep twin re2 regex' -f "$top/tools/measure/table.awk" "$top/tools/measure/works_c" "$copy/told" | tee "$copy/table_c"
}

make_twin
if [ "$*" = c ]; then
    measure_c
    echo "the copy, with the programs and all rounds: $copy"
    exit
fi
mkdir -p "$copy/crates/measure/src"
cp "$top/tools/measure/measure.in" "$copy/crates/measure/src/main.rt"
cp "$top/tools/measure/mixed.in" "$copy/crates/measure/src/mixed.rt"
mkdir -p "$copy/crates/kit_works/src"
cp "$top/tools/measure/kit.in" "$copy/crates/kit_works/src/main.rt"
for crate in measure kit_works; do
    cp "$top/tools/measure/texts.in" "$copy/crates/$crate/src/texts.rt"
done
printf '%s\n' 'measure: regex_automata' 'kit_works: regex' >> "$copy/crates.txt"
for crate in measure kit_works; do
    (cd "$copy/crates/$crate" && rt run --jobs 2 -- first) > "$copy/proved" 2>&1 || { cat "$copy/proved"; exit 1; }
done
here=$copy/crates/measure/out/measure

all=$(cut -d ' ' -f 1 "$top/tools/measure/works")
works=${*:-$all}
: > "$copy/told"
round=1
while [ "$round" -le "$rounds" ]; do
    for work in $works; do
        tell "$round" here "$here" "$work"
        tell "$round" twin "$copy/twin" "$work"
        tell "$round" re2 "$copy/re2" "$work"
        tell "$round" kit "$copy/crates/kit_works/out/kit_works" "$work"
    done
    round=$((round + 1))
done
awk -f "$top/tools/measure/table.awk" "$top/tools/measure/works" "$copy/told" | tee "$copy/table"
if [ "$works" = "$all" ]; then
    awk -f "$top/tools/measure/plot.awk" "$copy/table" > "$top/docs/speed.svg"
    measure_c
fi
echo "the copy, with the programs and all rounds: $copy"
