#!/bin/sh
# Counts the instructions of searches with callgrind, here, in the twin and in RE2, in a copy that measure.sh made:
#     tools/count.sh COPY [WORK..]
#     tools/count.sh COPY c [WORK..]
# The second form counts the works of the C library, in its C program, the twin, RE2 and the Rust crate regex.
# It needs valgrind, and takes half an hour for all works. They leave out haystacks of 1 MB and 64 MB, whose bytes take
# as many instructions as those in 64 KB. Only what the searches run is counted; for a first search also its DFA and
# cache, and for a whole one also its automaton, or RE2's parser and program. It prints instructions per unit, as
# measure/works defines it, and a dash for a work that a program does not have, and for a program that is not installed.
set -eu
copy=$1
shift
units=$(dirname "$0")/measure/works
[ "${1:-}" != c ] || units=${units}_c
# shellcheck disable=SC2046
[ "$#" -gt 0 ] || set -- $(cut -d ' ' -f 1 "$units" | grep -Ev '^(memory|scan|dense)(1|64)M$')
counted() { # WORK PROGRAM FUNCTION..
    work=$1
    program=$2
    shift 2
    [ -x "$program" ] || { echo -; return; }
    for function in "$@"; do
        set -- "$@" --toggle-collect="$function"
        shift
    done
    given=$copy/made/$work
    [ -f "$given" ] || given=$copy/LICENSE-APACHE
    valgrind --tool=callgrind --callgrind-out-file="$copy/$work.$(basename "$program")" "$@" "$program" "$work" \
        2>&1 < "$given" |
        awk -v work="$work" 'FNR == NR { if ($1 == work) units = $2; next } /Collected/ { total = $NF }
            END { each = total / units; print total ? sprintf(each < 100 ? "%.2f" : "%.0f", each) : "-" }' "$units" -
}
if [ "$1" = c ]; then
    shift
    printf '%-13s %-6s %12s %12s %12s %12s\n' work a here twin re2 regex
    while read -r work _ unit; do
        case " $* " in
        '  ' | *" $work "*) ;;
        *) continue ;;
        esac
        here=$(counted "$work" "$copy/from_c" 'count_in*')
        twin=$(counted "$work" "$copy/twin" 'twin::Searcher::*' twin::count_spans)
        re2=$(counted "$work" "$copy/re2" 're2::RE2::Match(*' 're2::RE2::Set::Match(*ErrorInfo*')
        regex=$(counted "$work" "$copy/regex/target/release/regex_works" 'regex_works::run*')
        printf '%-13s %-6s %12s %12s %12s %12s\n' "$work" "$unit" "$here" "$twin" "$re2" "$regex"
    done < "$units"
    exit
fi
printf '%-9s %-6s %12s %12s %12s\n' work a here twin re2
for work in "$@"; do
    case $work in
    whole*) build=Draft::build parse='re2::RE2::RE2(*' ;;
    *) build='' parse='' ;;
    esac
    here=$(counted "$work" "$copy/crates/measure/out/measure" 'measure::Searcher::*' measure::count_spans \
        measure::count_from measure::sum_of ${build:+"measure::$build"})
    twin=$(counted "$work" "$copy/twin" 'twin::Searcher::*' twin::count_spans twin::sum_of \
        ${build:+"twin::nfa::$build"})
    re2=$(counted "$work" "$copy/re2" 're2::RE2::Match(*' 're2::RE2::Set::Match(*ErrorInfo*' 'has_byte*' \
        ${parse:+"$parse"})
    unit=$(awk -v work="$work" '$1 == work { print $3 }' "$units")
    printf '%-9s %-6s %12s %12s %12s\n' "$work" "$unit" "$here" "$twin" "$re2"
done
