#!/bin/sh
# Measures searches as users meet them, through the library for C, beside RE2, Rust's crate regex with and without its
# literal optimizations, and PCRE2 with its JIT, outside the gate:
#     tools/suite.sh FOLDER [WORK..]
# It makes texts and works (suite/works.py) and the engines in FOLDER, unless they are there; then it lets the engines
# run each work in turn, five times, and prints the tables of suite/table.py: some eight minutes for all works. Times
# are of the processor; of each engine the least median counts. The archive is bindings/c/out/liblazydfa.a, which `make
# -C bindings/c` proves and builds, or the one that ARCHIVE names; ENGINES names the engines. With COUNTED=warm or
# COUNTED=cold it counts the instructions of a run after the first one, or of the first one, by callgrind.
#
# It needs Debian's packages gcc, g++, cargo, libre2-dev, libpcre2-dev, librust-regex-dev, librust-aho-corasick-dev,
# librust-memchr-dev, wamerican, unicode-data, fortunes, fortunes-ru and fortunes-zh, and valgrind to count.
set -eu
top=$(cd "$(dirname "$0")/.." && pwd)
[ "$#" -gt 0 ] || { echo "usage: tools/suite.sh FOLDER [WORK..]" >&2; exit 2; }
mkdir -p "$1/bin"
out=$(cd "$1" && pwd)
shift
archive=${ARCHIVE:-$top/bindings/c/out/liblazydfa.a}
engines=${ENGINES:-project re2 rust rust-nolit pcre2}

make_engine() { # NAME SOURCE COMPILER LIBRARY..
    object=$out/driver.o
    program=$out/bin/$1
    source=$top/tools/suite/engines/$2
    compiler=$3
    shift 3
    gcc -O2 -c "$top/tools/suite/driver.c" -o "$object"
    "$compiler" -O2 -I"$top/bindings/c/include" "$source" "$object" "$@" -o "$program"
}

make_rust() { # NAME [FEATURE..]
    name=$1
    shift
    mkdir -p "$out/rust/.cargo"
    cp "$top/tools/suite/rust/Cargo.toml" "$top/tools/suite/rust/lib.rs" "$out/rust"
    printf '[source.crates-io]\nreplace-with = "debian"\n[source.debian]\ndirectory = "%s"\n' \
        "${REGEX_SOURCES:-/usr/share/cargo/registry}" >"$out/rust/.cargo/config.toml"
    (cd "$out/rust" && cargo build --release --offline --quiet --target-dir "$out/$name" ${1:+--features "$1"})
    gcc -O2 "$top/tools/suite/driver.c" "$out/$name/release/libsuite.a" -lpthread -ldl -lm -o "$out/bin/$name"
}

make_engines() {
    make_engine project project.c gcc "$archive"
    for engine in $engines; do
        [ ! -x "$out/bin/$engine" ] || continue
        case $engine in
        re2) make_engine re2 re2.cc g++ -lre2 -lpthread ;;
        pcre2) make_engine pcre2 pcre2.c gcc -lpcre2-8 ;;
        rust) make_rust rust literals ;;
        rust-nolit) make_rust rust-nolit ;;
        esac
    done
}

# Runs a work by an engine, for at most 40 seconds and in at most 8 GB.
run() { # ENGINE WORK
    prlimit --as=8000000000 timeout 40 "$out/bin/$1" "$out/works/$2" 0.05 || echo "$2 $1 - stopped"
}

count() { # ENGINE WORK
    valgrind --tool=callgrind --callgrind-out-file="$out/counts" --toggle-collect=counted \
        "$out/bin/$1" "$out/works/$2" 2>&1 |
        awk -v engine="$1" '/Collected/ { all = $NF } $2 == engine { size = $7; found = $4; name = $1 }
            END { printf "%-28s %-10s %12.0f %9.2f a byte, %d found\n", name, engine, all, all / size, found }'
}

make_engines
[ -d "$out/works" ] || python3 "$top/tools/suite/works.py" "$out"
# shellcheck disable=SC2046
[ "$#" -gt 0 ] || set -- $(find "$out/works" -type f ! -name '*@*' -printf '%f\n' | sort)
if [ -n "${COUNTED:-}" ]; then
    for work; do
        for engine in $engines; do count "$engine" "$work"; done
    done
    exit
fi
for work; do
    for _ in 1 2 3 4 5; do
        for engine in $engines; do run "$engine" "$work"; done
    done
done >"$out/results"
python3 "$top/tools/suite/table.py" "$out/results"
