#!/bin/bash
# What tools/dist/clean_root.sh runs in the new root.
set -u
cd /release || exit 2
export HOME=/root LC_ALL=C.UTF-8 PATH=/usr/sbin:/usr/bin:/sbin:/bin
passed=0
failed=0
words=$'0..3\n7..10'

# Counts a test, which passed if the command printed this.
prints() { # NAME WANTED COMMAND..
    name=$1
    wanted=$2
    shift 2
    if got=$("$@" 2>&1) && [ "$got" = "$wanted" ]; then
        echo "$name: passed"
        passed=$((passed + 1))
    else
        printf '%s: %s\nand not: %s\n' "$name" "$got" "$wanted"
        failed=$((failed + 1))
    fi
}

# Extracts a program of a guide: the block that has this name in its text before it.
program() { # GUIDE FILE
    awk -v name="\`$2\`" 'index($0, name) { near = 1 } near && /^```c$/ { on = 1; next } on && /^```$/ { exit } on' \
        "$1" >"$2"
}

compiled() { # PROGRAM WORD..
    "${@:2}" -o "$1" && "./$1"
}

# The programs of the guide, in each way to build them.
use_library() { # NAME GUIDE [RPATH]
    for it in words rules states pieces; do program "$2" "$it.c"; done
    cp words.c words.cc
    read -ra flags < <(pkg-config --cflags lazydfa)
    read -ra libs < <(pkg-config --cflags --libs lazydfa)
    archive=$(pkg-config --variable=archive lazydfa)
    prints "$1: the archive" "$words" compiled words gcc -O2 -Wall -Werror words.c "${flags[@]}" "$archive"
    prints "$1: rules.c" $'rules[1] matches\nrules[2] matches' compiled rules gcc rules.c "${flags[@]}" "$archive"
    prints "$1: states.c" "done: 3..6" compiled states gcc states.c "${flags[@]}" "$archive"
    prints "$1: pieces.c" "the first date ends at 13" compiled pieces gcc pieces.c "${flags[@]}" "$archive"
    prints "$1: a static program" "$words" compiled words gcc -static words.c "${flags[@]}" "$archive"
    prints "$1: the shared library" "$words" compiled words gcc words.c "${libs[@]}" ${3:+"-Wl,-rpath,$3"}
    for standard in c++11 c++14 c++17 c++20; do
        prints "$1: $standard" "$words" \
            compiled words g++ "-std=$standard" -Wall -Wextra -Werror words.cc "${flags[@]}" "$archive"
    done
    rm -rf built
    cmake -S . -B built >/dev/null && cmake --build built >/dev/null
    for it in shared static cxx; do prints "$1: CMake, $it" "$words" "built/$it"; done
}

use_tarball() {
    unpacked=$(mktemp -d)
    tar -xf lazydfa-*-x86_64-linux.tar.gz -C "$unpacked" --strip-components=1
    prints "the sums of the tarball" "" sh -c "cd $unpacked && sha256sum -c --quiet SHA256SUMS"
    export PKG_CONFIG_PATH=$unpacked/lib/pkgconfig CMAKE_PREFIX_PATH=$unpacked
    use_library tarball "$unpacked/share/doc/lazydfa/C.md" "$unpacked/lib"
    unset PKG_CONFIG_PATH CMAKE_PREFIX_PATH
    rm -rf "$unpacked"
}

use_packages() {
    prints "dpkg" "" sh -c 'dpkg -i ./liblazydfa*.deb >/dev/null'
    use_library packages /usr/share/doc/liblazydfa-dev/C.md
    prints "the licences" "" test -d /usr/share/doc/liblazydfa-dev/LICENSES
}

use_crate() {
    tar -xf lazydfa-*-rust.tar.gz
    mkdir -p user/src
    crate=$(echo lazydfa-*/)
    {
        printf '[package]\nname = "user"\nversion = "0.1.0"\nedition = "2021"\n'
        printf '[dependencies]\nlazydfa = { path = "../%s" }\n' "$crate"
    } >user/Cargo.toml
    awk '/^```rust$/ { on = 1; next } on && /^```$/ { exit } on' "$crate/README.md" >user/src/main.rs
    prints "the Rust crate" $'0..3\n7..11' sh -c 'cd user && cargo run --quiet --offline'
    prints "its package" "" sh -c "cd $crate && cargo package --quiet --offline --allow-dirty"
    prints "its tests" "" sh -c "cd $crate && cargo test --quiet --offline >tested 2>&1 || cat tested"
}

use_python() {
    tar -xf lazydfa-*-python.tar.gz
    prints "the Python package" "[(0, 3), (7, 10)]" env PYTHONPATH="$(echo lazydfa-python-*/src)" python3 -c \
        'import lazydfa; print([it.span() for it in lazydfa.Regex(r"\pL+").finditer("foo 12 bär")])'
    prints "its tests" "" sh -c "PYTHONPATH=$(echo lazydfa-python-*/src) python3 lazydfa-python-*/tests/test_lazydfa.py \
        >tested 2>&1 || cat tested"
}

use_program() {
    printf 'a lazy dog\nan eager one\n' >lines
    tar -xf lgrep-*-linux.tar.gz
    prints "lgrep of the tarball" "1:a lazy dog" "$(echo lgrep-*/)lgrep" -n 'la\w+ ' lines
    dpkg -i ./lgrep*.deb >/dev/null
    prints "lgrep" "1:a lazy dog" lgrep -n 'la\w+ ' lines
    prints "the manual of lgrep" "" test -s /usr/share/man/man1/lgrep.1.gz
    prints "the completion of lgrep" "--include" bash -c '. /usr/share/bash-completion/completions/lgrep
        COMP_WORDS=(lgrep --inc) COMP_CWORD=1; _lgrep; echo "${COMPREPLY[@]}"'
}

as_postgres() {
    su postgres -s /bin/bash -c "cd /tmp && PATH=/usr/lib/postgresql/15/bin:\$PATH && export PGHOST=/tmp && $1"
}

use_extension() {
    dpkg -i ./postgresql-15-lazydfa*.deb >/dev/null
    as_postgres "initdb -D cluster -A trust -E UTF8 --locale=C.UTF-8 >initdb.log &&
        pg_ctl -D cluster -w -o '-c listen_addresses= -c unix_socket_directories=/tmp' -l server.log start >start.log"
    prints "the extension" $'t\n{2,3}' as_postgres "psql -XAtq postgres -c 'CREATE EXTENSION lazydfa' \
        -c \"SELECT 'foo 12' =~ '[a-z]+ \\d'\" \
        -c \"SELECT lazydfa_which('500 refused', array['timeout', 'refused', '5\\d\\d'])\""
    as_postgres "pg_ctl -D cluster -m fast stop >stop.log"
}

use_tarball
use_packages
use_crate
use_python
if ls lgrep*.deb >/dev/null 2>&1; then use_program; fi
if ls postgresql-15-lazydfa*.deb >/dev/null 2>&1; then use_extension; fi
echo "$passed passed, $failed failed"
[ "$failed" -eq 0 ]
