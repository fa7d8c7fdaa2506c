#!/bin/bash
# Makes a release twice and compares the two, and builds a program with the tarball:
#     tools/dist_test.sh ['N passed, M failed']
# The release is of the archive of which the library in bindings/c was built, and of the programs that are built here.
# The last line counts the tests, added to those that the given line counts. `tools/dist.sh FOLDER --clean-root` tests a
# release in a new Debian root.
set -u
top=$(cd "$(dirname "$0")/.." && pwd)
room=$(mktemp -d)
trap 'rm -rf "$room"' EXIT
read -r passed _ failed _ <<<"${1:-0 passed, 0 failed}"
export ARCHIVE=${ARCHIVE:-$top/bindings/c/out/liblazydfa_c.a}

# Counts a test, which passed if the command succeeds.
test_that() { # NAME COMMAND..
    if "${@:2}" >"$room/said" 2>&1; then
        echo "$1: passed"
        passed=$((passed + 1))
    else
        echo "$1: $(cat "$room/said")"
        failed=$((failed + 1))
    fi
}

prints_words() {
    awk '/`words.c`/ { near = 1 } near && /^```c$/ { on = 1; next } on && /^```$/ { exit } on' \
        "$room/lazydfa/share/doc/lazydfa/C.md" >"$room/words.c" &&
        cc -o "$room/words" "$room/words.c" -I"$room/lazydfa/include" "$1" -Wl,-rpath,"$room/lazydfa/lib" &&
        [ "$("$room/words")" = $'0..3\n7..10' ]
}

has_sums() {
    cd "$room/lazydfa" && sha256sum -c --quiet SHA256SUMS
}

# In each tarball, the links of each document lead to files of the tarball.
has_links() {
    for packed in "$room"/first/*.tar.gz; do
        mkdir -p "$room/linked/$(basename "$packed")" && tar -C "$room/linked/$(basename "$packed")" -xf "$packed" || return
    done
    for folder in "$room"/linked/*; do "$top/tools/dist/links.py" "$folder" --check || return; done
}

names_archive() {
    grep -q "^archive $(sha256sum <"$ARCHIVE" | cut -d ' ' -f 1)$" "$room/lazydfa/share/doc/lazydfa/BUILD"
}

# The program asks for no shared library, and runs where there is no other file.
is_static() {
    mkdir "$room/empty" &&
        tar -C "$room/empty" --strip-components=1 -xf "$room"/first/lgrep-*-linux.tar.gz &&
        ! objdump -p "$room/empty/lgrep" | grep -qE "NEEDED|INTERP" &&
        [ "$("$room/empty/lgrep" -c lgrep "$room/empty/README")" -gt 3 ] || return 1
    [ "$(id -u)" -ne 0 ] || [ "$(chroot "$room/empty" /lgrep -c lgrep README)" -gt 3 ]
}

links_again() {
    cc -static-pie -o "$room/again" "$room/empty/lgrep.o" && [ "$("$room/again" -V)" = "$("$room/empty/lgrep" -V)" ]
}

# On an older processor, which an emulator of user programs has, the program ends with 127 and a message.
needs_level() {
    "$1" -cpu Nehalem "$room/empty/lgrep" -V && ! "$1" -cpu qemu64 "$room/empty/lgrep" -V
}

packages_crate() {
    tar -C "$room" -xf "$room"/first/lazydfa-*-rust.tar.gz && cd "$room"/lazydfa-*/ &&
        cargo package --quiet --offline --allow-dirty --target-dir "$room/target"
}

if ! command -v dpkg-deb >/dev/null; then
    echo "the release: skipped, since there is no dpkg-deb"
else
    test_that "a release" "$top/tools/dist.sh" "$room/first"
    test_that "a second release" "$top/tools/dist.sh" "$room/second"
    test_that "both are equal" diff -r "$room/first" "$room/second"
    mkdir "$room/lazydfa"
    test_that "the tarball" tar -C "$room/lazydfa" --strip-components=1 -xf "$room"/first/lazydfa-*-linux.tar.gz
    test_that "its sums" has_sums
    test_that "what it is made of" names_archive
    test_that "the links of documents" has_links
    test_that "a program with the archive" prints_words "$room/lazydfa/lib/liblazydfa.a"
    test_that "a program with the shared library" prints_words "$room/lazydfa/lib/liblazydfa.so"
    if ls "$room"/first/lgrep-*-linux.tar.gz >/dev/null 2>&1; then
        test_that "lgrep without a shared library" is_static
        test_that "lgrep, linked again" links_again
        emulator=$(command -v qemu-x86_64 qemu-x86_64-static | head -n 1)
        if [ -n "$emulator" ]; then test_that "lgrep on an older processor" needs_level "$emulator"; fi
    fi
    if command -v cargo >/dev/null; then test_that "the Rust crate as a package" packages_crate; fi
fi
echo "$passed passed, $failed failed"
[ "$failed" -eq 0 ]
