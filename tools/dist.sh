#!/bin/bash
# Makes a release for machines without a kit:
#     tools/dist.sh FOLDER [--clean-root]
# In FOLDER are then, for Linux on x86-64-v2: a tarball with the library for C (archive, shared library, headers, files
# for pkg-config and CMake, a manual page, guides, licences, and BUILD, which says of what it was made); the Debian
# packages liblazydfa1, liblazydfa-dev, lgrep (a grep) and, if the server's headers are there,
# postgresql-15-lazydfa; the Rust crate with the archive in it; the Python package; a tarball with lgrep; and SHA256SUMS.
# Equal commits and archives give equal bytes: times are those of the commit.
#
# With --clean-root all of it is installed in a new Debian root, which mmdebstrap makes, and used there
# (dist/clean_root.sh); that takes root and Debian's packages, and some minutes.
#
# The archive is the one that `rt lib` proves and builds, and the program is linked from the object file that `rt ci` or
# `rt run` leaves beside it. ARCHIVE and PROGRAM name others; BUILD then says that the archive was not proved by this
# call. It needs rt, make, cc, binutils and dpkg-deb, and git, for the commit. lgrep is linked statically, so that it
# runs whatever the C library of a machine.
set -euo pipefail
tools=$(cd "$(dirname "$0")" && pwd)
top=$(dirname "$tools")
[ "$#" -gt 0 ] || { echo "usage: tools/dist.sh FOLDER [--clean-root]" >&2; exit 2; }
mkdir -p "$1"
out=$(cd "$1" && pwd)
kit=$(dirname "$(realpath "$(command -v rt)")")/..
room=$(mktemp -d)
trap 'rm -rf "$room"' EXIT
SOURCE_DATE_EPOCH=$(git -C "$top" log -1 --format=%ct)
export SOURCE_DATE_EPOCH LC_ALL=C TZ=UTC
umask 022
header=$top/bindings/c/include/lazydfa.h
version=$(sed -n 's/^#define LAZYDFA_VERSION "\(.*\)"$/\1/p' "$header")
abi=$(sed -n 's/^ABI = //p' "$top/bindings/c/Makefile")
date=$(date -u -d "@$SOURCE_DATE_EPOCH" +%Y-%m-%d)
name=lazydfa-$version-x86_64-linux

# Replaces what a template names.
filled() { # TEMPLATE
    sed "s/@VERSION@/$version/g; s/@ABI@/$abi/g" "$tools/dist/$1"
}

# Writes a manual page with this description from standard input.
manual() { # NAME SECTION SHORT
    printf '.TH %s %s %s "lazydfa %s"\n.SH NAME\n%s \\- %s\n' "${1^^}" "$2" "$date" "$version" "$1" "$3"
    printf '.SH DESCRIPTION\n'
    cat
}

# Gives all files of a folder the time of the commit.
dated() { # FOLDER
    find "$1" -exec touch -h -d "@$SOURCE_DATE_EPOCH" {} +
}

# Packs a folder of the room.
packed() { # FOLDER ARCHIVE
    dated "$room/$1"
    tar -C "$room" --sort=name --owner=0 --group=0 --numeric-owner --format=gnu -cf - "$1" | gzip -9n >"$out/$2"
}

build_library() {
    cp -r "$top/bindings/c" "$room/c"
    rm -rf "$room/c/out"
    make -s -C "$room/c" KIT="$kit" ARCHIVE="$archive" LDFLAGS='-Wl,--build-id=sha1 -Wl,-z,relro -Wl,-z,now'
    strip --strip-unneeded "$room/c/out/liblazydfa.so.$abi"
}

# Copies the guides to a folder.
copy_guides() { # FOLDER
    mkdir -p "$1"
    cp "$top/docs/C.md" "$top/docs/PATTERNS.md" "$top/docs/CALLING.md" "$top/docs/DIFFERENCES.md" "$1"
}

# Installs the library in a folder.
install_library() { # ROOT LIBDIR
    make -s -C "$room/c" install KIT="$kit" DESTDIR="$1" PREFIX=/usr LIBDIR="$2"
    mkdir -p "$1$2/cmake/lazydfa"
    filled lazydfa-config.cmake.in >"$1$2/cmake/lazydfa/lazydfa-config.cmake"
    filled lazydfa-config-version.cmake.in >"$1$2/cmake/lazydfa/lazydfa-config-version.cmake"
}

# Writes the documents of the library: guides, an example, licences, and what it was made of.
install_documents() { # FOLDER
    mkdir -p "$1/examples"
    copy_guides "$1"
    cp "$top/CHANGELOG.md" "$top"/LICENSE-* "$1"
    cp -r "$top/LICENSES" "$1"
    cp "$top/bindings/c/examples/grep.c" "$1/examples"
    {
        echo "version $version"
        echo "commit $(git -C "$top" rev-parse HEAD)$([ -z "$(git -C "$top" status --porcelain)" ] || echo ', changed')"
        echo "kit $(rt version | tail -n 1)"
        echo "archive $(sha256sum <"$archive" | cut -d ' ' -f 1)"
        echo "proved $proved"
    } >"$1/BUILD"
}

make_tarball() {
    root=$room/$name
    install_library "$room/root" /usr/lib
    mv "$room/root/usr" "$root"
    # The tarball can be unpacked anywhere.
    sed -i 's|^prefix=.*|prefix=${pcfiledir}/../..|' "$root/lib/pkgconfig/lazydfa.pc"
    install_documents "$root/share/doc/lazydfa"
    filled README.in >"$root/README"
    mkdir -p "$root/share/man/man3"
    sed -n '1,/\*\//p' "$header" | sed -e 's|^/\* ||' -e 's|^ \*/\?||' -e 's/\\/\\e/g' |
        sed -e "s/^[.']/\\\\\&&/" -e '1i .nf' -e '$a .fi' |
        manual lazydfa 3 'regular expressions by a lazy DFA' | gzip -9n >"$root/share/man/man3/lazydfa.3.gz"
    "$tools/dist/links.py" "$root"
    (cd "$root" && find . -type f | sort | xargs sha256sum) >"$room/sums"
    mv "$room/sums" "$root/SHA256SUMS"
    packed "$name" "$name.tar.gz"
}

# Links the program without a shared library. The object file with which it can be linked again is a part of the release,
# as the licence of the C library asks.
link_program() { # FOLDER
    ld -r -o "$1/lgrep.o" "$program.o" "$kit/c/libos_c.a" "$kit/c/liblibc_c.a"
    cc -static-pie -o "$1/lgrep" "$1/lgrep.o" \
        -Wl,--gc-sections,--build-id=sha1,-z,relro,-z,now,-z,noexecstack
    strip "$1/lgrep"
    strip --strip-unneeded "$1/lgrep.o"
}

# The package of the C library that is linked in, and its version.
library_linked() {
    dpkg-query -W -f '${source:Package} (= ${source:Version})' libc6-dev
}

make_program() {
    folder=$room/lgrep-$version-x86_64-linux
    mkdir -p "$folder/completions"
    link_program "$folder"
    sed -n 's|^//! \?||p' "$top/crates/lgrep/src/main.rt" | awk -f "$tools/dist/manual.awk" |
        manual lgrep 1 'print the lines of files that patterns match' >"$folder/lgrep.1"
    cp "$tools"/dist/completions/* "$folder/completions"
    cp "$top"/LICENSE-* "$folder"
    cp -r "$top/LICENSES" "$folder"
    cp /usr/share/common-licenses/LGPL-2.1 "$folder/LICENSES"
    sed "s/@LIBRARY@/$(library_linked)/" "$tools/dist/README.lgrep.in" >"$folder/README"
    packed "$(basename "$folder")" "$(basename "$folder").tar.gz"
}

make_crate() {
    crate=$room/lazydfa-$version
    cp -r "$top/bindings/rust" "$crate"
    rm -rf "$crate/target"
    mkdir -p "$crate/lib/x86_64-unknown-linux-gnu"
    cp "$room/c/out/liblazydfa.a" "$crate/lib/x86_64-unknown-linux-gnu"
    cp "$top"/LICENSE-* "$crate"
    cp -r "$top/LICENSES" "$crate"
    copy_guides "$crate/docs"
    "$tools/dist/links.py" "$crate"
    packed "lazydfa-$version" "lazydfa-$version-rust.tar.gz"
}

make_python() {
    package=$room/lazydfa-python-$version
    cp -r "$top/bindings/python" "$package"
    cp "$top"/LICENSE-* "$package"
    copy_guides "$package/docs"
    "$tools/dist/links.py" "$package"
    find "$package" -name __pycache__ -prune -exec rm -rf {} +
    packed "lazydfa-python-$version" "lazydfa-$version-python.tar.gz"
}

if [ -n "${ARCHIVE:-}" ]; then
    archive=$(realpath "$ARCHIVE")
    proved="not by this call"
else
    (cd "$top/crates/lazydfa_c" && rt lib >&2)
    archive=$top/crates/lazydfa_c/out/liblazydfa_c.a
    proved=yes
fi
program=${PROGRAM:-$top/crates/lgrep/out/lgrep}
build_library
make_tarball
make_crate
make_python
if [ -f "$program.o" ]; then make_program; else echo "there is no $program.o, so no lgrep" >&2; fi
# shellcheck source=tools/dist/debs.sh
. "$tools/dist/debs.sh"
(cd "$out" && sha256sum ./*.tar.gz ./*.deb | tee SHA256SUMS)
if [ "${2:-}" = --clean-root ]; then "$tools/dist/clean_root.sh" "$out"; fi
