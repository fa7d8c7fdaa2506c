#!/bin/bash
# Installs a release in a new Debian root, and uses it there as its readers would, as a part of tools/dist.sh:
#     tools/dist/clean_root.sh FOLDER
# The programs of C.md, by pkg-config, by CMake and in C++, over the tarball and over the packages; the Rust crate, its
# tests and a program that uses it; the Python package and its tests; lgrep; and the extension for PostgreSQL. The last
# line counts what passed. It needs root, mmdebstrap and Debian's packages.
set -euo pipefail
release=$(cd "$1" && pwd)
here=$(cd "$(dirname "$0")" && pwd)
root=$(mktemp -d)
trap 'umount -q "$root/proc"; rm -rf "$root"' EXIT
compilers=gcc,g++,libc6-dev,make,cmake,pkg-config,cargo-web,rustc-web
mmdebstrap --quiet --variant=minbase --include="$compilers,python3,postgresql-15" bookworm "$root"
mkdir "$root/release"
cp "$release"/*.tar.gz "$release"/*.deb "$here/in_root.sh" "$here/CMakeLists.txt" "$root/release"
mount -t proc proc "$root/proc"
chroot "$root" /bin/bash /release/in_root.sh
