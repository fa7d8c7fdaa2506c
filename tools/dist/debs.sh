# Makes the Debian packages, as a part of tools/dist.sh, whose variables and functions it uses.
# shellcheck shell=bash disable=SC2154
triplet=x86_64-linux-gnu
libdir=/usr/lib/$triplet
revision=$version-1
maintainer=${MAINTAINER:-lazydfa <lazydfa@localhost>}

# The licences in Debian's format: the library's, and those of code from elsewhere.
copyright() {
    echo "Format: https://www.debian.org/doc/packaging-manuals/copyright-format/1.0/"
    printf '\nFiles: *\nCopyright: the authors of lazydfa\nLicense: Apache-2.0 or Expat\n'
    printf '\nLicense: Apache-2.0\n On Debian systems the text is in /usr/share/common-licenses/Apache-2.0.\n'
    printf '\nLicense: Expat\n%s\n' "$(sed -e 's/^$/./; s/^/ /' "$top/LICENSE-MIT")"
    for text in "$top"/LICENSES/*-*; do
        licence=$(basename "$text")
        printf '\nFiles: code of the Rattle kit under %s (LICENSES/README.md)\n' "$licence"
        printf 'Copyright: as the licence says\nLicense: %s\n%s\n' "$licence" "$(sed -e 's/^$/./; s/^/ /' "$text")"
    done
}

# Begins the package in the folder $it.
begin() { # NAME
    it=$room/packages/$1
    mkdir -p "$it/DEBIAN" "$it/usr/share/doc/$1"
    copyright >"$it/usr/share/doc/$1/copyright"
    {
        printf 'lazydfa (%s) unstable; urgency=low\n\n' "$revision"
        printf '  * Made of commit %s.\n\n' "$(git -C "$top" rev-parse --short HEAD)"
        printf ' -- %s  %s\n' "$maintainer" "$(date -u -R -d "@$SOURCE_DATE_EPOCH")"
    } | gzip -9n >"$it/usr/share/doc/$1/changelog.Debian.gz"
}

# Ends the package. Standard input is its long description.
finish() { # NAME SECTION DEPENDS SHORT [FIELD..]
    {
        printf 'Package: %s\nSource: lazydfa\nVersion: %s\nArchitecture: amd64\n' "$1" "$revision"
        printf 'Maintainer: %s\nInstalled-Size: %s\n' "$maintainer" "$(du -sk --exclude=DEBIAN "$it" | cut -f 1)"
        if [ -n "$3" ]; then echo "Depends: $3"; fi
        printf 'Section: %s\nPriority: optional\n' "$2"
        for field in "${@:5}"; do echo "$field"; done
        printf 'Description: %s\n' "$4"
        sed 's/^/ /'
    } >"$it/DEBIAN/control"
    (cd "$it" && find usr -type f | sort | xargs md5sum >DEBIAN/md5sums)
    dated "$it"
    dpkg-deb --root-owner-group -Zxz --build "$it" "$out/$1_${revision}_amd64.deb" >/dev/null
}

package_library() {
    begin "liblazydfa$abi"
    mkdir -p "$it$libdir"
    cp "$staged$libdir/liblazydfa.so.$abi" "$it$libdir"
    chmod 644 "$it$libdir/liblazydfa.so.$abi"
    echo "liblazydfa $abi liblazydfa$abi (>= $version)" >"$it/DEBIAN/shlibs"
    {
        echo "liblazydfa.so.$abi liblazydfa$abi #MINVER#"
        sed "s/.*/ &@LAZYDFA_1 $version/" "$top/bindings/c/lazydfa.symbols"
    } >"$it/DEBIAN/symbols"
    echo "activate-noawait ldconfig" >"$it/DEBIAN/triggers"
    finish "liblazydfa$abi" libs "libc6 (>= 2.14)" "regular expressions by a lazy DFA - shared library" \
        "Multi-Arch: same" <<END
It searches text for regular expressions, in time linear in the text, over a
cache whose size the program chooses. The code needs a processor of the level
x86-64-v2.
END
}

package_development() {
    begin liblazydfa-dev
    mkdir -p "$it$libdir" "$it/usr/share/man/man3" "$it/usr/share/doc/liblazydfa-dev"
    cp -r "$staged/usr/include" "$it/usr"
    cp -d "$staged$libdir/liblazydfa.a" "$staged$libdir/liblazydfa.so" "$it$libdir"
    cp -r "$staged$libdir/pkgconfig" "$staged$libdir/cmake" "$it$libdir"
    cp "$room/$name/share/man/man3/lazydfa.3.gz" "$it/usr/share/man/man3"
    cp -r "$room/$name/share/doc/lazydfa/." "$it/usr/share/doc/liblazydfa-dev"
    finish liblazydfa-dev libdevel "liblazydfa$abi (= $revision)" \
        "regular expressions by a lazy DFA - development files" "Multi-Arch: same" <<END
The headers, the archive, the files for pkg-config and CMake, and documents.
END
}

package_program() {
    begin lgrep
    {
        printf '\nFiles: the GNU C library, which is linked in\nCopyright: as the licence says\nLicense: LGPL-2.1\n'
        echo " On Debian systems the text is in /usr/share/common-licenses/LGPL-2.1."
    } >>"$it/usr/share/doc/lgrep/copyright"
    mkdir -p "$it/usr/bin" "$it/usr/share/man/man1"
    cp "$folder/lgrep" "$it/usr/bin"
    gzip -9n <"$folder/lgrep.1" >"$it/usr/share/man/man1/lgrep.1.gz"
    install -D -m 644 "$folder/completions/lgrep.bash" "$it/usr/share/bash-completion/completions/lgrep"
    install -D -m 644 "$folder/completions/_lgrep" "$it/usr/share/zsh/vendor-completions/_lgrep"
    install -D -m 644 "$folder/completions/lgrep.fish" "$it/usr/share/fish/vendor_completions.d/lgrep.fish"
    finish lgrep utils "" "print the lines of files that patterns match" "Built-Using: $(library_linked)" <<END
The syntax of patterns is that of the Rust crate regex. It searches for many
patterns at once, in time linear in the text. It is linked statically; the
object file to link it again is in the tarball of the same release. The code
needs a processor of the level x86-64-v2.
END
}

# The extension, over the archive.
package_extension() {
    cp -r "$top/bindings/postgres" "$room/extension"
    mkdir -p "$room/library"
    cp -r "$staged/usr/include" "$room/library"
    mkdir "$room/library/lib"
    cp "$staged$libdir/liblazydfa.a" "$room/library/lib"
    begin postgresql-15-lazydfa
    for goal in all install; do
        env -u PROGRAM make -s -C "$room/extension" "$goal" LAZYDFA="$room/library" DESTDIR="$it" \
            COPT="-ffile-prefix-map=$room=." >"$room/log" 2>&1 || { cat "$room/log" >&2; return 1; }
    done
    strip --strip-unneeded "$it/usr/lib/postgresql/15/lib/lazydfa.so"
    cp "$top/bindings/postgres/README.md" "$it/usr/share/doc/postgresql-15-lazydfa"
    finish postgresql-15-lazydfa database "libc6, postgresql-15" "regular expressions by a lazy DFA for PostgreSQL" <<END
Operators and functions that search texts for many patterns in one pass. The
code needs a processor of the level x86-64-v2.
END
}

staged=$room/staged
install_library "$staged" "$libdir"
package_library
package_development
if [ -d "${folder:-}" ]; then package_program; fi
if [ -f "$(pg_config --pgxs 2>/dev/null)" ] && [ "$(pg_config --version | sed 's/[^0-9]*\([0-9]*\).*/\1/')" = 15 ]; then
    package_extension
else
    echo "without the headers of PostgreSQL 15 there is no package postgresql-15-lazydfa" >&2
fi
