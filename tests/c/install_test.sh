#!/bin/sh
# make install puts all there that is needed, builds nothing, and make uninstall takes all of it away again.
# shellcheck source=tests/c/common.sh
. tests/c/common.sh
TDS_LIB=${TDS_LIB:-target/staticlib/libtds.a}
R=$(cd "$BUILD/c-test/root" && pwd)

# made TARGET VARIABLES...: make as a person would call it.
made() {
    (unset MAKEFLAGS MFLAGS MAKEOVERRIDES && timeout 60 make --no-print-directory TDS_LIB="$TDS_LIB" "$@") >"$T/out" 2>"$T/err"
    status=$?
}

try 'the installed files'
for file in bin/stick include/tds.h include/tds_words.h lib/libtds.a lib/pkgconfig/tds.pc lib/cmake/tds/tds-config.cmake \
    share/man/man1/stick.1 share/man/man3/tds.3 share/man/man3/tds_check.3 share/man/man3/tds_refusal_words.3 share/doc/tds/LICENSE; do
    if [ -s "$R/opt/tds/$file" ]; then pass; else fail "no $file"; fi
done
run "$R/opt/tds/bin/stick" --version
status_is 0
try 'what the header names is there to be read'
grep -o '[A-Za-z]*/*[A-Za-z_]*\.md\|examples/[a-z]*\.c' include/tds.h | sort -u >"$T/named"
if [ "$(wc -l <"$T/named")" -ge 6 ]; then pass; else fail 'it names fewer than before'; fi
while read -r file; do
    if cmp "$file" "$R/opt/tds/share/doc/tds/$file" >"$T/out" 2>&1; then pass; else fail "no $file"; fi
done <"$T/named"
try 'the links of the installed pages lead somewhere'
(cd "$R/opt/tds/share/doc/tds" && find . -xtype l && find . -name '*.md' | while read -r page; do
    # shellcheck disable=SC2016
    sed 's/`[^`]*`//g' "$page" | grep -o '](\([^)]*\))' | sed 's/^](//; s/)$//; s/#.*//' | grep -v '^http' | sort -u | while read -r link; do
        if [ -n "$link" ] && ! [ -e "$(dirname "$page")/$link" ]; then echo "$page: $link"; fi
    done
done) >"$T/lost"
if [ -s "$T/lost" ]; then fail "$(cat "$T/lost")"; else pass; fi
if [ "$(find "$R/opt/tds/share/doc/tds" -name '*.md' | wc -l)" -ge 8 ]; then pass; else fail 'few pages'; fi

# package WORDS...: what the compiler needs for the library, as pkg-config has it from what is installed.
package() {
    PKG_CONFIG_PATH=$R/opt/tds/lib/pkgconfig PKG_CONFIG_SYSROOT_DIR=$R pkg-config "$@"
}
try 'a viewer outside the repository, built with pkg-config alone'
mkdir "$T/outside"
cp examples/viewer.c "$T/outside"
cp samples/edition/adze.3ds "$T/outside"
if ! command -v pkg-config >/dev/null; then
    skip 'there is no pkg-config'
elif ! package --cflags --libs tds >"$T/flags" 2>"$T/err"; then
    fail 'pkg-config does not know the library'
else
    # Both are lists of words.
    # shellcheck disable=SC2046,SC2086
    if (cd "$T/outside" && ${CC:-cc} ${CFLAGS:-} viewer.c $(cat "$T/flags") -o viewer) >"$T/out" 2>"$T/err"
    then pass; else fail 'does not build'; fi
    run "$T/outside/viewer" "$T/outside/adze.3ds"
    status_is 0
    has out 'mesh 1 "handle": vertices 60, faces 116'
    package --modversion tds >"$T/out" 2>"$T/err"
    matches out '[0-9]+\.[0-9]+\.[0-9]+'
    if grep -q '^#define TDS_VERSION' include/tds.h; then
        cat >"$T/outside/version.c" <<'END'
#include <stdio.h>
#include <tds.h>
int main(void) { int v = TDS_VERSION; printf("%d.%d.%d\n", v >> 16, v >> 8 & 255, v & 255); return 0; }
END
        # shellcheck disable=SC2046,SC2086
        (cd "$T/outside" && ${CC:-cc} ${CFLAGS:-} version.c $(cat "$T/flags") -o version && ./version) >"$T/version" 2>"$T/err"
        same 'the version of the package and of the header' "$T/out" "$T/version"
    fi
fi

try 'other places, with a space in one'
D="$T/a root"
made BUILD="$BUILD" install DESTDIR="$D" PREFIX=/usr LIBDIR=/usr/lib/x86_64-linux-gnu MANDIR=/usr/man
status_is 0
for file in usr/bin/stick usr/include/tds.h usr/lib/x86_64-linux-gnu/libtds.a usr/lib/x86_64-linux-gnu/pkgconfig/tds.pc \
    usr/man/man1/stick.1 usr/man/man3/tds.3; do
    if [ -s "$D/$file" ]; then pass; else fail "no $file"; fi
done
# shellcheck disable=SC2016
if grep -qx 'libdir=${prefix}/lib/x86_64-linux-gnu' "$D/usr/lib/x86_64-linux-gnu/pkgconfig/tds.pc"; then pass; else fail 'another libdir'; fi
if grep -q @ "$D/usr/lib/x86_64-linux-gnu/pkgconfig/tds.pc"; then fail 'a gap was left in tds.pc'; else pass; fi

try 'what was installed is taken away again, and nothing else'
echo mine >"$D/usr/include/mine.h"
made BUILD="$BUILD" uninstall DESTDIR="$D" PREFIX=/usr LIBDIR=/usr/lib/x86_64-linux-gnu MANDIR=/usr/man
status_is 0
if [ "$(cd "$D" && find . ! -type d)" = ./usr/include/mine.h ]; then pass; else fail "$(find "$D" ! -type d)"; fi
if [ -e "$D/usr/share/doc/tds" ]; then fail 'an empty folder is left'; else pass; fi

try 'a prefix with a space, an ampersand and an apostrophe; a library with them in its path'
odd="$T/a & b's"
mkdir "$odd"
cp "$TDS_LIB" "$odd/libtds.a"
made BUILD="$BUILD" install PREFIX="$odd/tds" TDS_LIB="$odd/libtds.a"
status_is 0
if grep -qxF "prefix=$odd/tds" "$odd/tds/lib/pkgconfig/tds.pc"; then pass; else fail "$(head -n 1 "$odd/tds/lib/pkgconfig/tds.pc")"; fi
if ! command -v pkg-config >/dev/null; then skip 'there is no pkg-config'; else
    # pkg-config writes the paths as the shell reads them
    (cd "$T/outside" && eval "${CC:-cc} ${CFLAGS:-} viewer.c $(PKG_CONFIG_PATH="$odd/tds/lib/pkgconfig" pkg-config --cflags --libs tds) -o odd") \
        >"$T/out" 2>"$T/err"
    run "$T/outside/odd" "$T/outside/adze.3ds"
    status_is 0
fi
made BUILD="$BUILD" uninstall PREFIX="$odd/tds"
status_is 0
if [ "$(find "$odd" ! -type d)" = "$odd/libtds.a" ]; then pass; else fail "$(find "$odd" ! -type d)"; fi

try 'others can read what someone with a strict umask installs'
(umask 077 && made BUILD="$BUILD" install DESTDIR="$T/strict" PREFIX=/usr && exit "$status")
status=$?
status_is 0
chmod 755 "$T/strict"
if [ -z "$(find "$T/strict" ! -type l ! -perm -o=r)" ]; then pass; else fail "$(find "$T/strict" ! -type l ! -perm -o=r | head -n 3)"; fi

try 'the tool was linked with a library from elsewhere: what is missing is named'
made BUILD="$BUILD" install DESTDIR="$T/none" TDS_LIB="$T/not here/libtds.a"
status_is 2
has err "There is no library to install: $T/not here/libtds.a is not there. Name the one that was linked: make install TDS_LIB="
if [ -e "$T/none" ]; then fail 'something was made'; else pass; fi

try 'nothing is built by installing'
made BUILD="$T/not-built" install DESTDIR="$T/none"
status_is 2
has err "There is nothing to install yet: make first (no $T/not-built/stick)"
if [ -e "$T/none" ] || [ -e "$T/not-built" ]; then fail 'something was made'; else pass; fi
finish install_test
