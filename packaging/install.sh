#!/bin/sh
# install.sh install     puts what was built below DESTDIR; it builds nothing
# install.sh uninstall   takes away what install put there, and nothing else
#
# Called by make from the top of the repository. Every place comes in a variable, so that it may hold any character but a newline:
# TDS_LIB, TDS_SHARED (may be empty), STICK_PROGRAM, VERSION, DESTDIR, PREFIX, LIBDIR, INCLUDEDIR, MANDIR, DOCDIR, and
# PC_PREFIX: the prefix as tds.pc has it.
set -eu
made=

# Every file and link: DO MODE SOURCE TARGET, and for a link DO link TEXT TARGET.
each() {
    "$1" 755 "$STICK_PROGRAM" "$PREFIX/bin/stick"
    "$1" 644 include/tds.h "$INCLUDEDIR/tds.h"
    "$1" 644 include/tds_words.h "$INCLUDEDIR/tds_words.h"
    "$1" 644 stick/stick.1 "$MANDIR/man1/stick.1"
    each_of_library "$1"
    each_page "$1"
    each_document "$1"
}

each_of_library() {
    "$1" 644 "$TDS_LIB" "$LIBDIR/libtds.a"
    "$1" 644 "$made/tds.pc" "$LIBDIR/pkgconfig/tds.pc"
    "$1" 644 "$made/tds-config.cmake" "$LIBDIR/cmake/tds/tds-config.cmake"
    "$1" 644 "$made/tds-config-version.cmake" "$LIBDIR/cmake/tds/tds-config-version.cmake"
    if [ -n "$TDS_SHARED" ]; then
        "$1" 644 "$TDS_SHARED" "$LIBDIR/libtds.so.$VERSION"
        "$1" link "libtds.so.$VERSION" "$LIBDIR/libtds.so.${VERSION%%.*}"
        "$1" link "libtds.so.${VERSION%%.*}" "$LIBDIR/libtds.so"
    fi
}

# tds(3), and the same page by the name of each call.
each_page() {
    "$1" 644 include/tds.3 "$MANDIR/man3/tds.3"
    # names without spaces; those with a _ at their end are for the headers themselves
    # shellcheck disable=SC2013
    for call in $(sed -n 's/^\(TDS_INLINE \)\{0,1\}[a-z].*[ *]\(tds_[a-z0-9_]*[a-z0-9]\)(.*/\2/p' include/tds.h include/tds_words.h); do
        "$1" link tds.3 "$MANDIR/man3/$call.3"
    done
}

# The pages and examples, side by side as in the repository, so that their links lead somewhere.
each_document() {
    for document in LICENSE README.md CHANGELOG.md CONTRIBUTING.md docs/*.md docs/*.svg examples/*.c; do
        "$1" 644 "$document" "$DOCDIR/$document"
    done
    for header in tds.h tds_words.h; do
        "$1" link "$(relative "$INCLUDEDIR/$header" "$DOCDIR/include")" "$DOCDIR/include/$header"
    done
}

# relative TARGET FOLDER: the way from the folder to the target.
relative() {
    realpath -m -s --relative-to="$2" "$1"
}

put() {
    if [ "$1" = link ]; then
        install -d "$(dirname "$DESTDIR$3")"
        ln -sfn "$2" "$DESTDIR$3"
    else
        install -D -m "$1" "$2" "$DESTDIR$3"
    fi
}

take() {
    rm -f "$DESTDIR$3"
}

# below PLACE: the place as tds.pc has it, told from ${prefix} where it is below that.
below() {
    # shellcheck disable=SC2016
    case $1 in
    "$PREFIX"/*) printf '${prefix}%s\n' "${1#"$PREFIX"}" ;;
    *) printf '%s\n' "$1" ;;
    esac
}

# as TEXT: so that sed takes it for just that text.
as() {
    printf '%s\n' "$1" | sed 's/[\\&|]/\\&/g'
}

# filled NAME: packaging/NAME.in with its gaps filled.
filled() {
    sed -e "s|@PREFIX@|$(as "$PC_PREFIX")|" -e "s|@LIBDIR@|$(as "$(below "$LIBDIR")")|" \
        -e "s|@INCLUDEDIR@|$(as "$(below "$INCLUDEDIR")")|" -e "s|@VERSION@|$VERSION|" -e "s|@MAJOR@|${VERSION%%.*}|" \
        -e "s|@INCLUDE_FROM_LIB@|$(as "$(relative "$INCLUDEDIR" "$LIBDIR")")|" "packaging/$1.in" >"$made/$1"
}

# there FILE WORDS...: or these words, and the end.
there() {
    if ! [ -f "$1" ]; then
        shift
        printf '%s\n' "$*" >&2
        exit 1
    fi
}

case $1 in
install)
    there "$STICK_PROGRAM" "There is nothing to install yet: make first (no $STICK_PROGRAM)"
    there "$TDS_LIB" "There is no library to install: $TDS_LIB is not there. Name the one that was linked: make install TDS_LIB=…"
    made=$(mktemp -d)
    trap 'rm -rf "$made"' EXIT
    filled tds.pc
    filled tds-config.cmake
    filled tds-config-version.cmake
    each put
    echo "Installed: version $VERSION, below $DESTDIR$PREFIX"
    ;;
uninstall)
    each take
    rmdir "$DESTDIR$DOCDIR/docs" "$DESTDIR$DOCDIR/examples" "$DESTDIR$DOCDIR/include" "$DESTDIR$DOCDIR" \
        "$DESTDIR$LIBDIR/cmake/tds" 2>/dev/null || true # they may hold another's files
    ;;
esac
