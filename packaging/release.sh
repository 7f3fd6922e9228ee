#!/bin/sh
# release.sh: what people without the kit get, for x86-64 Linux, into the folder RELEASE:
#
#   tds-VERSION-x86_64-linux.tar.gz   one folder, which may stand anywhere
#   tds_VERSION_amd64.deb             the same for Debian, below /usr; only where there is dpkg-deb
#   SHA256SUMS                        of both
#
# Called by make from the top of the repository, with RELEASE and with what install.sh takes, but for the places.
set -eu
umask 022
mkdir -p "$RELEASE"
RELEASE=$(cd "$RELEASE" && pwd)
work=$(mktemp -d)
trap 'rm -rf "$work"' EXIT
folder=tds-$VERSION-x86_64-linux
archive=$folder.tar.gz
package=tds_${VERSION}_amd64.deb
# the same sources give the same files
SOURCE_DATE_EPOCH=${SOURCE_DATE_EPOCH:-$(git log -1 --format=%ct 2>/dev/null || date +%s)}
export SOURCE_DATE_EPOCH

# tree DESTDIR PREFIX LIBDIR PC_PREFIX: everything, installed there.
tree() {
    DESTDIR=$1 PREFIX=$2 LIBDIR=$3 PC_PREFIX=$4 INCLUDEDIR=$2/include MANDIR=$2/share/man DOCDIR=$2/share/doc/tds \
        sh packaging/install.sh install >/dev/null
}

# filled NAME KILOBYTES: packaging/NAME.in with its gaps filled.
filled() {
    sed -e "s/@VERSION@/$VERSION/; s/@MAJOR@/${VERSION%%.*}/; s/@KILOBYTES@/$2/" "packaging/$1.in"
}

make_archive() {
    # for pkg-config alone
    # shellcheck disable=SC2016
    tree "$work/archive" "/$folder" "/$folder/lib" '${pcfiledir}/../..'
    filled USING.md 0 >"$work/archive/$folder/README.md"
    cp LICENSE "$work/archive/$folder"
    tar --sort=name --owner=0 --group=0 --numeric-owner --mtime="@$SOURCE_DATE_EPOCH" -C "$work/archive" -cf - "$folder" |
        gzip -n >"$RELEASE/$archive"
}

make_package() {
    tree "$work/package" /usr /usr/lib/x86_64-linux-gnu /usr
    ln -s LICENSE "$work/package/usr/share/doc/tds/copyright"
    mkdir "$work/package/DEBIAN"
    filled control "$(du -sk "$work/package/usr" | cut -f 1)" >"$work/package/DEBIAN/control"
    echo 'activate-noawait ldconfig' >"$work/package/DEBIAN/triggers"
    dpkg-deb --root-owner-group --build "$work/package" "$RELEASE/$package" >/dev/null
}

rm -f "$RELEASE/SHA256SUMS"
make_archive
made=$archive
if command -v dpkg-deb >/dev/null; then
    make_package
    made="$archive $package"
else
    echo 'dpkg-deb is not here: no .deb was made' >&2
fi
# names without spaces
# shellcheck disable=SC2086
(cd "$RELEASE" && sha256sum $made >SHA256SUMS && cat SHA256SUMS)
