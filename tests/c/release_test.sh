#!/bin/sh
# make release: one archive and one .deb for people who have neither kit nor repository. What is in them; then, where this machine
# lets us (root, mounts of our own), each is tried in a root of its own, in which there is nothing else.
# shellcheck source=tests/c/common.sh
. tests/c/common.sh
TDS_LIB=${TDS_LIB:-target/staticlib/libtds.a}
case ${RUN:-}${CFLAGS:-} in *valgrind* | *-fsanitize*)
    try 'the release'
    skip 'it is tried without valgrind and sanitizers'
    finish release_test
    exit
    ;;
esac
made() {
    (unset MAKEFLAGS MFLAGS MAKEOVERRIDES && timeout 120 make --no-print-directory -o "$TDS_LIB" TDS_LIB="$TDS_LIB" BUILD="$BUILD" \
        CC="${CC:-cc}" CFLAGS="${CFLAGS:-}" TDS_LINK="${TDS_LINK:-}" "$@") >"$T/out" 2>"$T/err"
    status=$?
}

try 'the release is made, and its sums are right'
# (-o below: make would take what was linked with an older library for good)
rm -f "$BUILD/libtds.so" "$BUILD/static/stick"
made release RELEASE="$T/release"
status_is 0
version=$(sed -n 's/^.define TDS_VERSION (65536 \* \([0-9]*\) + 256 \* \([0-9]*\) + \([0-9]*\))/\1.\2.\3/p' include/tds.h)
folder=tds-$version-x86_64-linux
if (cd "$T/release" && sha256sum -c SHA256SUMS) >"$T/out" 2>"$T/err"; then pass; else fail 'other sums'; fi
if [ -s "$T/release/$folder.tar.gz" ]; then pass; else fail 'no archive'; fi
mkdir "$T/root"
tar -C "$T/root" -xzf "$T/release/$folder.tar.gz"
R=$T/root/$folder

try 'what is in the archive'
for file in bin/stick lib/libtds.a lib/libtds.so lib/pkgconfig/tds.pc lib/cmake/tds/tds-config.cmake include/tds.h include/tds_words.h README.md \
    LICENSE share/man/man1/stick.1 share/man/man3/tds_check.3 share/doc/tds/README.md share/doc/tds/docs/FORMAT.md share/doc/tds/examples/write.c; do
    if [ -s "$R/$file" ]; then pass; else fail "no $file"; fi
done
if [ -z "$(find "$R" -xtype l)" ]; then pass; else fail "links that lead nowhere: $(find "$R" -xtype l)"; fi
if grep -rlF -e "$T" -e "$PWD" "$R" >"$T/out"; then fail 'a path of this machine'; else pass; fi

try 'libtds.so has its soname, and shows the calls of tds.h and nothing else'
if ! command -v readelf >/dev/null; then skip 'there is no readelf'; else
    if readelf -d "$R/lib/libtds.so" | grep -qF "soname: [libtds.so.${version%%.*}]"; then pass; else fail 'another soname'; fi
    sed -n 's/^uint64_t \(tds_[a-z0-9_]*\)(.*/\1/p' include/tds.h | sort >"$T/calls"
    nm -D --defined-only "$R/lib/libtds.so" | sed -n 's/.* T \([^@]*\).*/\1/p' | sort >"$T/seen"
    if cmp -s "$T/calls" "$T/seen"; then pass; else fail "$(diff "$T/calls" "$T/seen")"; fi
    if [ "$(nm -D --defined-only "$R/lib/libtds.so" | grep -vc -e ' T tds_' -e ' A TDS_')" -eq 0 ]; then pass; else fail 'more is seen'; fi
    if readelf -d "$R/bin/stick" | grep -q NEEDED; then fail 'the tool needs libraries'; else pass; fi
fi

# inside ROOT SCRIPT: runs a script in that root, with mounts of its own, where /usr of this machine is mounted in it.
inside() {
    # shellcheck disable=SC2016
    unshare -m sh -c 'for place in usr etc/alternatives; do
            mkdir -p "$1/$place" && mount --bind "/$place" "$1/$place" && mount -o remount,ro,bind "$1/$place" || exit 9
        done
        for name in bin sbin lib lib64; do [ -e "$1/$name" ] || ln -s "usr/$name" "$1/$name"; done
        mkdir -p "$1/dev" "$1/tmp" && : >"$1/dev/null"
        exec chroot "$1" /usr/bin/env -i PATH=/usr/bin:/bin HOME=/ sh -euc "$2"' sh "$1" "$2" >"$T/out" 2>"$T/err"
    status=$?
}

try 'in an empty root the tool checks a stick'
if [ "$(id -u)" -ne 0 ] || ! unshare -m mount --bind "$T" "$T" 2>/dev/null; then
    skip 'needs root, and mounts of its own'
    finish release_test
    exit
fi
mkdir "$T/root/stick"
cp samples/edition/*.3ds "$T/root/stick"
run chroot "$T/root" "/$folder/bin/stick" --write-slip /stick
status_is 0
run chroot "$T/root" "/$folder/bin/stick" /stick
status_is 0
has out 'PASS: 6 figures checked'
head -c 99 samples/edition/adze.3ds >"$T/root/stick/adze.3ds"
run chroot "$T/root" "/$folder/bin/stick" /stick
status_is 1
has out 'DO NOT SEAL'
cp samples/edition/adze.3ds "$T/root/stick"

try 'where neither kit nor repository is, a viewer is built from the archive: as its README says, with libtds.so, by CMake'
inside "$T/root" "cd $folder
    if [ -e '$PWD/Makefile' ] || command -v rt; then exit 8; fi
    $(sed -n 's/^    \(cc share.*\)/\1/p' "$R/README.md")
    ./viewer /stick/adze.3ds"
status_is 0
has out 'mesh 1 "handle": vertices 60, faces 116'
# shellcheck disable=SC2016
inside "$T/root" 'cd /tds-*
    cc share/doc/tds/examples/viewer.c -Iinclude -Llib -ltds -Wl,-rpath,"$PWD/lib" -o shared
    ./shared /stick/adze.3ds
    mv lib/libtds.so.2 lib/gone && ! ./shared /stick/adze.3ds && mv lib/gone lib/libtds.so.2'
status_is 0
has out 'mesh 1 "handle"'
if ! command -v cmake >/dev/null; then skip 'there is no cmake'; else
    mkdir "$T/root/cmake"
    cat >"$T/root/cmake/CMakeLists.txt" <<END
cmake_minimum_required(VERSION 3.13)
project(viewer C)
find_package(tds ${version%.*} REQUIRED)
add_executable(viewer /$folder/share/doc/tds/examples/viewer.c)
target_link_libraries(viewer PRIVATE tds::tds)
add_executable(shared /$folder/share/doc/tds/examples/viewer.c)
target_link_libraries(shared PRIVATE tds::shared)
find_package(tds 1 QUIET)
if(tds_FOUND)
  message(FATAL_ERROR "another major version is taken")
endif()
END
    inside "$T/root" "cmake -S cmake -B cmake/build -DCMAKE_PREFIX_PATH=/$folder >/dev/null && make -s -C cmake/build
        cmake/build/viewer /stick/adze.3ds && cmake/build/shared /stick/vice.3ds"
    status_is 0
    has out 'mesh 1 "handle"'
    has out 'part 1 "moving jaw" on part 0'
fi

try 'dpkg installs the .deb, what it put there works, and dpkg removes it'
deb=$T/release/tds_${version}_amd64.deb
if ! [ -s "$deb" ]; then skip 'there is no dpkg-deb'; else
    D=$T/debian
    mkdir -p "$D/var/lib/dpkg/updates" "$D/var/lib/dpkg/info" "$D/stick"
    printf 'Package: libc6\nStatus: install ok installed\nVersion: 2.36\nArchitecture: amd64\nMaintainer: x\nDescription: x\n' >"$D/var/lib/dpkg/status"
    cp samples/edition/*.3ds "$D/stick"
    run dpkg --root="$D" --force-not-root --install "$deb"
    status_is 0
    run chroot "$D" /usr/bin/stick --write-slip /stick
    status_is 0
    for file in usr/include/tds.h usr/lib/x86_64-linux-gnu/libtds.so.2 usr/share/man/man3/tds_check.3 usr/share/doc/tds/copyright; do
        if [ -s "$D/$file" ]; then pass; else fail "no $file"; fi
    done
    run env PKG_CONFIG_PATH="$D/usr/lib/x86_64-linux-gnu/pkgconfig" pkg-config --variable=libdir tds
    matches out /usr/lib/x86_64-linux-gnu
    run dpkg --root="$D" --remove tds
    status_is 0
    if [ "$(find "$D/usr" ! -type d 2>/dev/null | wc -l)" -eq 0 ]; then pass; else fail "left: $(find "$D/usr" ! -type d)"; fi
fi
finish release_test
