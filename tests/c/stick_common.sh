#!/bin/sh
# What the tests of the bench tool share. Sourced.
# shellcheck source=tests/c/common.sh
. tests/c/common.sh
S=$(cd "$BUILD" && pwd)/stick
HELPERS=$(cd "$BUILD/c-test" && pwd)
seconds='in [0-9]+\.[0-9] seconds'
unset NO_COLOR FAULT
# (Leaks cannot be looked for in a program that is traced, nor a library be loaded before the sanitizer's.)
TRACED_ASAN=detect_leaks=0
FAULTS_ASAN=verify_asan_link_order=0

# stick ARGUMENTS...
stick() {
    run "$S" "$@"
}

# traced WHAT ARGUMENT FILE ARGUMENTS...: stick as tests/c/traced.c watches it; false where nothing may be traced.
traced() {
    # shellcheck disable=SC2086
    (what=$1 argument=$2 file=$3; shift 3
    ASAN_OPTIONS=$TRACED_ASAN timeout 60 "$HELPERS/traced" "$what" "$argument" "$file" $RUN "$S" "$@") >"$T/out" 2>"$T/err"
    status=$?
    if [ "$status" -eq 125 ]; then
        skip "$(cat "$T/err")"
        return 1
    fi
}

# faulty FAULT ARGUMENTS...: stick with a call that fails, as tests/c/faults.c says it.
faulty() {
    fault=$1
    shift
    # shellcheck disable=SC2086
    ASAN_OPTIONS=$FAULTS_ASAN LD_PRELOAD=$HELPERS/faults.so FAULT=$fault timeout 60 $RUN "$S" "$@" >"$T/out" 2>"$T/err"
    status=$?
}
# shellcheck disable=SC2034
EIO=5 ENODEV=19 EINVAL=22 ENOSPC=28 EILSEQ=84 # Linux's numbers

# passes FIGURES, structure FIGURES and unsealed FIGURES REFUSED UNCHECKED: the last line.
passes() {
    last "PASS: ([0-9]+ folders, )?$1 figures? checked, 0 refused, $seconds(; .*)?"
}
structure() {
    last "STRUCTURE ONLY: ([0-9]+ (folders|files), )?$1 figures? checked, 0 refused, $seconds(; .*)?"
}
unsealed() {
    if [ "$3" -eq 0 ]; then more=; else more="$3 could not be checked, "; fi
    last "DO NOT SEAL: ([0-9]+ of [0-9]+ (folders|files), )?$1 figures? checked, $2 refused, $more$seconds: see above(; .*)?"
}
# last PATTERN: of the last line, with those that are set in below it: its details behind a semicolon.
last() {
    if awk '/^    / { line = line substr($0, 4); next } /^  / { line = line "; " substr($0, 3); next } { line = $0 } END { print line }' \
        "$T/out" | grep -qxE -e "$1"; then pass; else fail "the last line is not: $1"; fi
    if awk 'length > 80 && /^(PASS|STRUCTURE ONLY|DO NOT SEAL|  )/ { bad = 1 } END { exit bad }' "$T/out"; then pass; else fail 'over 80 columns'; fi
}

# lines out|err COUNT: as in common.sh, but for the lines that are set in below another.
lines() {
    seen=$(grep -cv '^  ' "$T/$1")
    if [ "$seen" -eq "$2" ]; then pass; else fail "$seen lines of $1 instead of $2"; fi
}

# folder NAME: a new empty folder, in $F.
folder() {
    F=$T/$1
    mkdir "$F"
}

# edition NAME: the figures of the sample edition without its slip, in $F.
edition() {
    folder "$1"
    cp samples/edition/*.3ds "$F"
}

# sample NAME: a copy of the sample edition with its slip, in $F.
sample() {
    edition "$1"
    cp samples/edition/stick.slip "$F"
}

# full_edition NAME: the sample edition with other files beside it, a long one and an empty one too: 7 figures of 10 files. Byte
# 42 of the triangle is in a coordinate, which can change without breaking a rule.
full_edition() {
    edition "$1"
    mkdir "$F/texts"
    printf 'read me\n' >"$F/texts/README.TXT"
    head -c 3000000 /dev/zero | tr '\0' 'x' >"$F/texts/film.bin"
    : >"$F/empty"
    triangle >"$F/triangle.3ds"
}

# slip FOLDER: what the slip of this folder should be, in $T/slip.
slip() {
    (cd "$1" && find . -type f ! -iname stick.slip | sed 's/^..//' | LC_ALL=C sort -f | tr '\n' '\0' |
        xargs -0 "$HELPERS/make_slip" .) >"$T/slip"
}

# turn FILE OFFSET: one bit of this byte is turned.
turn() {
    byte=$(od -An -tu1 -j "$2" -N 1 "$1")
    # shellcheck disable=SC2059
    printf "$(printf '\\%03o' $((byte ^ 1)))" | dd of="$1" bs=1 seek="$2" conv=notrunc 2>/dev/null
}

# await FILE PATTERN: until a line of the file is of this pattern; gives up after 60 seconds.
await() {
    tries=0
    until grep -qxE -e "$2" "$1" 2>/dev/null; do
        tries=$((tries + 1))
        if [ "$tries" -gt 600 ]; then
            fail "waited in vain for: $2"
            return 1
        fi
        sleep 0.1
    done
}
