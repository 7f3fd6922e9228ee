#!/bin/sh
# What the shell tests of the C side share. Sourced; BUILD says where the programs are, RUN what
# runs them (for instance valgrind). Every check is counted, and one that fails says what it saw.
set -u
BUILD=${BUILD:-build}
RUN=${RUN:-}
passed=0
failed=0
what='(no test yet)'
status=0
T=$(mktemp -d "${TMPDIR:-/tmp}/tds-test.XXXXXX") || exit 2
trap 'chmod -R u+rwx "$T" 2>/dev/null; rm -rf "$T"' EXIT
trap 'exit 2' HUP INT TERM

# try WORDS...: what the next checks are about.
try() {
    what=$*
}

pass() {
    passed=$((passed + 1))
}

# fail WORDS...: says what was wrong, and what the program printed.
fail() {
    failed=$((failed + 1))
    echo "FAILED: $what: $*"
    sed 's/^/    out: /' "$T/out" 2>/dev/null | head -n 12
    sed 's/^/    err: /' "$T/err" 2>/dev/null | head -n 12
}

skip() {
    echo "skipped: $what: $*"
}

# run PROGRAM ARGUMENTS...: keeps status, $T/out and $T/err. A program that hangs has status 124.
run() {
    # RUN is a command with its arguments, so it is split.
    # shellcheck disable=SC2086
    timeout 60 $RUN "$@" >"$T/out" 2>"$T/err"
    status=$?
}

status_is() {
    if [ "$status" -eq "$1" ]; then pass; else fail "exit status $status instead of $1"; fi
}

# has out|err TEXT: one line holds this text.
has() {
    if grep -qF -e "$2" "$T/$1"; then pass; else fail "no line of $1 has: $2"; fi
}

# matches out|err PATTERN: one line is of this pattern, from its start to its end.
matches() {
    if grep -qxE -e "$2" "$T/$1"; then pass; else fail "no line of $1 matches: $2"; fi
}

lacks() {
    if grep -qF -e "$2" "$T/$1"; then fail "a line of $1 has: $2"; else pass; fi
}

# lines out|err COUNT
lines() {
    seen=$(wc -l <"$T/$1")
    if [ "$seen" -eq "$2" ]; then pass; else fail "$seen lines of $1 instead of $2"; fi
}

# same WORDS FILE FILE
same() {
    if cmp -s "$2" "$3"; then pass; else fail "$1: $2 and $3 differ"; fi
}

finish() {
    echo "$1: $passed passed, $failed failed"
    [ "$failed" -eq 0 ]
}

# A Caligari figure with nothing in it: the file's header, and END.
caligari() {
    printf 'Caligari V00.01BLH             \n'
    printf 'END \001\0\0\0\0\0\0\0\0\0\0\0\377\377\377\377'
}

# A Cinema 4D figure with nothing in it.
cinema() {
    printf 'FORM\0\0\0\004MC4D'
}

# The triangle of docs/FORMAT.md.
triangle() {
    printf 'MM\126\0\0\0==\120\0\0\0\0@\112\0\0\0A\0\0A\102\0\0\0\020A\054\0\0\0\003\0'
    printf '\0\0\0\0\0\0\0\0\0\0\0\0\0\0\200\077\0\0\0\0\0\0\0\0\0\0\0\0\0\0\200\077\0\0\0\0'
    printf '\040A\020\0\0\0\001\0\0\0\001\0\002\0\0\0'
}
