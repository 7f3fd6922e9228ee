#!/bin/sh
# How the tests of the C side are counted together. Sourced. A test fails by its counts, by ending
# without them, and by its exit status: what valgrind finds, or a crash behind the counts, is only there.
all_passed=0
all_failed=0

# judge STATUS OUTPUT WORDS...: takes one test into account, and shows what it printed.
judge() {
    ended=$1
    output=$2
    shift 2
    printf '%s\n' "$output"
    counts=$(printf '%s\n' "$output" | sed -n 's/^[a-z_]*: \([0-9]*\) passed, \([0-9]*\) failed$/\1 \2/p' | tail -n 1)
    if [ -z "$counts" ]; then
        echo "FAILED: $*: ended without counts"
        counts='0 1'
    elif [ "$ended" -ne 0 ] && [ "${counts#* }" -eq 0 ]; then
        echo "FAILED: $*: exit status $ended behind its counts"
        counts="${counts% *} 1"
    fi
    all_passed=$((all_passed + ${counts% *}))
    all_failed=$((all_failed + ${counts#* }))
}

# one COMMAND...
one() {
    output=$("$@" 2>&1)
    judge "$?" "$output" "$@"
}
