#!/bin/sh
# The counting itself: nothing that went wrong may be counted as passed.
# shellcheck source=tests/c/common.sh
. tests/c/common.sh
# shellcheck source=tests/c/counting.sh
. tests/c/counting.sh

# counted PASSED FAILED COMMAND...: what this command adds to the counts.
counted() {
    right="$1 $2"
    shift 2
    all_passed=0
    all_failed=0
    one "$@" >"$T/out"
    if [ "$all_passed $all_failed" = "$right" ]; then pass; else fail "$all_passed $all_failed instead of $right"; fi
}

try 'a test that passes'
counted 3 0 echo 'a_test: 3 passed, 0 failed'
try 'a test that fails'
counted 3 2 sh -c 'echo "a_test: 3 passed, 2 failed"; exit 1'
try 'no counts'
counted 0 1 echo 'nothing to say'
try 'an error that only the exit status tells, as of valgrind'
counted 3 1 sh -c 'echo "a_test: 3 passed, 0 failed"; exit 99'
has out 'exit status 99 behind its counts'
try 'a crash behind the counts'
{ counted 3 1 sh -c 'echo "a_test: 3 passed, 0 failed"; kill -s SEGV $$'; } 2>/dev/null # where the shell says so
try 'the last of several counts decides'
counted 5 0 printf 'a_test: 3 passed, 1 failed\nb_test: 5 passed, 0 failed\n'
finish counting_test
