#!/bin/sh
# Runs all tests of the C side, from the top of the repository; the last line adds their counts up.
set -u
BUILD=${BUILD:-build}
# shellcheck source=tests/c/counting.sh
. tests/c/counting.sh

# The tests of the bench tool run beside the others.
side=$(mktemp -d "${TMPDIR:-/tmp}/tds-side.XXXXXX") || exit 2
trap 'rm -rf "$side"' EXIT
tool='stick pass terminal medium against slip slip_write volume copy batch rescue run random'
for test in $tool; do
    sh "tests/c/${test}_test.sh" >"$side/$test" 2>&1
    echo $? >"$side/$test.status"
done &

one sh tests/c/counting_test.sh
one sh tests/c/header_test.sh
one sh tests/c/words_test.sh
one sh tests/c/facts_test.sh
# RUN is a command with its arguments, so it is split.
# shellcheck disable=SC2086
one ${RUN:-} "$BUILD/c-test/boundary_test"
# shellcheck disable=SC2086
one ${RUN:-} "$BUILD/c-test/decide_test"
one sh tests/c/samples_test.sh
one sh tests/c/viewer_test.sh
one sh tests/c/launch_test.sh
one sh tests/c/install_test.sh
one sh tests/c/release_test.sh
one sh tests/c/readme_test.sh
wait
for test in $tool; do
    judge "$(cat "$side/$test.status")" "$(cat "$side/$test")" "tests/c/${test}_test.sh"
done
echo "c-test: $all_passed passed, $all_failed failed"
[ "$all_failed" -eq 0 ]
