#!/bin/sh
# The generator makes the samples that are kept, byte for byte; the edition is accepted whole, and
# each damaged figure is refused with the number and place that the rules give.
# shellcheck source=tests/c/common.sh
. tests/c/common.sh

try 'the generator makes what is kept'
mkdir "$T/again"
run "$BUILD/make_samples" "$T/again"
status_is 0
run "$BUILD/stick" --write-slip "$T/again/edition"
status_is 0
for folder in edition old damaged caligari c4d; do
    (cd samples/$folder && ls) >"$T/kept"
    (cd "$T/again/$folder" && ls) >"$T/made"
    same "the names in $folder" "$T/kept" "$T/made"
    while read -r file; do
        same "$folder" "samples/$folder/$file" "$T/again/$folder/$file"
    done <"$T/kept"
done

try 'the edition is accepted, and as its slip says'
run "$BUILD/stick" samples/edition
status_is 0
has out 'PASS: 6 figures checked'

try 'the older figure is accepted, and refused where it says that it is of version 3'
run "$BUILD/stick" --structure samples/old
status_is 0
mkdir "$T/newer"
{ head -c 12 samples/old/gouge.3ds; printf '\003'; tail -c +14 samples/old/gouge.3ds; } >"$T/newer/gouge.3ds"
run "$BUILD/stick" "$T/newer"
has out 'gouge.3ds: refused: COUNT (13)'
status_is 1

try 'there is a damaged sample for each refusal from 2 to 14, and for 23 and 24'
for number in 2 3 4 5 6 7 8 9 10 11 12 13 14 23 24; do
    if grep -q " $number " samples/damaged/expected.txt; then pass; else fail "none for $number"; fi
done

try 'there is a damaged Cinema 4D sample for each of its refusals'
for number in 0 5 10 25 26 27 28; do
    if grep -q " $number " samples/c4d/expected.txt; then pass; else fail "none for $number"; fi
done

try 'every damaged sample has its refusal'
run "$BUILD/stick" samples/damaged
status_is 1
while read -r file number place; do
    name=$(echo "$file" | sed 's/-.*//' | tr '[:lower:]' '[:upper:]')
    matches out "samples/damaged/$file: refused: $name.* \($number\): .*, at byte $place: .*"
done <samples/damaged/expected.txt
lines out $(($(wc -l <samples/damaged/expected.txt) + 4)) # what was not looked at, and a verdict of three lines

try 'the one that is too long'
mkdir "$T/long"
run "$BUILD/make_samples" --too-long "$T/long/too-long.3ds"
status_is 0
run "$BUILD/stick" "$T/long"
has out 'too-long.3ds: refused: TOO LONG (1): the file is longer than a figure may be'
status_is 1

try 'the swallowed handle is one turned bit'
different=$(cmp -l samples/edition/adze.3ds \
    samples/damaged/misplaced-handle-swallowed-length-bit-turned.3ds | wc -l)
if [ "$different" -eq 1 ]; then pass; else fail "$different bytes differ"; fi

try 'the generator on a wrong command line'
run "$BUILD/make_samples"
status_is 2
try 'the generator where it cannot write'
run "$BUILD/make_samples" "$T/nowhere"
status_is 1
try 'every call keeps to the stack that tds.h says it needs'
run "$BUILD/c-test/small_stack" samples/edition/*.3ds samples/damaged/*.3ds samples/caligari/*.cob samples/c4d/*.c4d samples/old/*.3ds
status_is 0
matches out '[0-9]{3,} calls'
finish samples_test
