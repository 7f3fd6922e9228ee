#!/bin/sh
# The example of the first launch: a stick is as it left the house, or it is said what is not to be shown.
# shellcheck source=tests/c/common.sh
. tests/c/common.sh
L=$(cd "$BUILD" && pwd)/launch
HELPERS=$(cd "$BUILD/c-test" && pwd)
unset FAULT

# edition: a new copy of the sample edition with its slip, in $F, and a text in a folder.
edition() {
    rm -rf "$T/stick"
    F=$T/stick
    mkdir -p "$F/notes"
    cp samples/edition/*.3ds "$F"
    echo 'Keep it dry.' >"$F/notes/readme.txt"
    slip
}

# slip: the slip of all that is there, in place of the one that is.
slip() {
    rm -f "$F/stick.slip"
    self_naming_slip
}
self_naming_slip() {
    (cd "$F" && find . -type f | sed 's/^..//' | xargs "$HELPERS/make_slip" . >"$T/slip") && mv "$T/slip" "$F/stick.slip"
}

good() {
    run "$L" "$F"
    status_is 0
    matches out 'This stick is as it left the house: every figure on it may be shown\.'
    lines out 1
}

# bad WHY FIGURES: why the stick is not, and how many figures may be shown.
bad() {
    run "$L" "$F"
    status_is 1
    has out "This stick is not as it left the house ($1). Not to be shown:"
    matches out "Figures that may be shown: $2"
    lacks out 'every figure on it may be shown'
}

changed='a file on the stick is not the one of the slip'
unchecked='something on the stick was not looked at, or not whole'
unexpected='something is on the stick that the slip does not have'
absent='a file of the slip is not on the stick'

try 'a stick as it left the house'
edition
good
F=samples/edition
good
try 'names in capitals'
edition
mv "$F/adze.3ds" "$F/ADZE.3DS"
mv "$F/notes" "$F/Notes"
mv "$F/stick.slip" "$F/STICK.SLIP"
good

try 'a figure with a bit turned'
edition
printf '\001' | dd of="$F/adze.3ds" bs=1 seek=100 conv=notrunc 2>"$T/err"
bad "$changed" 5
matches out 'adze\.3ds: a file is not the one that the slip speaks of'
lines out 3
try 'a figure cut off'
edition
head -c 500 "$F/saw.3ds" >"$T/part" && mv "$T/part" "$F/saw.3ds"
bad "$changed" 5
has out 'saw.3ds: a file is not the one'
try 'two figures exchanged'
edition
mv "$F/saw.3ds" "$F/x" && mv "$F/plane.3ds" "$F/saw.3ds" && mv "$F/x" "$F/plane.3ds"
bad "$changed" 4
has out 'plane.3ds: '
has out 'saw.3ds: '
try 'a figure that is gone'
edition
rm "$F/vice.3ds"
bad "$absent" 5
matches out 'vice\.3ds: it is not there'
lines out 3
try 'a figure more, and a text more'
edition
cp "$F/saw.3ds" "$F/new.3ds"
bad "$unexpected" 6
matches out 'new\.3ds: it is not on the slip'
edition
echo x >"$F/notes/x"
bad "$unexpected" 6
matches out 'notes/x: it is not on the slip'
try 'a text that is not what it was: all figures may be shown'
edition
echo x >>"$F/notes/readme.txt"
bad "$changed" 6
has out 'notes/readme.txt: '
try 'an empty folder more'
edition
mkdir "$F/empty"
bad "$unexpected" 6
lines out 2
try 'a figure that its reader refuses, though it is the one of the slip'
edition
cp samples/damaged/overrun-length-bit-turned.3ds "$F/adze.3ds"
slip
bad 'a figure on the stick is refused by its reader' 5
matches out 'adze\.3ds: a length runs past the end of the chunk around it'
try 'a figure that is too long'
edition
head -c 2000000 /dev/zero >>"$F/adze.3ds"
slip
bad 'a figure on the stick is refused by its reader' 5
matches out 'adze\.3ds: the file is longer than a figure may be \(1,048,576 bytes\)'
try 'no figure at all'
edition
rm "$F"/*.3ds
slip
bad 'there is no figure on the stick' 0

try 'no slip, or one of another name'
edition
mv "$F/stick.slip" "$T/kept"
bad 'there is no slip' 0
matches out 'adze\.3ds: it is not on the slip'
for name in rtick.slip 'stick (1).slip' stick.slip~ notes/stick.slip; do
    edition
    mv "$F/stick.slip" "$F/$name"
    bad 'there is no slip' 0
done
try 'a broken slip, an empty one, and one of another edition'
edition
head -c 40 "$T/kept" >"$F/stick.slip"
bad 'the slip breaks the rules of slips' 0
: >"$F/stick.slip"
bad 'there is no slip' 0
cat "$T/kept" /dev/zero 2>/dev/null | head -c 100000 >"$F/stick.slip"
bad 'the slip breaks the rules of slips' 0
"$HELPERS/make_slip" "$F" vice.3ds saw.3ds >"$T/slip" && mv "$T/slip" "$F/stick.slip"
bad "$unexpected" 2
has out 'adze.3ds: it is not on the slip'
try 'an entry for the slip itself'
edition
self_naming_slip
bad "$absent" 6

try 'links, pipes and folders in the place of files'
edition
ln -sf "$(pwd)/samples/edition/adze.3ds" "$F/adze.3ds"
bad "$unchecked" 5
matches out 'adze\.3ds: it cannot be read'
edition
rm "$F/adze.3ds" && mkfifo "$F/adze.3ds"
bad "$unchecked" 5
edition
rm "$F/adze.3ds" && mkdir "$F/adze.3ds"
bad "$unexpected" 5
edition
rm -r "$F/notes" && ln -s "$T" "$F/notes"
bad "$unchecked" 6
try 'a file longer than any on a slip'
edition
if truncate -s 281474976710656 "$F/notes/readme.txt" 2>"$T/err" || truncate -s 5000000000 "$F/notes/readme.txt" 2>"$T/err"; then
    bad "$unchecked" 6
    has out 'notes/readme.txt: it cannot be read'
fi
try 'a name that a terminal would obey, and one that is too long for a slip'
edition
: >"$F/$(printf 'a\033[2Jb.txt')"
bad "$unexpected" 6
matches out 'a\?\[2Jb\.txt: it is not on the slip'
edition
: >"$F/$(printf '%0200d' 0).3ds"
bad "$unchecked" 6
has out '000.3ds: it is not on the slip'
mkdir -p "$F/$(printf '%060d' 0)/$(printf '%0200d' 0)/deeper"
bad "$unchecked" 6

# Two names of one file, as only a file system that tells letters apart can have them.
try 'a figure that is there twice'
edition
if cp "$F/adze.3ds" "$F/Adze.3ds" && [ "$(find "$F" -iname adze.3ds | wc -l)" -eq 2 ]; then
    bad "$unexpected" 5
    has out 'adze.3ds: it is there twice'
fi

try 'more things than it has memory for'
edition
# shellcheck disable=SC2046
(cd "$F/notes" && touch $(seq 4200))
run "$L" "$F"
status_is 1
lacks out 'every figure on it may be shown'

# faulty FAULT: what fails is not good, and nothing is said of a file that was not read to its end.
faulty() {
    # shellcheck disable=SC2086
    ASAN_OPTIONS=verify_asan_link_order=0 LD_PRELOAD=$HELPERS/faults.so FAULT=$1 timeout 60 $RUN "$L" "$F" >"$T/out" 2>"$T/err"
    status=$?
    status_is 1
    has out 'This stick is not as it left the house'
}
try 'a stick that stops answering'
edition
for count in 0 1 2; do
    faulty "read:5:adze.3ds:$count"
    matches out 'adze\.3ds: it cannot be read'
    matches out 'Figures that may be shown: 5'
done
faulty read:5:stick.slip
has out 'there is no slip'
for count in 0 1 3 7 13 14; do
    faulty "readdir:5:stick:$count"
done
faulty readdir:5:notes:2

try 'a folder that is not there, a file, no argument'
run "$L" "$T/nothing"
status_is 2
has err 'cannot be looked at'
run "$L" samples/edition/adze.3ds
status_is 2
run "$L"
status_is 2
lines out 0
try 'output that cannot be written'
if [ -w /dev/full ]; then
    for F in samples/edition samples/damaged; do
        # shellcheck disable=SC2086
        $RUN "$L" "$F" >/dev/full 2>"$T/err"
        status=$?
        status_is 2
    done
fi
finish launch_test
