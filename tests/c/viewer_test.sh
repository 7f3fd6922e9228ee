#!/bin/sh
# The example of the viewer: it shows good figures and nothing of the others.
# shellcheck source=tests/c/common.sh
. tests/c/common.sh
V=$BUILD/viewer

try 'the triangle'
triangle >"$T/triangle"
run "$V" "$T/triangle"
status_is 0
matches out 'mesh 0 "A": vertices 3, faces 1, box \(0, 0, 0\) \(1, 1, 0\)'
matches out 'meshes 1'

try 'what the example of the writer wrote'
run "$BUILD/write" "$T/mallet.3ds"
status_is 0
run "$V" "$T/mallet.3ds"
status_is 0
matches out 'mesh 0 "head": vertices 3, faces 1, box \(0, 0, 0\) \(1, 1, 0\)'
matches out 'mesh 1 "handle": vertices 2, faces 0, box \(0, 0, 0\) \(0, 0, 3\)'

try 'the adze with its handle'
run "$V" samples/edition/adze.3ds
status_is 0
matches out 'mesh 0 "head": vertices 32, faces 48, box \(-150, -35, -34\) \(24, 35, 32\)'
matches out 'mesh 1 "handle": vertices 60, faces 116, box \(-20, -20, -660\) \(20, 20, 40\)'
lines out 3

try 'the vice, and who hangs on whom'
run "$V" samples/edition/vice.3ds
status_is 0
matches out 'part 0 "fixed jaw"'
matches out '  part 1 "moving jaw" on part 0'
matches out '    part 2 "screw" on part 1'
matches out '      part 3 "bar" on part 2'
lines out 9

# 80,658 objects, each with an empty mesh and an empty name. One call for each mesh would take minutes.
try 'the most meshes that a figure can have'
printf '\000\100\015\000\000\000\000\000\101\006\000\000\000' >"$T/objects"
for _ in 1 2 3 4 5 6 7 8 9 10 11 12 13 14 15 16 17; do
    cat "$T/objects" "$T/objects" >"$T/twice"
    mv "$T/twice" "$T/objects"
done
printf 'MM\366\377\017\000==\360\377\017\000' >"$T/meshes"
head -c 1048554 "$T/objects" >>"$T/meshes"
run "$V" "$T/meshes"
status_is 0
matches out 'mesh 80657 "": vertices 0, faces 0'
matches out 'meshes 80658'
lines out 80659

try 'every figure of the edition'
for file in samples/edition/*.3ds; do
    run "$V" "$file"
    status_is 0
done

try 'why a figure is not shown, in words'
run "$V" samples/damaged/overrun-length-bit-turned.3ds
matches err 'viewer: not shown: a length runs past the end of the chunk around it \(refusal 5, place [0-9]+\)'

try 'no damaged figure is shown'
while read -r file number place; do
    run "$V" "samples/damaged/$file"
    status_is 1
    has err "(refusal $number, place $place)"
    lines out 0
done <samples/damaged/expected.txt

try 'a mesh without vertices'
printf 'MM\037\0\0\0==\031\0\0\0\0@\023\0\0\0a [2J~\0\0A\006\0\0\0' >"$T/empty"
run "$V" "$T/empty"
status_is 0
matches out 'mesh 0 "a \[2J~": vertices 0, faces 0'
try 'a name with a control character'
printf 'MM\037\0\0\0==\031\0\0\0\0@\023\0\0\0a\033[2J\n\0\0A\006\0\0\0' >"$T/empty"
run "$V" "$T/empty"
status_is 1
has err 'refusal 24, place 12'

try 'a file that is too long'
"$BUILD/make_samples" --too-long "$T/long"
run "$V" "$T/long"
status_is 1
has err 'refusal 1, place 0'

try 'a file that is not there'
run "$V" "$T/nothing"
status_is 2
has err 'No such file'
try 'a folder'
run "$V" "$T"
status_is 2
try 'no argument'
run "$V"
status_is 2
has err 'usage'
try 'output that cannot be written'
if [ -w /dev/full ]; then
    # shellcheck disable=SC2086
    $RUN "$V" "$T/triangle" >/dev/full 2>"$T/err"
    status=$?
    status_is 2
    has err 'cannot write'
fi
finish viewer_test
