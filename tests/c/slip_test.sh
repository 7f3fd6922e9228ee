#!/bin/sh
# A stick with a slip: what is seen by it that the figures alone do not tell.
# shellcheck source=tests/c/stick_common.sh
. tests/c/stick_common.sh

full_edition edition
E=$F
slip "$E"
cp "$T/slip" "$E/stick.slip"

# fresh NAME: a copy of the edition with its slip, in $F.
fresh() {
    F=$T/$1
    cp -R "$E" "$F"
}

try 'a stick that is as its slip says'
fresh good
stick "$F"
status_is 0
last "PASS: 7 figures checked, 0 refused, $seconds"

try 'missing, exchanged, added and changed files are seen'
fresh other
rm "$F/vice.3ds" "$F/texts/README.TXT"
cp "$F/saw.3ds" "$F/plane.3ds"
triangle >"$F/new.3ds"
echo new >"$F/new.txt"
turn "$F/triangle.3ds" 42
turn "$F/texts/film.bin" 2999999
printf x >>"$F/empty"
stick "$F"
status_is 1
lines err 0
matches out "$F/vice.3ds: missing: copy it again, or the slip if the edition has no such file"
matches out "$F/texts/README.TXT: missing: copy it again, or the slip if the edition has no such file"
matches out "$F/plane.3ds: differs from the slip \(another length\): copy it again"
matches out "$F/new.3ds: not on the slip: see that slip and edition belong together, and copy the slip again"
matches out "$F/new.txt: not on the slip: .*"
matches out "$F/triangle.3ds: differs from the slip \(other contents\): copy it again"
matches out "$F/texts/film.bin: differs from the slip \(other contents\): copy it again"
matches out "$F/empty: differs from the slip \(another length\): copy it again"
last "DO NOT SEAL: 6 figures checked, 0 refused, 4 differ, 2 missing, 2 not expected here, $seconds: see above"
try 'what is more alone is to be deleted'
cp -R "$E" "$T/more"
triangle >"$T/more/new.3ds"
stick "$T/more"
status_is 1
matches out "$T/more/new.3ds: not on the slip: delete it, unless it belongs there and the slip is an old one"
try 'without the slip none of it is seen'
rm "$F/stick.slip"
stick "$F"
status_is 2
last "STRUCTURE ONLY: 7 figures checked, 0 refused, $seconds; no slip on this stick; .*"

try 'each file is read once'
fresh once
if traced count "$T/bytes" "$F/adze.3ds" "$F"; then
    size=$(wc -c <"$F/adze.3ds")
    if [ "$(cat "$T/bytes")" -eq "$size" ]; then pass; else fail "$(cat "$T/bytes") bytes of $size"; fi
fi

try 'letters of either case are the same, as FAT has it'
fresh case
mv "$F/texts" "$F/TEXTS"
mv "$F/TEXTS/README.TXT" "$F/TEXTS/readme.txt"
mv "$F/adze.3ds" "$F/ADZE.3DS"
mv "$F/stick.slip" "$F/STICK.SLIP"
stick "$F"
status_is 0

cp "$F/ADZE.3DS" "$F/Adze.3ds"
if [ "$(find "$F" -iname adze.3ds | wc -l)" -eq 2 ]; then
    stick "$F"
    status_is 1
    matches out "$F/Adze.3ds: not on the slip: .*"
fi

try 'two slips, where letters of either case are told apart'
fresh two_slips
echo junk >"$F/Stick.Slip"
cp -R "$E" "$T/one_slip"
if [ "$(find "$F" -iname stick.slip | wc -l)" -eq 2 ]; then
    words="stick: $F/Stick.Slip: not checked: stick.slip is there too, and which of these slips is right cannot be told: delete one"
    stick "$F"
    status_is 2
    matches err "$words"
    lines err 1
    last "DO NOT SEAL: 7 figures checked, 0 refused, 1 could not be checked, $seconds: see above; .*"
    stick --against "$T/one_slip" "$F"
    status_is 2
    matches err "$words"
    lines err 1
    last "DO NOT SEAL: 7 figures checked, 0 refused, 1 could not be checked, $seconds: see above"
    try 'a link beside the slip is one problem, and the slip is used'
    rm "$F/Stick.Slip" "$F/saw.3ds"
    ln -s stick.slip "$F/Stick.Slip"
    stick "$F"
    status_is 2
    matches err "stick: $F/Stick.Slip: not checked: it is a link, .*"
    lines err 1
    last "DO NOT SEAL: 6 figures checked, 0 refused, 1 missing, 1 could not be checked, $seconds: see above"
fi

try 'a slip that is broken'
fresh broken
turn "$F/stick.slip" 0
turn "$F/triangle.3ds" 42
stick "$F"
status_is 1
matches out "$F/stick.slip: the slip itself is broken \(18\), at byte 0: copy the slip again"
last "DO NOT SEAL: 7 figures checked, 0 refused, 1 broken slip, $seconds: see above; .*"
fresh cut
truncate -s -1 "$F/stick.slip"
stick "$F"
status_is 1
has out "$F/stick.slip: the slip itself is broken"
: >"$F/stick.slip"
stick "$F"
status_is 1
has out "$F/stick.slip: the slip itself is broken (18), at byte 0"
head -c 400000 /dev/zero >"$F/stick.slip"
stick "$F"
status_is 1
has out "$F/stick.slip: the slip itself is broken (18), at byte 0"
try 'a slip with a name that does not fit'
mkdir "$T/unfit"
triangle >"$T/unfit/t.3ds"
slip "$T/unfit"
cp "$T/slip" "$T/unfit/stick.slip"
for byte in '\0' '\037' '\177' '\351'; do
    # shellcheck disable=SC2059
    printf "$byte" | dd of="$T/unfit/stick.slip" bs=1 seek=9 conv=notrunc 2>/dev/null
    stick "$T/unfit"
    status_is 1
    matches out "$T/unfit/stick.slip: the slip itself is broken \(24\), at byte 7: copy the slip again"
done
try 'a slip that cannot be read'
fresh unread
faulty "read:$EIO:unread/stick.slip" "$F"
status_is 2
has err "$F/stick.slip: not checked: the stick stopped answering"
rm "$F/stick.slip"
ln -s "$E/stick.slip" "$F/stick.slip"
stick "$F"
status_is 2
has err "$F/stick.slip: not checked: it is a link"

try 'a slip that is not to be seen at first, since the stick was slow to answer'
fresh blink
turn "$F/adze.3ds" 85
stick "$F"
status_is 1
faulty "readdir:$EIO:blink:-1" "$F"
status_is 2
matches err "stick: $F/stick.slip: not checked: this slip was not to be seen when the check began: check again"
last 'DO NOT SEAL: .*'
faulty "readdir:$EIO:blink:-1" --write-slip "$F"
status_is 2
has err 'no slip was written: not all is well in it'

try 'what is almost a figure, though it is on the slip'
mkdir "$T/part"
triangle >"$T/part/t.3ds"
triangle >"$T/part/u.3ds.part"
slip "$T/part"
cp "$T/slip" "$T/part/stick.slip"
stick "$T/part"
status_is 2
has out 'not checked: 1 file almost named as a figure: '

try 'a file whose length is another is not read to its end'
mkdir "$T/sparse"
triangle >"$T/sparse/t.3ds"
echo text >"$T/sparse/notes.txt"
slip "$T/sparse"
cp "$T/slip" "$T/sparse/stick.slip"
truncate -s 200G "$T/sparse/notes.txt"
stick "$T/sparse"
status_is 1
matches out "$T/sparse/notes.txt: differs from the slip .*"
rm "$T/sparse/stick.slip"
stick --write-slip "$T/sparse"
status_is 2
has err "$T/sparse/notes.txt: not checked: it is too big for a slip: leave it off"

try 'a link or a pipe in the place of the slip is one problem'
edition link_for_slip
ln -s adze.3ds "$F/stick.slip"
stick "$F"
status_is 2
lines err 1
matches err "stick: $F/stick.slip: not checked: it is a link, and links are not followed: put the file itself there"
unsealed 6 0 1
has out '  structure only: no slip on this stick'
rm "$F/stick.slip"
mkfifo "$F/stick.slip"
stick "$F"
status_is 2
lines err 1
matches err "stick: $F/stick.slip: not checked: it is neither a file nor a folder, but a pipe, a device or the like: take it off the stick"
unsealed 6 0 1

try 'a slip that cannot be read is one problem against a master too'
fresh unread_too
faulty "read:$EIO:unread_too/stick.slip" --against "$E" "$F"
status_is 2
lines err 1
unsealed 7 0 1

try 'a folder in the place of the slip'
edition folder_for_slip
mkdir "$F/stick.slip"
stick "$F"
status_is 2
has err "$F/stick.slip: not checked: it is not a file: see what stands there, and check again"

try 'a figure that is refused, and as the slip has it'
mkdir "$T/wrong"
triangle >"$T/wrong/t.3ds"
slip "$T/wrong"
cp "$T/slip" "$T/wrong/stick.slip"
turn "$T/wrong/t.3ds" 2
stick "$T/wrong"
status_is 1
matches out "$T/wrong/t.3ds: refused: .*: copy this figure again"
slip "$T/wrong"
cp "$T/slip" "$T/wrong/stick.slip"
stick "$T/wrong"
status_is 1
matches out "$T/wrong/t.3ds: refused: .*: the slip has it so too: tell whoever made the figure"

try 'an edition with a slip is copied with it'
mkdir "$T/copied"
stick --any-folder --copy "$E" "$T/copied"
status_is 0
last "PASS: 7 figures checked, 0 refused, $seconds; 11 copied, 0 there before"
same 'the slip' "$E/stick.slip" "$T/copied/stick.slip"
stick "$T/copied"
status_is 0
lacks out 'structure only'
try 'one file of a stick is not compared with its slip, and that is said'
stick "$T/copied/adze.3ds"
status_is 0
last "STRUCTURE ONLY: 1 figure checked, 0 refused, $seconds; one file alone is not compared with a slip"
try 'against a master, the slip of the stick is compared too'
stick --against "$E" "$T/copied"
status_is 0
rm "$T/copied/stick.slip"
stick --against "$E" "$T/copied"
status_is 1
matches out "$T/copied/stick.slip: missing: copy it again"

try 'what is on the slip and not on the stick is said also where the master has it not'
full_edition master
fresh beside
triangle >"$F/extra.3ds"
slip "$F"
cp "$T/slip" "$F/stick.slip"
cp "$F/stick.slip" "$T/master/stick.slip"
rm "$F/extra.3ds"
words="$F/extra.3ds: missing here and in the master, though it is on the slip: see that it is the right master, and the slip no old one"
for option in '--against' '--any-folder --no-slip --copy'; do
    [ "$option" = --against ] || rm "$T/master/stick.slip" # an edition that is not as its own slip says is not copied
    # shellcheck disable=SC2086
    stick $option "$T/master" "$F"
    status_is 1
    matches out "$words"
    has out ', 1 missing, '
done
try 'and once where it is missing against the master too'
cp "$F/stick.slip" "$T/master/stick.slip"
rm "$F/vice.3ds"
stick --against "$T/master" "$F"
status_is 1
matches out "$words"
matches out "$F/vice.3ds: missing: copy it again"
last "DO NOT SEAL: 6 figures checked, 0 refused, 2 missing, $seconds: see above"
lines out 3

try 'a slip that the master has not'
full_edition bare
fresh unexpected
for option in '--against' '--any-folder --no-slip --copy'; do
    # shellcheck disable=SC2086
    stick $option "$T/bare" "$F"
    status_is 1
    matches out "$F/stick.slip: not in the master: delete it, or see that it is the right master"
    last "DO NOT SEAL: 7 figures checked, 0 refused, 1 not expected here, $seconds: see above(; 0 copied, 10 there before)?"
done
same 'the slip, which is left alone,' "$E/stick.slip" "$F/stick.slip"

try 'several sticks, some with a slip'
cp "$E/stick.slip" "$T/copied"
edition no_slip
stick "$T/copied" "$F"
status_is 2
matches out "$T/copied: PASS: 7 figures checked, 0 refused"
last "STRUCTURE ONLY: 2 folders, 13 figures checked, 0 refused, $seconds; structure only on 1 of 2: no slip there"
stick "$T/copied" samples/edition
status_is 0
last "PASS: 2 folders, 13 figures checked, 0 refused, $seconds"

finish slip_test
