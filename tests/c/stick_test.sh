#!/bin/sh
# The bench tool, behaviour by behaviour. Needs no privileges, and is not made hollow by having them.
# shellcheck source=tests/c/stick_common.sh
. tests/c/stick_common.sh

# --- what is found, and what is said about it

try 'a good edition'
stick samples/edition
status_is 0
passes 6
lines out 1
lines err 0

try 'a damaged figure has one line with path, name, number, place and what to do'
stick samples/damaged/overrun-length-bit-turned.3ds
status_is 1
P=$(sed -n 's/^overrun-length-bit-turned.3ds 5 //p' samples/damaged/expected.txt)
WORDS='a length runs past the end of the chunk around it'
matches out "samples/damaged/overrun-length-bit-turned.3ds: refused: OVERRUN \(5\): $WORDS, at byte $P: copy this figure again"
unsealed 1 1 0
lines out 2
lines err 0

try 'several folders'
stick samples/edition samples/damaged
status_is 1
unsealed 26 20 0

try 'endings of any case, in folders below, and no others'
folder case
mkdir -p "$F/deep/er"
for name in a.3ds B.3DS c.3Ds deep/d.3dS deep/er/e.3ds .3ds; do triangle >"$F/$name"; done
for name in f.txt g3ds i.3d; do echo 'no figure' >"$F/$name"; done
stick --structure "$F"
status_is 0
structure 6
matches out "not looked at: 3 files of no known kind: $F/f.txt, $F/g3ds, $F/i.3d"
has out '  3 of no known kind not looked at'
lines out 2

try 'many files of no known kind are not all named, but with --verbose'
folder unknown
triangle >"$F/t.3ds"
for name in a b c d e f g h i j; do echo 'no figure' >"$F/$name.txt"; done
stick "$F"
status_is 2
matches out "not looked at: 10 files of no known kind: $F/a.txt, .*, $F/h.txt and 2 more"
stick --verbose "$F"
matches out "not looked at: 10 files of no known kind: $F/a.txt, .*, $F/i.txt, $F/j.txt"

try 'files that are almost named as figures are counted and named in the last lines'
folder near
triangle >"$F/t.3ds"
for name in a.3ds.part b.3ds~ 'c.3ds ' d.3DS.bak; do triangle >"$F/$name"; done
stick "$F"
status_is 2
matches out "not checked: 4 files almost named as a figure: $F/a.3ds.part, $F/b.3ds~, $F/c.3ds\\\\x20, $F/d.3DS.bak: copy the figure again, and delete this"
unsealed 1 0 4
lines err 0
stick --quiet "$F"
status_is 2
unsealed 1 0 4
lines out 2

try 'an ending with a letter behind it is part of another word'
folder words
triangle >"$F/t.3ds"
for name in notes.cobalt.txt .3dsmax a.c4dx; do echo 'no figure' >"$F/$name"; done
stick --structure "$F"
status_is 0
matches out "not looked at: 3 files of no known kind: $F/.3dsmax, $F/a.c4dx, $F/notes.cobalt.txt"
for name in 'a.3ds (1)' b.cob2 c.C4D_old x.cobalt.cob.part; do echo 'a figure?' >"$F/$name"; done
stick "$F"
status_is 2
unsealed 1 0 4

try 'Caligari figures'
folder caligari
triangle >"$F/t.3ds"
caligari >"$F/a.COB"
stick --structure --list "$F"
status_is 0
matches out "$F/a.COB: accepted: 1 chunk"
structure 2
turn "$F/a.COB" 0
stick "$F"
status_is 1
matches out "$F/a.COB: refused: HEADER \(20\): the file does not begin as a Caligari figure does, at byte 0: copy this figure again, or it is another program's file"
unsealed 2 1 0
caligari >"$T/one.cob"
stick "$T/one.cob"
status_is 0

try 'Cinema 4D figures'
folder cinema
triangle >"$F/t.3ds"
cinema >"$F/b.C4D"
stick --structure --list "$F"
status_is 0
matches out "$F/b.C4D: accepted: 0 objects"
structure 2
printf x >>"$F/b.C4D"
stick "$F"
status_is 1
matches out "$F/b.C4D: refused: FORM \(25\): the file does not begin as a Cinema 4D figure does, at byte 0: copy this figure again"
unsealed 2 1 0

try 'what another computer left is to be deleted, and is not taken for a figure'
folder left
triangle >"$F/adze.3ds"
echo AppleDouble >"$F/._adze.3ds"
echo '{' >"$F/Thumbs.db"
echo '{' >"$F/.DS_Store"
mkdir "$F/.Trashes" "$F/System Volume Information" "$F/lost.dir" "$F/.Trash-1000"
: >"$F/$(printf 'Icon\r')"
echo bad >"$F/.Trashes/gone.3ds"
stick "$F"
status_is 1
matches out "$F/\._adze.3ds: left by another computer: delete it"
matches out "$F/Thumbs.db: left by another computer: delete it"
matches out "$F/\.DS_Store: left by another computer: delete it"
matches out "$F/\.Trashes: left by another computer: delete it"
matches out "$F/System Volume Information: left by another computer: delete it"
matches out "$F/lost.dir: left by another computer: delete it"
matches out "$F/\.Trash-1000: left by another computer: delete it"
has out "$F/Icon\\x0D: left by another computer: delete it"
lines out 9
lines err 0
last "DO NOT SEAL: 1 figure checked, 0 refused, 8 left by another computer, $seconds: see above; structure only: no slip on this stick"

try 'the order is that of the names'
folder order
for name in b.3ds a.3ds c.3ds; do echo bad >"$F/$name"; done
stick "$F/"
grep -o '[abc]\.3ds' "$T/out" | tr '\n' ' ' >"$T/seen"
if [ "$(cat "$T/seen")" = 'a.3ds b.3ds c.3ds ' ]; then pass; else fail "$(cat "$T/seen")"; fi
has out "$T/order/a.3ds:"

try 'a file as argument, whatever its name'
triangle >"$T/no-ending"
stick "$T/no-ending"
status_is 0
structure 1

try 'a name that begins with a dash'
folder dash
triangle >"$F/-x.3ds"
(cd "$F" && mkdir -- -d && cp ./-x.3ds ./-d)
cd "$F" || exit 2
stick --structure -- -d -x.3ds
cd "$OLDPWD" || exit 2
status_is 0
structure 2

# --- length

try 'the longest figure there may be'
# 4D4D of 1,048,576 bytes with 3D3D and a private chunk of the rest.
{ printf 'MM\0\0\020\0==\006\0\0\0\043\201\364\377\017\0' && head -c 1048558 /dev/zero; } >"$T/longest.3ds"
stick "$T/longest.3ds"
status_is 0
structure 1

try 'one byte more'
{ printf 'MM\001\0\020\0==\006\0\0\0\043\201\365\377\017\0' && head -c 1048559 /dev/zero; } >"$T/over.3ds"
stick "$T/over.3ds"
status_is 1
has out 'over.3ds: refused: TOO LONG (1): the file is longer than a figure may be (1,048,576 bytes), at byte 0'

try 'a huge file is read no further than needed'
triangle >"$T/huge.3ds"
truncate -s 20G "$T/huge.3ds"
if traced count "$T/bytes" "$T/huge.3ds" "$T/huge.3ds"; then
    status_is 1
    has out 'huge.3ds: refused: TOO LONG (1)'
    if [ "$(cat "$T/bytes")" -le 1048577 ]; then pass; else fail "read $(cat "$T/bytes") bytes"; fi
fi
try 'a huge file takes no time'
# shellcheck disable=SC2086
timeout 20 $RUN "$S" "$T/huge.3ds" >"$T/out" 2>"$T/err"
status=$?
status_is 1
rm "$T/huge.3ds"

# --- what cannot be checked: each a clear line, status 2, and the rest still checked

try 'no argument'
stick
status_is 2
has err 'stick: which folder is to be checked?'
has err "Try 'stick --help'"
lines out 0

try 'a missing folder, and the rest is checked'
stick "$T/nowhere" samples/edition
status_is 2
matches err "stick: $T/nowhere: not checked: there is no such file or folder: see that the stick is in, and the name right \(No such file or directory\)"
lines err 1
unsealed 6 0 1

try 'an empty name'
stick ''
status_is 2
matches err "stick: '': not checked: the name is empty: give a folder, for example /media/stick"

try 'status 2 wins over 1'
stick "$T/nowhere" samples/damaged
status_is 2
unsealed 20 20 1

try 'a folder with no figure in it'
folder none
stick "$F"
status_is 2
matches err "stick: $F: not checked: there is no figure in this folder: see that it is the right folder, and that the edition was copied"
mkdir "$F/below"
echo text >"$F/below/notes.txt"
stick "$F" samples/edition
status_is 2
matches err "stick: $F: not checked: there is no figure in this folder: see that it is the right folder, and that the edition was copied"
lines err 1
unsealed 6 0 1

try 'a folder named as a figure'
folder named
mkdir "$F/x.3ds"
triangle >"$F/x.3ds/inside.3ds"
triangle >"$F/y.3ds"
stick "$F"
status_is 2
matches err "stick: $F/x.3ds: not checked: it is a folder, though it is named as a figure \(what is in it is checked\): give the folder another name"
lines err 1
unsealed 2 0 1

try 'links are said and not followed: neither to a figure nor to a folder'
folder links
mkdir "$T/elsewhere"
triangle >"$T/elsewhere/t.3ds"
triangle >"$F/here.3ds"
ln -s "$T/elsewhere/t.3ds" "$F/one.3ds"
ln -s "$T/elsewhere" "$F/two"
ln -s /proc "$F/three"
stick "$F"
status_is 2
for name in one.3ds two three; do
    matches err "stick: $F/$name: not checked: it is a link, and links are not followed: put the file itself there"
done
lines err 3
unsealed 1 0 3

try 'a folder whose only figure is a link'
folder only
ln -s "$T/elsewhere/t.3ds" "$F/one.3ds"
stick "$F"
status_is 2
lines err 1
unsealed 0 0 1

try 'links that lead nowhere, to themselves and back'
folder loops
triangle >"$F/t.3ds"
ln -s missing "$F/lost.3ds"
ln -s loop.3ds "$F/loop.3ds"
ln -s . "$F/back"
stick "$F"
status_is 2
for name in lost.3ds loop.3ds back; do has err "$F/$name: not checked: it is a link"; done
lines err 3
unsealed 1 0 3

try 'levels of two links each check no file twice'
folder levels
triangle >"$F/t.3ds"
at=$F
for _ in 1 2 3 4 5 6 7 8 9 10 11 12 13 14 15 16 17 18; do
    mkdir "$at/next"
    ln -s next "$at/one"
    ln -s next "$at/two"
    at=$at/next
done
triangle >"$at/deep.3ds"
stick "$F"
status_is 2
unsealed 2 0 36

try 'a link named on the command line: to a folder it is followed, to a file it is not'
ln -s "$T/elsewhere" "$T/to-folder"
ln -s "$T/elsewhere/t.3ds" "$T/to-file.3ds"
stick --structure "$T/to-folder"
status_is 0
structure 1
stick "$T/to-file.3ds"
status_is 2
has err "$T/to-file.3ds: not checked: it is a link"

# Reading a process's own memory at address 0 fails with EIO for everybody, as on a bad stick.
try 'a file that cannot be read'
stick /proc/self/mem samples/edition
status_is 2
matches err 'stick: /proc/self/mem: not checked: the stick stopped answering: warm it in the hand, plug it in again \(Input/output error\)'
lines err 1
unsealed 6 0 1

try 'a stick that drops out while it is read'
for error in $EIO $ENODEV; do
    faulty "read:$error:edition/chisel" samples/edition
    status_is 2
    has err 'samples/edition/chisel.3ds: not checked: the stick stopped answering: warm it in the hand, plug it in again'
    lines err 1
    unsealed 5 0 1
done
try 'nothing more is tried on a stick that stays away'
faulty "read:$EIO:edition/:4" samples/edition
status_is 2
lines err 3
has err 'samples/edition/chisel.3ds: not checked: the stick stopped answering: warm it in the hand, plug it in again'
last "DO NOT SEAL: not finished: 1 figure checked, 0 refused, 3 could not be checked, $seconds: see above"

try 'a stick that is drawn out'
edition drawn
if traced 'do' "mv '$F' '$F-away'" "$F/chisel.3ds" "$F"; then
    status_is 2
    matches err "stick: $F/mallet.3ds: not checked: the stick stopped answering: warm it in the hand, plug it in again"
    lines err 1
    last "DO NOT SEAL: not finished: 2 figures checked, 0 refused, 1 could not be checked, $seconds: see above; .*"
fi
try 'a stick that is drawn out at its last figure'
edition drawn_late
if traced 'do' "mv '$F' '$F-away'" "$F/vice.3ds" "$F"; then
    status_is 2
    matches err "stick: $F: not checked: the stick stopped answering: warm it in the hand, plug it in again"
    lines err 1
fi
try 'a file that vanishes'
edition vanishing
if traced 'do' "rm '$F/mallet.3ds'" "$F/chisel.3ds" "$F"; then
    status_is 2
    has err "$F/mallet.3ds: not checked: there is no such file or folder"
    lines err 1
    unsealed 5 0 1
fi

# The same for permissions: a privileged user tries it as nobody.
try 'a file and a folder that may not be read'
folder forbidden
triangle >"$F/t.3ds"
triangle >"$F/shut.3ds"
mkdir "$F/shut"
chmod 755 "$T" "$F"
chmod 644 "$F/t.3ds"
chmod 000 "$F/shut.3ds" "$F/shut"
cp "$S" "$T/stick"
chmod 755 "$T/stick"
as=
if [ "$(id -u)" -eq 0 ]; then as='setpriv --reuid=65534 --regid=65534 --clear-groups'; fi
# shellcheck disable=SC2086
if $as test -r "$F/t.3ds" 2>/dev/null; then
    # shellcheck disable=SC2086
    $as $RUN "$T/stick" "$F" >"$T/out" 2>"$T/err"
    status=$?
    status_is 2
    has err "$F/shut.3ds: not checked: this is not permitted: ask whoever looks after this computer (Permission denied)"
    has err "$F/shut: not checked: this is not permitted: ask whoever looks after this computer (Permission denied)"
    lines err 2
    unsealed 1 0 2
    # shellcheck disable=SC2086
    $as $RUN "$T/stick" "$F/shut" >"$T/out" 2>"$T/err"
    status=$?
    status_is 2
    lines err 1
else
    skip 'nobody cannot be acted for here'
fi

try 'a pipe named as a figure does not stop the check'
folder pipe
triangle >"$F/t.3ds"
mkfifo "$F/pipe.3ds"
# shellcheck disable=SC2086
timeout 20 $RUN "$S" "$F" >"$T/out" 2>"$T/err"
status=$?
status_is 2
matches err "stick: $F/pipe.3ds: not checked: it is neither a file nor a folder, but a pipe, a device or the like: take it off the stick"
unsealed 1 0 1

# resized NEW-SIZE WORDS: the file gets this size after it was opened and before it is read.
shrinking=0
resized() {
    triangle >"$T/resized.3ds"
    traced 'do' "truncate -s $1 '$T/resized.3ds'" "$T/resized.3ds" "$T/resized.3ds" samples/edition || return
    shrinking=$((shrinking + 1))
    status_is 2
    has err "$T/resized.3ds: not checked: it became $2 while it was read (86 bytes, then $1): wait until copying has ended, and check again"
    unsealed 6 0 1
}
try 'a file that shrinks while it is read'
resized 40 shorter
try 'a file that vanishes to nothing while it is read'
resized 0 shorter
try 'a file that grows while it is read'
resized 100 longer

# Files of sysfs say that they have 4096 bytes and then give fewer: the same without tracing.
try 'a file that gives fewer bytes than it said'
for file in /sys/kernel/uevent_seqnum /sys/kernel/profiling /sys/kernel/fscaps; do
    if [ -r "$file" ] && [ "$(stat -c %s "$file")" -eq 4096 ]; then
        shrinking=$((shrinking + 1))
        stick "$file"
        status_is 2
        has err "$file: not checked: it became shorter while it was read (4096 bytes, then "
        break
    fi
done
if [ "$shrinking" -gt 0 ]; then pass; else fail 'there was no way to try it'; fi

try 'output that cannot be written'
if [ -w /dev/full ]; then
    # shellcheck disable=SC2086
    $RUN "$S" samples/edition >/dev/full 2>"$T/err"
    status=$?
    status_is 2
    has err 'stick: what was found could not be written: No space left on device'
    # shellcheck disable=SC2086
    $RUN "$S" --help >/dev/full 2>"$T/err"
    status=$?
    status_is 2
    matches err 'stick: cannot write: see that there is room where these lines go \(No space left on device\)'
else
    skip 'there is no /dev/full'
fi

try 'closed streams are not taken over by the figures'
edition closed_streams
for stream in 1 2; do
    # shellcheck disable=SC2016
    ASAN_OPTIONS=$TRACED_ASAN timeout 60 "$HELPERS/traced" 'do' "readlink /proc/\$PROCESS/fd/$stream >'$T/seen'" "$F/adze.3ds" \
        sh -c "exec $RUN '$S' '$F' $stream>&-" >"$T/out" 2>"$T/err"
    status=$?
    if [ "$status" -eq 125 ]; then skip 'nothing may be traced'; continue; fi
    if [ "$(cat "$T/seen")" = /dev/null ]; then pass; else fail "stream $stream is $(cat "$T/seen")"; fi
done
# shellcheck disable=SC2086
$RUN "$S" samples/edition >&- 2>"$T/err"
status=$?
status_is 2
has err 'stick: what was found could not be written: Bad file descriptor'

try 'a reader of the lines that has gone away'
mkfifo "$T/closed"
(exec 3<"$T/closed") &
exec 4>"$T/closed" # the two open it together, and then the reader ends
wait $!
# shellcheck disable=SC2086
timeout 60 $RUN "$S" samples/damaged samples/edition >&4 2>"$T/err"
status=$?
exec 4>&-
status_is 2
has err 'stick: what was found could not be written: Broken pipe'

# --- names

try 'names with control characters stay on one line'
folder names
newline=$(printf 'a\nb.3ds')
escape=$(printf 'c\033[31m\tred\177.3ds')
wrong=$(printf 'd\377\302.3ds')
turned=$(printf 'e\342\200\256f\302\205g.3ds')
french=$(printf 'varlope-\303\251.3ds')
for name in "$newline" "$escape" "$wrong" "$turned" "$french" 'back\slash.3ds'; do
    echo bad >"$F/$name"
done
stick "$F"
status_is 1
lines out 7
has out "$F/a\\x0Ab.3ds: refused"
has out "$F/c\\x1B[31m\\x09red\\x7F.3ds: refused"
has out "$F/d\\xFF\\xC2.3ds: refused"
has out "$F/e\\xE2\\x80\\xAEf\\xC2\\x85g.3ds: refused"
has out "$F/$french: refused"
has out "$F/back\\\\slash.3ds: refused"
mkdir "$F/$newline-folder.3ds"
stick "$F"
has err "$F/a\\x0Ab.3ds-folder.3ds: not checked"
lines err 1

try 'characters that cannot be seen are shown'
folder unseen
for name in 'a\342\200\213z' 'b\342\200\215z' 'c\357\273\277z' 'd\302\255z' 'e\342\201\240z' 'f\315\217z' 'g\363\240\200\201z'; do
    # shellcheck disable=SC2059
    echo bad >"$F/$(printf "$name").3ds"
done
stick "$F"
for name in 'a\xE2\x80\x8Bz' 'b\xE2\x80\x8Dz' 'c\xEF\xBB\xBFz' 'd\xC2\xADz' 'e\xE2\x81\xA0z' 'f\xCD\x8Fz' 'g\xF3\xA0\x80\x81z'; do
    has out "$F/$name.3ds: refused"
done

try 'paths longer than the system takes at once'
folder long
name=$(printf '%0200d' 0)
mkdir "$F/top"
triangle >"$F/top/t.3ds"
echo bad >"$F/top/bad.3ds"
mkdir "$F/top/x.3ds"
ln -s missing "$F/top/lost.3ds"
ln -s . "$F/top/here"
for _ in 1 2 3 4 5 6 7 8 9 10 11 12 13 14 15 16 17 18 19 20 21 22 23 24 25 26 27 28 29 30; do
    mkdir "$F/new"
    mv "$F/top" "$F/new/$name"
    mv "$F/new" "$F/top"
done
stick --list "$F"
status_is 2
has out "$name/t.3ds: accepted: 1 mesh, 3 vertices, 1 face"
has out "$name/bad.3ds: refused: NOT A FIGURE (2)"
has err "$name/x.3ds: not checked: it is a folder"
has err "$name/lost.3ds: not checked: it is a link"
has err "$name/here: not checked: it is a link"
lines err 3
unsealed 2 1 3

try 'more folders inside each other than files may be open'
folder deep
mkdir "$F/top"
triangle >"$F/top/t.3ds"
level=0
while [ "$level" -lt 60 ]; do
    mkdir "$F/new"
    mv "$F/top" "$F/new/d"
    mv "$F/new" "$F/top"
    level=$((level + 1))
done
# Every shell that is a /bin/sh has ulimit -n.
# shellcheck disable=SC2086,SC3045
(ulimit -n 30 && exec $RUN "$S" --structure "$F") >"$T/out" 2>"$T/err"
status=$?
if [ -n "$RUN" ]; then skip "$RUN needs files of its own"; else
    status_is 0
    structure 1
fi

# --- options

try '--quiet when all is well'
stick --quiet samples/edition
status_is 0
lines out 0
lines err 0
try '--quiet when something is wrong: the problems and the last line'
stick -q samples/edition samples/damaged/short-length-of-five.3ds "$T/nowhere"
status_is 2
lines out 2
lines err 1
has out 'SHORT (4)'
last "DO NOT SEAL: 2 of 3 folders, 7 figures checked, 1 refused, 1 could not be checked, $seconds: see above; .*"
try '--quiet where there was nothing to compare with: nobody takes silence for a PASS'
edition quiet
stick -q "$F"
status_is 2
lines out 1
last "STRUCTURE ONLY: 6 figures checked, 0 refused, $seconds; no slip on this stick"
stick -q --structure "$F"
status_is 0
lines out 1
structure 6

try 'on a shell that allows little stack, which Caligari figures need much of'
mkdir "$T/square"
cp samples/caligari/try-square.cob "$T/square"
mkdir "$T/square-too"
cp -R "$T/square" "$T/square-again"
# shellcheck disable=SC2016
little='ulimit -s 256 && exec "$0" "$@"'
run sh -c "$little" "$S" --structure "$T/square" "$T/square-again" samples/edition
status_is 0
has out 'STRUCTURE ONLY: 3 folders, 8 figures checked'
run sh -c "$little" "$S" --any-folder --no-slip --copy "$T/square" "$T/square-too"
status_is 0
has out 'PASS: 1 figure checked'
try '--list'
stick --list samples/edition
status_is 0
matches out 'samples/edition/adze.3ds: accepted: 2 meshes, 92 vertices, 164 faces'
matches out 'samples/edition/chisel.3ds: accepted: 1 mesh, 84 vertices, 160 faces'
matches out 'samples/edition/plane.3ds: accepted: 5 meshes, 90 vertices, 156 faces'
lines out 7
passes 6
try '--list of a refused figure'
stick --list samples/damaged/name-zero-byte-lost.3ds
status_is 1
has out 'name-zero-byte-lost.3ds: refused: NAME (9): a name has no end'
lines out 2
try '--list behind the folder, and --quiet'
stick "$T/no-ending" --list --quiet
status_is 0
matches out "$T/no-ending: accepted: 1 mesh, 3 vertices, 1 face"
lines out 2
try '--list of a figure without meshes'
printf 'MM\014\0\0\0==\006\0\0\0' >"$T/bare.3ds"
stick -l "$T/bare.3ds"
matches out "$T/bare.3ds: accepted: 0 meshes, 0 vertices, 0 faces"

try '--verbose'
stick --verbose samples/edition samples/damaged/short-length-of-five.3ds
status_is 1
matches out 'samples/edition/adze.3ds: OK'
matches out 'samples/damaged/short-length-of-five.3ds: refused: .*'
has out 'samples/edition: PASS: 6 figures checked, 0 refused'
lines out 10
stick samples/edition
lacks out OK

try '--explain, the manual page and the messages agree'
# only words are looked at here, so the program is run as it is
memory=$RUN
RUN=
number=0
for name in 'TOO LONG' 'NOT A FIGURE' TRAILING SHORT OVERRUN STRAY MISPLACED TWICE NAME LENGTH NUMBER \
    INDEX COUNT MISSING 'NO ROOM' 'NO SUCH MESH' EMPTY SLIP DIFFERS HEADER OWNER SIZE FATHER TEXT FORM ORDER \
    COMBINATION MATERIAL 'SAME NAME' 'NO MATERIAL' UNCHECKED 'BAD FIGURE' UNEXPECTED ABSENT INCOMPLETE 'NO FIGURE' \
    CHANGED; do
    number=$((number + 1))
    stick --explain "$number"
    status_is 0
    lines err 0
    has out "Refusal $number, $name: "
    has out 'What to do: '
    widest=$(awk '{ if (length($0) > most) most = length($0) } END { print most }' "$T/out")
    if [ "$widest" -le 80 ]; then pass; else fail "a line of $widest characters"; fi
    sentence=$(sed -n "1s/^Refusal $number, $name: //p" "$T/out")
    case $number in 15 | 16 | 17 | 29 | 3?) continue ;; esac # mistakes of programs, and words of the judge
    page=$(sed -n "/^\\.B $number $name\$/{n;p;}" stick/stick.1)
    if [ "$page" = "$sentence" ]; then pass; else fail "the manual page says: $page"; fi
    file=$(sed -n "s/ $number [0-9]*\$//p" samples/damaged/expected.txt | head -n 1)
    [ -z "$file" ] && continue
    stick -q "samples/damaged/$file"
    has out ": refused: $name ($number): ${sentence%.}, at byte "
done
for number in 0 38 -1 x 5x '' 99999999999999999999; do
    try "--explain $number"
    stick --explain "$number"
    status_is 2
    has err 'stick: there is no refusal '
    has err 'They are numbered 1 to 37.'
done
RUN=$memory
try '--explain by name'
for name in overrun OVERRUN 'Too Long'; do
    stick --explain "$name"
    status_is 0
    has out 'Refusal '
done
stick --explain overrun
has out 'Refusal 5, OVERRUN: '
try '--explain without a number'
stick --explain
status_is 2
try 'a folder beside --explain is not passed over in silence'
for order in "--explain 5 samples/damaged" "samples/damaged --explain 5"; do
    # shellcheck disable=SC2086
    stick $order
    status_is 2
    has err 'nothing is checked while a refusal is explained: leave samples/damaged away'
    lines out 0
done
try 'one folder named twice, by whatever name, is not two'
stick samples/edition samples/../samples/edition
status_is 2
has err 'stick: each stick is checked once: leave the second samples/../samples/edition away'
lines out 0
try '--log without --batch'
stick --log "$T/log" samples/edition
status_is 2
has err 'only a batch is logged: give --batch N too, or leave --log away'
lines out 0

try '--help'
stick --help
status_is 0
lines err 0
for option in --help --version --quiet --list --explain --verbose --json --against --copy --no-slip --any-folder --write-slip --structure --batch --from --no-bell --log FOLDER; do has out "$option"; done
widest=$(awk '{ if (length($0) > most) most = length($0) } END { print most }' "$T/out")
if [ "$widest" -le 80 ]; then pass; else fail "a line of $widest characters"; fi
try '--version'
stick --version
status_is 0
matches out 'stick [0-9]+\.[0-9]+'
try 'help and version beside anything else: nothing was checked'
for order in '-V samples/damaged' 'samples/damaged --version' '--help samples/damaged' '-v -h samples/damaged'; do
    # shellcheck disable=SC2086
    stick $order
    status_is 2
    lines out 0
    has err 'stick: nothing is checked with --help or --version: give it alone'
done
try 'an option in no letters of ours'
stick "$(printf -- '--\033[31mX')" samples/edition
status_is 2
if grep -q "$(printf '\033')" "$T/err"; then fail 'it is printed raw'; else pass; fi
try 'an unknown option'
stick -x samples/edition
status_is 2
has err 'stick: there is no option -x'
stick --against
status_is 2
has err 'stick: a word is missing behind --against'
stick --explain
has err 'stick: a word is missing behind --explain'
stick --frobnicate samples/edition
status_is 2
has err 'frobnicate'
has err "Try 'stick --help'"
lines out 0

finish stick_test
