#!/bin/sh
# The bench tool copies an edition and checks it in one go; nothing on a stick is ever lost.
# shellcheck source=tests/c/stick_common.sh
. tests/c/stick_common.sh

folder edition
cp samples/edition/*.3ds "$F"
mkdir -p "$F/texts/more"
echo 'read me' >"$F/texts/README.TXT"
head -c 3000000 /dev/urandom >"$F/texts/more/film.bin"
: >"$F/empty"
E=$F
cp -R "$E" "$T/bare" # its texts are first read when they are copied
B=$T/bare
stick --write-slip "$E"

# The sticks are folders of this computer.
copy() {
    stick --any-folder --copy "$@"
}

# as_edition FOLDER: holds just what the edition has.
as_edition() {
    if diff -r "$E" "$1" >"$T/out" 2>&1; then pass; else fail "$1 is not as the edition"; fi
}

try 'an edition is copied to several sticks and read back'
mkdir "$T/one" "$T/two" "$T/three"
copy "$E" "$T/one" "$T/two" "$T/three"
status_is 0
matches out "$T/two: PASS: 6 figures checked, 0 refused; 10 copied, 0 there before"
last "PASS: 3 folders, 18 figures checked, 0 refused, $seconds; 30 copied, 0 there before"
for name in one two three; do as_edition "$T/$name"; done

try 'a stick named twice, by whatever name: nothing is written'
mkdir "$T/once"
copy "$E" "$T/one" "$T/once" "$T/./once"
status_is 2
has err "stick: each stick is written once: leave the second $T/./once away"
if [ -z "$(ls "$T/once")" ]; then pass; else fail 'something was written'; fi

try 'a stick inside another: nothing is written'
mkdir -p "$T/outer/inner"
copy "$E" "$T/outer" "$T/outer/inner"
status_is 2
has err "stick: no stick that is written may lie inside another: leave $T/outer/inner away"
copy "$E" "$T/outer/inner" "$T/outer"
status_is 2
has err "stick: no stick that is written may lie inside another: leave $T/outer away"
if [ "$(find "$T/outer" | wc -l)" -eq 2 ]; then pass; else fail 'something was written'; fi

try 'a file of the edition that cannot be read is no fault of the stick'
mkdir "$T/unread"
faulty "read:$EIO:edition/texts/more/film:30" --any-folder --copy "$E" "$T/unread"
status_is 2
has err "stick: $E/texts/more/film.bin: not copied: the edition's file cannot be read: check the edition"

try 'a folder where the edition has another file'
mkdir -p "$T/folder-there/empty"
copy "$E" "$T/folder-there"
status_is 2
has err "$T/folder-there/empty: not checked: it is a folder, and a file of this name belongs here: take it off the stick, and copy again"
if grep -q missing "$T/out"; then fail 'it is said to be missing too'; else pass; fi

try 'a name that may not be on the medium is taken back'
mkdir "$T/no-name"
faulty "fsync:$EIO:no-name" --any-folder --copy "$E" "$T/no-name"
status_is 2
if [ -z "$(ls -A "$T/no-name")" ]; then pass; else fail "$(ls -A "$T/no-name")"; fi

try 'a copy is read from the stick, not from memory'
mkdir "$T/settled"
cp "$E/adze.3ds" "$T/settled"
if traced calls "$T/calls" "$T/settled/adze.3ds" --any-folder --copy "$E" "$T/settled"; then
    status_is 0
    tr '\n' ',' <"$T/calls" >"$T/seen"
    if [ "$(cat "$T/seen")" = 'write out,drop,read,read,' ]; then pass; else fail "$(cat "$T/seen")"; fi
fi

try 'the edition may be read from memory: another copy may be at it'
mkdir "$T/from-memory"
faulty "fadvise:$EINVAL:edition/adze" --any-folder --copy "$E" "$T/from-memory"
status_is 0
as_edition "$T/from-memory"

try 'what is there already is not written again'
touch -d '2001-01-01' "$T/one/adze.3ds"
copy "$E" "$T/one"
status_is 0
last "PASS: 6 figures checked, .*; 0 copied, 10 there before"
if [ "$(stat -c %Y "$T/one/adze.3ds")" -lt 1000000000 ]; then pass; else fail 'it was written again'; fi

try 'nothing on a stick is deleted or changed'
echo mine >"$T/one/mine.txt"
echo mine >"$T/one/saw.3ds"
rm "$T/one/vice.3ds"
copy "$E" "$T/one"
status_is 1
matches out "$T/one/saw.3ds: refused: NOT A FIGURE .*: delete it there, then copy again"
matches out "$T/one/mine.txt: not in the master: .*"
if [ "$(cat "$T/one/mine.txt" "$T/one/saw.3ds")" = "$(printf 'mine\nmine')" ]; then pass; else fail 'it was changed'; fi
same 'what was missing is copied' "$E/vice.3ds" "$T/one/vice.3ds"
last 'DO NOT SEAL: .*; 1 copied, 9 there before'
rm "$T/one/vice.3ds"
stick --json --any-folder --copy "$E" "$T/one"
has out '"copied":1,"there_before":9,'
triangle >"$T/one/saw.3ds"
copy "$E" "$T/one"
status_is 1
matches out "$T/one/saw.3ds: differs from the master, at byte 2: delete it there, then copy again"

try 'an edition that is not well is not copied'
cp -R "$E" "$T/damaged"
turn "$T/damaged/adze.3ds" 2
mkdir "$T/four"
copy "$T/damaged" "$T/four"
status_is 2
matches out "$T/damaged/adze.3ds: refused: .*"
matches err "stick: $T/damaged: not copied: the edition itself is not well: see the other lines; nothing was copied"
last 'DO NOT SEAL: .*'
if [ -z "$(ls -A "$T/four")" ]; then pass; else fail 'something was copied'; fi
try 'and where the reason comes below, it is not looked for above'
cp -R "$E" "$T/almost"
rm "$T/almost/stick.slip"
echo x >"$T/almost/adze.3ds.part"
copy "$T/almost" --no-slip "$T/four"
status_is 2
matches err "stick: $T/almost: not copied: the edition itself is not well: see the other lines; nothing was copied"
lines err 1
matches out "not checked: 1 file almost named as a figure: $T/almost/adze.3ds.part: copy the figure again, and delete this"

try 'an edition that cannot be read whole once it was checked is not copied'
cp -R "$E" "$T/changing"
if traced 'do' "ln -s adze.3ds '$T/changing/z.3ds'" "$T/changing/vice.3ds" --any-folder --copy "$T/changing" "$T/four"; then
    status_is 2
    matches err "stick: $T/changing/z.3ds: not checked: it is neither a file nor a folder: take it out of there"
    matches err "stick: $T/four: not checked: the edition could not be read whole, and nothing was copied: see above"
    lines err 2
    last 'DO NOT SEAL: .*'
    if [ -z "$(ls -A "$T/four")" ]; then pass; else fail 'something was copied'; fi
fi

try 'a stick that is not there is not made'
copy "$E" "$T/nowhere" "$T/two"
status_is 2
matches err "stick: $T/nowhere: not copied: there is no such file or folder: see that the stick is in, .*"
matches out "$T/two: PASS: .*"
if [ -e "$T/nowhere" ]; then fail 'it was made'; else pass; fi
copy "$E" "$E"
status_is 2
has err "$E: not copied: it is the edition itself"
copy "$T/nothing" "$T/two"
status_is 2
matches err "stick: there is no folder $T/nothing: see that it is there, and the name right"
echo x >"$T/file"
copy "$E" "$T/file"
status_is 2
has err "$T/file: not copied: it is not a folder"

# refused EDITION STICK WORDS: nothing is written, neither there nor in the edition, and one line says why.
refused() {
    find "$1/" "$2/" >"$T/before"
    copy "$1" "$2"
    status_is 2
    has err "stick: $2: not copied: $3"
    lines err 1
    last 'DO NOT SEAL: .*'
    find "$1/" "$2/" >"$T/after"
    same 'what is there' "$T/before" "$T/after"
}
try 'a stick inside the edition, by whatever name: each copy would be copied again'
cp -R "$E" "$T/around"
mkdir -p "$T/around/deep/stick"
echo x >"$T/around/deep/stick/x"
slip "$T/around"
cp "$T/slip" "$T/around/stick.slip"
ln -s "$T/around/deep/stick" "$T/to-inside"
ln -s "$T/around" "$T/to-around"
inside='it lies inside the edition: give the folder of the stick'
refused "$T/around" "$T/around/deep/stick" "$inside"
refused "$T/around" "$T/around/deep/../deep/stick/" "$inside"
refused "$T/around" "$T/to-inside" "$inside"
refused "$T/to-around" "$T/around/deep" "$inside"
cd "$T/around/deep/stick" || exit 2
refused ../.. . "$inside"
cd "$OLDPWD" || exit 2
try 'an edition inside the stick: its files would be none of the stick'
mkdir "$T/holder"
cp -R "$E" "$T/holder/edition"
refused "$T/holder/edition" "$T/holder" 'the edition lies inside it: put the edition elsewhere'
try 'a stick beside the edition, whose name begins alike'
mkdir "$T/around-too"
copy "$E" "$T/around-too"
status_is 0

try 'a link to a folder on the stick is not followed: nothing is written outside'
mkdir -p "$T/outside" "$T/linked" "$T/deeper/texts"
ln -s "$T/outside" "$T/linked/texts"
ln -s "$T/outside" "$T/deeper/texts/more"
for link in linked/texts deeper/texts/more; do
    copy "$E" "$T/${link%%/*}"
    status_is 2
    matches err "stick: $T/$link: not copied: it is a link, and links are not followed: take it off the stick, and copy again"
    lines err 1
    last 'DO NOT SEAL: not finished: .*'
done
if [ -z "$(ls -A "$T/outside")" ]; then pass; else fail "written: $(ls -A "$T/outside")"; fi
try 'a stick that is itself reached by a link'
mkdir "$T/real"
ln -s "$T/real" "$T/to-real"
copy "$E" "$T/to-real"
status_is 0
as_edition "$T/real"
try 'a file on the stick where the edition has a folder'
mkdir "$T/filed"
echo mine >"$T/filed/texts"
copy "$E" "$T/filed"
status_is 2
matches err "stick: $T/filed/texts: not copied: it is no folder, and the edition has one of this name: take it off the stick, and copy again"
lines err 1
if [ "$(cat "$T/filed/texts")" = mine ]; then pass; else fail 'it was changed'; fi

# broken FAULT WORDS: a copy to a new stick that fails; nothing half is left, and it is one line.
broken() {
    rm -rf "$T/new"
    mkdir "$T/new"
    faulty "$1" --any-folder --copy "$E" "$T/new"
    status_is 2
    has err "$2"
    lines err 1
    last 'DO NOT SEAL: not finished: .*'
    if find "$T/new" -name '*.part*' | grep -q .; then fail 'a part is left'; else pass; fi
}
try 'a stick that is full'
broken "write:$ENOSPC:new/mallet" "$T/new/mallet.3ds: not copied: the stick is full: take a larger stick, or make room on it"
same 'what was copied before' "$E/chisel.3ds" "$T/new/chisel.3ds"
if [ -e "$T/new/mallet.3ds" ]; then fail 'half a file has the name of a whole one'; else pass; fi
try 'a stick that is full in the middle of a file'
broken "write:$ENOSPC:new/texts/more/film:1" "$T/new/texts/more/film.bin: not copied: the stick is full"
try 'a stick that drops out while it is written'
broken "write:$ENODEV:new/mallet" "$T/new/mallet.3ds: not copied: the stick stopped answering: warm it in the hand, plug it in again"
try 'a stick that drops out while it is written out'
broken "fdatasync:$EIO:new/mallet" "$T/new/mallet.3ds: not copied: the stick stopped answering: warm it in the hand, plug it in again"
try 'a stick that drops out while it is read back'
rm -rf "$T/new"
mkdir "$T/new"
faulty "read:$EIO:new/mallet" --any-folder --copy "$E" "$T/new"
status_is 2
has err "$T/new/mallet.3ds: not checked: the stick stopped answering"

try 'a file that another program puts there at the last moment is left alone'
broken 'come:1:new/mallet' "$T/new/mallet.3ds: not copied: something of this name is there already, and is left alone: delete it there"
if [ -e "$T/new/mallet.3ds" ] && ! [ -s "$T/new/mallet.3ds" ]; then pass; else fail 'it was taken away'; fi

try 'a small stick that is really full'
mkdir "$T/small"
if [ "$(id -u)" -eq 0 ] && mount -t tmpfs -o size=1m tmpfs "$T/small" 2>/dev/null; then
    copy "$E" "$T/small"
    status_is 2
    has err 'not copied: the stick is full: take a larger stick'
    umount "$T/small"
else
    skip 'nothing can be mounted here'
fi

try 'a part of an earlier copy is left alone, and said'
mkdir "$T/earlier"
echo half >"$T/earlier/adze.3ds.part"
copy "$E" "$T/earlier"
status_is 1
same 'the figure' "$E/adze.3ds" "$T/earlier/adze.3ds"
matches out "$T/earlier/adze.3ds.part: not in the master: delete it, .*"
if [ "$(cat "$T/earlier/adze.3ds.part")" = half ]; then pass; else fail 'it was changed'; fi

try 'stopped by hand: nothing half is left'
mkdir "$T/stopped"
if traced 'do' "kill -INT \$PROCESS" "$B/texts/more/film.bin" --any-folder --no-slip --copy "$B" "$T/stopped"; then
    status_is 2
    last 'DO NOT SEAL: not finished: .*'
    has err "$T/stopped/texts/more/film.bin: not copied: stopped by hand: copy again"
    if find "$T/stopped" -name '*.part*' | grep -q .; then fail 'a part is left'; else pass; fi
fi
try 'stopped by hand while the edition is checked'
mkdir "$T/stopped_early"
if traced 'do' "kill -INT \$PROCESS" "$E/chisel.3ds" --any-folder --copy "$E" "$T/stopped_early"; then
    status_is 2
    matches err "stick: $E: not copied: stopped by hand: start again"
    lines err 1
    last 'DO NOT SEAL: not finished: .*'
    if [ -z "$(ls -A "$T/stopped_early")" ]; then pass; else fail 'something was copied'; fi
fi

try 'a file that is longer than this shell allows: nothing half is left'
mkdir "$T/limited"
# shellcheck disable=SC2016
run sh -c 'ulimit -f 2000 && exec "$0" "$@"' "$S" --any-folder --copy "$E" "$T/limited"
status_is 2
has err "$T/limited/texts/more/film.bin: not copied: the file is too big for the stick"
lines err 1
if find "$T/limited" -name '*.part*' | grep -q .; then fail 'a part is left'; else pass; fi

try 'names so long that nothing can be put behind them'
folder long_names
for name in "$(printf '%0251d' 0)" "$(printf '%0246d' 0)" "x$(printf '%0125d' 0 | sed 's/0/\xC3\xA9/g')"; do
    triangle >"$F/$name.3ds"
    mkdir "$T/long"
    memory=$RUN
    RUN= # what is killed frees nothing
    faulty 'stop:9:long/' --any-folder --no-slip --copy "$F" "$T/long" # as if the computer had been switched off
    RUN=$memory
    stick "$T/long"
    status_is 2
    has out 'not checked: 1 file almost named as a figure: '
    lacks out '\x' # no character is cut in two
    copy "$F" --no-slip "$T/long"
    status_is 1
    has out ': not in the master: delete it'
    same 'the copy' "$F/$name.3ds" "$T/long/$name.3ds"
    rm -r "$T/long"
    mkdir "$T/long"
    faulty "write:$ENOSPC:long/" --any-folder --no-slip --copy "$F" "$T/long"
    status_is 2
    has err "$T/long/$name.3ds: not copied: the stick is full"
    if [ -z "$(ls -A "$T/long")" ]; then pass; else fail "a part is left: $(ls -A "$T/long")"; fi
    rm -r "$T/long" "$F/$name.3ds"
done

try 'a folder where the edition has a file'
mkdir -p "$T/folders/adze.3ds"
copy "$E" "$T/folders"
status_is 2
has err "$T/folders/adze.3ds: not checked: it is a folder"

try 'a copy that breaks off, wherever it does, is told by any later check'
for fault in "write:$ENOSPC:new/chisel" "write:$EIO:new/mallet" 'stop:2:new/plane' "fdatasync:$EIO:new/texts/more/film"; do
    broken "$fault" 'not copied: '
    same 'the slip' "$E/stick.slip" "$T/new/stick.slip"
    stick "$T/new"
    status_is 1
    last 'DO NOT SEAL: .* [0-9]+ missing, .*'
done
try 'and half a slip too'
broken "write:$ENOSPC:new/stick.slip" "$T/new/stick.slip: not copied: the stick is full"
if [ -z "$(ls -A "$T/new")" ]; then pass; else fail "$(ls -A "$T/new")"; fi
try 'nor can it be made good by a slip of its own'
broken "write:$ENOSPC:new/mallet" 'not copied: '
stick --write-slip "$T/new"
if [ "$status" -ne 0 ]; then pass; else fail 'it passes'; fi
same 'the slip' "$E/stick.slip" "$T/new/stick.slip"

try 'wherever the stick drops out, a later check passes what is whole and nothing else'
folder sweep_edition
cp samples/edition/adze.3ds samples/edition/chisel.3ds samples/edition/saw.3ds "$F"
stick --write-slip "$F"
halves=0
for call in create write fdatasync fsync; do
    for count in 0 1 2 3 4 5 6 7; do
        rm -rf "$T/sweep"
        mkdir "$T/sweep"
        faulty "$call:$EIO:sweep/:$count" --any-folder --copy "$F" "$T/sweep"
        copied=$status
        stick "$T/sweep"
        if diff -r "$F" "$T/sweep" >"$T/diff"; then
            status_is 0
        else
            halves=$((halves + 1))
            if [ "$status" -ne 0 ] && [ "$copied" -eq 2 ]; then pass; else fail "$call $count: $copied, then $status"; fi
        fi
    done
done
if [ "$halves" -ge 12 ]; then pass; else fail "only $halves halves"; fi

try 'an edition without a slip is not copied, unless that is meant'
mkdir "$T/from_bare"
copy "$B" "$T/from_bare"
status_is 2
matches err "stick: $B: not copied: the edition has no slip, .*: write it with --write-slip, or copy with --no-slip"
lines err 1
last 'DO NOT SEAL: .*'
if [ -z "$(ls -A "$T/from_bare")" ]; then pass; else fail "$(ls -A "$T/from_bare")"; fi
copy "$B" --no-slip "$T/from_bare"
status_is 0
stick --no-slip "$B"
status_is 2
has err 'stick: only a copy can go without a slip: give --copy too, or leave --no-slip away'

try 'a folder of this computer is no stick'
mkdir "$T/folder"
stick --copy "$E" "$T/folder"
status_is 2
matches err "stick: $T/folder: not copied: (it is on this computer's own disk, not on a stick|no disk can be seen behind it, .*): see that the stick is in \(--any-folder copies to any folder\)"
lines err 1
last 'DO NOT SEAL: .*'
if [ -z "$(ls -A "$T/folder")" ]; then pass; else fail "$(ls -A "$T/folder")"; fi
stick --any-folder "$T/one"
status_is 2
has err 'stick: any folder can be checked: leave --any-folder away'

try 'two copies to one stick at once'
mkdir "$T/held"
if command -v flock >/dev/null; then
    # shellcheck disable=SC2086
    timeout 60 flock "$T/held" $RUN "$S" --any-folder --copy "$E" "$T/held" >"$T/out" 2>"$T/err"
    status=$?
    status_is 2
    matches err "stick: $T/held: not copied: another copy to it is under way: wait until that has ended, then copy again"
    lines err 1
    if [ -z "$(ls -A "$T/held")" ]; then pass; else fail "$(ls -A "$T/held")"; fi
    copy "$E" "$T/held"
    status_is 0
else
    skip 'there is no flock(1)'
fi

try 'a stick that is unmounted in the middle: nothing more is written where it was'
mkdir "$T/unmounted"
if traced 'do' "mv '$T/unmounted' '$T/elsewhere'; mkdir -p '$T/unmounted/texts/more'" "$B/texts/more/film.bin" \
    --any-folder --no-slip --copy "$B" "$T/unmounted"; then
    status_is 2
    has err 'not copied: the stick was unmounted or taken out meanwhile: put it in again, then copy again'
    lines err 1
    if [ -z "$(find "$T/unmounted" -type f)" ]; then pass; else fail "$(find "$T/unmounted" -type f)"; fi
fi

try 'names that differ in case only, where they are one file'
edition cased
cp "$F/adze.3ds" "$F/ADZE.3ds"
mkdir "$T/caseless"
cp "$F/adze.3ds" "$T/caseless"
ln "$T/caseless/adze.3ds" "$T/caseless/ADZE.3ds" # as FAT shows it
copy "$F" --no-slip "$T/caseless"
status_is 2
matches err "stick: $T/caseless/(adze|ADZE).3ds: not copied: its name and another are one on this stick: rename one of them in the edition"
lines err 1
mkdir "$T/cased_too"
copy "$F" --no-slip "$T/cased_too"
status_is 2
has err "$T/cased_too/adze.3ds: not judged: no slip takes this path, or it is there twice"

try 'a name that the stick cannot have'
mkdir "$T/new_names"
faulty "create:$EILSEQ:new_names/chisel" --any-folder --copy "$E" "$T/new_names"
status_is 2
has err "$T/new_names/chisel.3ds: not copied: its name has characters that the stick cannot have: give it a plainer name in the edition"
lines err 1

try 'a real stick'
mkdir "$T/mount"
trap 'umount "$T/mount" 2>/dev/null; chmod -R u+rwx "$T" 2>/dev/null; rm -rf "$T"' EXIT
mounted() {
    truncate -s 8M "$T/image" && mke2fs -q -F "$T/image" && mount -o loop "$T/image" "$T/mount"
}
if [ "$(id -u)" -ne 0 ] || ! mounted >/dev/null 2>&1; then
    skip 'no image can be mounted here'
else
    rmdir "$T/mount/lost+found"
    stick --copy "$E" "$T/mount"
    status_is 0
    as_edition "$T/mount"
    try 'a slip is not written on a stick'
    rm "$T/mount/stick.slip" "$T/mount/saw.3ds"
    stick --write-slip "$T/mount"
    status_is 2
    matches err "stick: $T/mount: no slip was written: it is on a disk of its own, as a stick is, and a slip is for the edition: write it there, then copy .*"
    if [ -e "$T/mount/stick.slip" ]; then fail 'it was written'; else pass; fi
    stick --write-slip --any-folder "$T/mount"
    status_is 0
    try 'two folders of one stick are not two sticks'
    mkdir "$T/mount/a" "$T/mount/b"
    stick --copy "$E" "$T/mount/a" "$T/mount/b"
    status_is 2
    has err "stick: one of the folders before it is on the same stick: leave $T/mount/b away"
    if rmdir "$T/mount/a" "$T/mount/b"; then pass; else fail 'something was written'; fi
    try 'the edition and its copy on one stick'
    cp -R "$E" "$T/mount/edition"
    mkdir "$T/mount/copy"
    stick --copy "$T/mount/edition" "$T/mount/copy"
    status_is 2
    has err "$T/mount/copy: not copied: it is on the disk of the edition, not on a stick of its own: "
    umount "$T/mount"
    try 'and where it was, when it is out'
    stick --copy "$E" "$T/mount"
    status_is 2
    has err "$T/mount: not copied: "
    if [ -z "$(ls -A "$T/mount")" ]; then pass; else fail "$(ls -A "$T/mount")"; fi
fi
finish copy_test
