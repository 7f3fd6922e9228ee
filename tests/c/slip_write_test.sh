#!/bin/sh
# Writing a slip: only where all is well, whole or not at all.
# shellcheck source=tests/c/stick_common.sh
. tests/c/stick_common.sh

full_edition edition
E=$F

try 'a slip is written for an edition in which all is well'
stick --write-slip "$E"
status_is 0
last "STRUCTURE ONLY: 7 figures checked, 0 refused, $seconds; a slip was written, with 10 files"
if [ -s "$E/stick.slip" ]; then pass; else fail 'there is none'; fi
lines err 0

slip "$E"
same 'the bytes of the slip' "$T/slip" "$E/stick.slip"
stick "$E"
status_is 0
last "PASS: 7 figures checked, 0 refused, $seconds"

try 'slips for several folders'
for name in one two; do
    mkdir "$T/$name"
    triangle >"$T/$name/t.3ds"
    echo "$name" >"$T/$name/notes.txt"
done
stick --write-slip "$T/one" "$T/two"
status_is 0
matches out "$T/two: STRUCTURE ONLY: 1 figure checked, 0 refused; a slip was written, with 2 files"
last "STRUCTURE ONLY: 2 folders, 2 figures checked, 0 refused, $seconds; 2 slips were written, with 4 files"
rm "$T/one/stick.slip"
stick --json --write-slip "$T/one"
has out '"slips_written":1,'

try 'no slip is written where not all is well'
mkdir "$T/unwell"
cp samples/damaged/short-length-of-five.3ds samples/edition/adze.3ds "$T/unwell"
stick --write-slip "$T/unwell"
status_is 2
matches err "stick: $T/unwell: no slip was written: not all is well in it: see the other lines"
if [ -e "$T/unwell/stick.slip" ]; then fail 'it was written'; else pass; fi
for name in ._adze.3ds adze.3ds.part adze.cob; do
    rm -f "$T/unwell"/* "$T/unwell"/._*
    cp samples/edition/adze.3ds "$T/unwell"
    echo x >"$T/unwell/$name"
    stick --write-slip "$T/unwell"
    status_is 2
    if [ -e "$T/unwell/stick.slip" ]; then fail "it was written beside $name"; else pass; fi
done
try 'half a slip, left by a writing that was broken off, is said in the check and is on no slip'
for name in stick.slip.part stick.slip.part17 STICK.Slip.PART; do
    rm -rf "$T/half"
    mkdir "$T/half"
    triangle >"$T/half/t.3ds"
    echo half >"$T/half/$name"
    half="stick: $T/half/$name: not checked: it is half a slip, whose writing was broken off: delete it"
    stick "$T/half"
    status_is 2
    matches err "$half"
    lines err 1
    unsealed 1 0 1
    stick --write-slip "$T/half"
    status_is 2
    matches err "$half"
    if [ -e "$T/half/stick.slip" ]; then fail 'a slip was written'; else pass; fi
    stick --json "$T/half"
    status_is 2
    has out "\"path\":\"$T/half/$name\",\"result\":\"not checked\""
    has out '"not_checked":1,'
    rm "$T/half/$name"
done
for name in stick.slips stickslip.part2a; do echo 'no slip' >"$T/half/$name"; done
stick --write-slip "$T/half"
status_is 0
has out 'a slip was written, with 3 files'

try 'no slip is written where there is no figure'
mkdir "$T/none"
echo x >"$T/none/notes.txt"
stick --write-slip "$T/none"
status_is 2

try 'a slip that is there is left alone'
cp "$E/stick.slip" "$T/kept"
stick --write-slip "$E"
status_is 0
same 'the slip' "$T/kept" "$E/stick.slip"

try 'names that do not fit on a slip'
long=$(printf '%060d' 0)
for name in "$long.txt" "$(printf 'rabot-\303\251.txt')"; do
    rm -rf "$T/names"
    mkdir "$T/names"
    triangle >"$T/names/t.3ds"
    echo x >"$T/names/$name"
    stick --write-slip "$T/names"
    status_is 2
    matches err "stick: $T/names/$name: no slip was written: its path does not fit on the slip: give it a path of at most 63 plain characters, without accents"
    if [ -e "$T/names/stick.slip" ]; then fail 'it was written'; else pass; fi
done
rm -rf "$T/names"
mkdir "$T/names"
triangle >"$T/names/t.3ds"
triangle >"$T/names/T.3DS"
if [ "$(find "$T/names" -type f | wc -l)" -eq 2 ]; then
    stick --write-slip "$T/names"
    status_is 2
    has err 'no slip was written: its name and another are one on a stick: rename one of them'
fi

try 'a thousand files, and one more'
mkdir "$T/thousand"
i=0
while [ "$i" -lt 10 ]; do
    mkdir "$T/thousand/$i"
    for j in 0 1 2 3 4 5 6 7 8 9; do
        for k in 0 1 2 3 4 5 6 7 8 9; do echo "$i$j$k" >"$T/thousand/$i/$j$k"; done
    done
    i=$((i + 1))
done
triangle >"$T/thousand/0/00.3ds"
rm "$T/thousand/0/00"
sync -f "$T" # all at once is quicker than file by file
stick --write-slip "$T/thousand"
status_is 0
has out 'a slip was written, with 1000 files'
stick "$T/thousand"
status_is 0
rm "$T/thousand/stick.slip"
echo one more >"$T/thousand/more"
stick --write-slip "$T/thousand"
status_is 2
has err "$T/thousand: no slip was written: there are more than 1,000 files, and a slip takes no more: put fewer files on the stick"

try 'a slip is written whole or not at all'
mkdir "$T/full"
triangle >"$T/full/t.3ds"
faulty "write:$ENOSPC:full/stick.slip" --write-slip "$T/full"
status_is 2
has err "$T/full/stick.slip: no slip was written: the stick is full: take a larger stick, or make room on it"
if [ "$(ls -A "$T/full")" = t.3ds ]; then pass; else fail "$(ls -A "$T/full")"; fi

try 'stopped by hand: no slip is written'
mkdir "$T/stopped"
cp samples/edition/*.3ds "$T/stopped"
if traced 'do' "kill -INT \$PROCESS" "$T/stopped/chisel.3ds" --write-slip "$T/stopped"; then
    status_is 2
    matches err "stick: $T/stopped: no slip was written: stopped by hand: start again"
    lines err 1
    last 'DO NOT SEAL: not finished: .*'
    if [ -e "$T/stopped/stick.slip" ]; then fail 'it was written'; else pass; fi
fi

try 'wrong commands'
stick --write-slip --copy "$E" "$E"
status_is 2
has err 'leave --copy away'
stick --write-slip --against "$E" "$E"
status_is 2
has err 'leave --against away'
finish slip_write_test
