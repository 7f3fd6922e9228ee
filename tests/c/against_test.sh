#!/bin/sh
# The bench tool with several folders at once, against a master, and for programs.
# shellcheck source=tests/c/stick_common.sh
. tests/c/stick_common.sh

# --- several folders at once

try 'the lines of folders are never mixed, and come in the order of the folders'
for name in a b c d e f g h i j; do
    folder "$name"
    i=0
    while [ "$i" -lt 20 ]; do
        i=$((i + 1))
        echo bad >"$F/$i.3ds"
    done
done
set -- "$T/a" "$T/b" "$T/c" "$T/d" "$T/e" "$T/f" "$T/g" "$T/h" "$T/i" "$T/j"
stick "$@"
status_is 1
lines out 211
unsealed 200 200 0
grep -o 'test[^/]*/[a-j]' "$T/out" | uniq | tr -d '\n' | sed 's/test[^/]*\///g' >"$T/seen"
if [ "$(cat "$T/seen")" = abcdefghij ]; then pass; else fail "$(cat "$T/seen")"; fi
matches out "$T/a: DO NOT SEAL: 20 figures checked, 20 refused; structure only: no slip on this stick"
sed "s/$seconds//" "$T/out" | sed '/^DO NOT SEAL/,$d' >"$T/first"
stick "$@"
sed '/^DO NOT SEAL/,$d' "$T/out" >"$T/again"
same 'two checks of the same folders' "$T/first" "$T/again"

try 'more folders than readers'
many=
i=0
mkdir "$T/many"
while [ "$i" -lt 60 ]; do
    i=$((i + 1))
    cp samples/edition/adze.3ds "$T/many/$i.3ds"
    many="$many $T/many/$i.3ds"
done
# shellcheck disable=SC2086
stick $many
status_is 0
structure 60
lines out 1

try 'one bad stick among good ones'
edition good
edition bad
turn "$F/adze.3ds" 2
stick --structure "$T/good" "$T/bad"
status_is 1
matches out "$T/good: STRUCTURE ONLY: 6 figures checked, 0 refused; no slip on this stick"
matches out "$T/bad: DO NOT SEAL: 6 figures checked, 1 refused; .*"
last "DO NOT SEAL: 1 of 2 folders, 12 figures checked, 1 refused, $seconds: see above; structure only: no slip on these sticks"

try 'a stick that is not there has its verdict too'
stick "$T/good" "$T/nowhere"
status_is 2
matches out "$T/nowhere: DO NOT SEAL: 0 figures checked, 0 refused, 1 could not be checked"
last "DO NOT SEAL: 1 of 2 folders, 6 figures checked, .*"

# --- against a master

edition bare_master
M=$F
try 'a stick that is as the master'
stick --against "$M" "$T/good"
status_is 0
last "PASS: 6 figures checked, 0 refused, $seconds"

try 'missing, exchanged, added and changed files are seen'
edition other
rm "$F/vice.3ds"
cp "$F/saw.3ds" "$F/plane.3ds"
triangle >"$F/new.3ds"
printf x >>"$F/chisel.3ds"
turn "$F/mallet.3ds" 200
stick --against "$M" "$F"
status_is 1
matches out "$F/vice.3ds: missing: copy it again"
matches out "$F/plane.3ds: differs from the master, at byte [0-9]+: copy it again"
matches out "$F/new.3ds: not in the master: delete it, or see that it is the right master"
matches out "$F/chisel.3ds: refused: TRAILING .*"
matches out "$F/mallet.3ds: (differs from the master, at byte 200|refused: .*): copy .* again"
last "DO NOT SEAL: 5 figures checked, [12] refused, [12] differ, 1 missing, 1 not expected here, $seconds: see above"
lines err 0
stick --against "$M/" "$F/"
matches out "$F/vice.3ds: missing: copy it again"
matches out "$F/plane.3ds: differs from the master, .*"
stick "$F" # without the master most of this is not seen
has out 'structure only: no slip on this stick'

try 'files of every kind are compared, long ones to their end'
folder master
mkdir "$F/more"
head -c 3000000 /dev/zero >"$F/more/film.bin"
echo read me >"$F/README.TXT"
: >"$F/empty"
caligari >"$F/a.cob"
triangle >"$F/t.3ds"
cp -R "$F" "$T/copy"
stick --against "$F" "$T/copy"
status_is 0
last "PASS: 2 figures checked, 0 refused, $seconds"
turn "$T/copy/more/film.bin" 2999999
stick --verbose --against "$F" "$T/copy"
status_is 1
matches out "$T/copy/more/film.bin: differs from the master, at byte 2999999: copy it again"
matches out "$T/copy/a.cob: OK"
truncate -s 2000000 "$T/copy/more/film.bin"
stick --against "$F" "$T/copy"
matches out "$T/copy/more/film.bin: differs from the master, at byte 2000000: copy it again"
cp "$F/more/film.bin" "$T/copy/more/film.bin"
printf x >>"$T/copy/more/film.bin"
stick --against "$F" "$T/copy"
matches out "$T/copy/more/film.bin: differs from the master, at byte 3000000: copy it again"
printf x >"$T/copy/empty"
stick --against "$F" "$T/copy"
matches out "$T/copy/empty: differs from the master, at byte 0: copy it again"

try 'letters of either case are the same, as FAT has it'
rm -r "$T/copy"
mkdir -p "$T/copy/MORE"
cp "$F/more/film.bin" "$T/copy/MORE/FILM.BIN"
cp "$F/README.TXT" "$T/copy/readme.txt"
cp "$F/empty" "$F/a.cob" "$T/copy"
cp "$F/t.3ds" "$T/copy/T.3DS"
stick --against "$F" "$T/copy"
status_is 0

try 'the master itself is no stick: compared with itself all would pass'
stick --against "$F" "$F/." "$T/copy"
status_is 2
has err "$F/.: not checked: it is the master itself: give the folder of the stick"
has out "$T/copy: "

try 'a figure that is refused on the master too'
cp samples/damaged/short-length-of-five.3ds "$F/t.3ds"
cp samples/damaged/short-length-of-five.3ds "$T/copy/T.3DS"
stick --against "$F" "$T/copy"
status_is 1
matches out "$T/copy/T.3DS: refused: SHORT .*: the master is damaged in the same way: tell whoever made the figure"

try 'what another computer left on the master is not expected on a stick'
edition mac
echo x >"$F/.DS_Store"
stick --against "$F" "$T/good"
status_is 0

try 'a link in the place of a file of the master is one problem'
edition linked_stick
rm "$F/adze.3ds"
ln -s saw.3ds "$F/adze.3ds"
stick --against "$M" "$F"
status_is 2
has err "$F/adze.3ds: not checked: it is a link"
lacks out missing

try 'one file against the master'
sample with_top
stick --against "$M" "$F/adze.3ds"
status_is 0
structure 1
lines out 1

try 'a master that is not there, and one that cannot be read'
stick --against "$T/nowhere" "$T/good"
status_is 2
has err "stick: there is no folder $T/nowhere"
lines out 0
faulty "read:$EIO:bare_master/chisel" --against "$M" "$T/good"
status_is 2
matches err "stick: $T/good/chisel.3ds: not checked: the master's file of this name cannot be read: check the master \(Input/output error\)"
mkdir "$T/linked"
triangle >"$T/linked/t.3ds"
ln -s t.3ds "$T/linked/u.3ds"
stick --against "$T/linked" "$T/good" "$T/bad"
status_is 2
matches err "stick: $T/linked/u.3ds: not checked: it is neither a file nor a folder: take it out of there"
try 'the sticks are still checked by themselves then, and do not pass'
for name in good bad; do
    matches err "stick: $T/$name: not compared: the master could not be read whole: see above, and mend the master"
done
lines err 3
matches out "$T/bad/adze.3ds: refused: .*"
matches out "$T/good: DO NOT SEAL: 6 figures checked, 0 refused, 1 could not be checked; .*; not compared with the master, which could not be read"
last "DO NOT SEAL: 2 of 2 folders, 12 figures checked, 1 refused, 2 could not be checked, $seconds: see above; .*; not compared with the master, which .*"
lacks out 'not in the master'
stick --quiet --against "$T/linked" "$T/good"
status_is 2
lines err 2
lines out 1
stick --json --against "$T/linked" "$T/good"
status_is 2
lines err 0
has out "{\"path\":\"$T/good\",\"result\":\"not compared\",\"words\":\"the master could not be read whole\","
last '\{"verdict":"DO NOT SEAL","status":2,"folders":1,"unwell":1,"figures":6,.*,"not_compared":1,.*\}'
stick --json --against "$M" "$T/good"
last '\{"verdict":"PASS","status":0,.*,"not_compared":0,.*\}'

# --- for programs

try '--json: one object a line'
folder json
cp samples/edition/adze.3ds "$F"
cp samples/damaged/short-length-of-five.3ds "$F/a\"b\\.3ds"
echo bad >"$F/$(printf 'c\377\n.3ds')"
echo x >"$F/notes.txt"
echo x >"$F/d.3ds.part"
echo x >"$F/._adze.3ds"
ln -s adze.3ds "$F/link.3ds"
stick --json "$F"
status_is 2
lines err 0
lines out 8
matches out "\{\"path\":\"$F/adze.3ds\",\"result\":\"OK\"\}"
FOUND='"refusal":4,"name":"SHORT","place":[0-9]+,"words":"[^"]+","remedy":"[^"]+"'
matches out "\{\"path\":\"$F/a\\\\\"b\\\\\\\\\\\\\\\\.3ds\",\"result\":\"refused\",$FOUND\}"
has out 'c\\xFF\\x0A.3ds","result":"refused","refusal":2'
matches out "\{\"path\":\"$F/\._adze.3ds\",\"result\":\"left by another computer\",\"remedy\":\"delete it\"\}"
has out 'd.3ds.part","result":"not checked","words":"it is almost named as a figure","remedy":"copy the figure again, and delete this"'
has out 'link.3ds","result":"not checked","words":"it is a link, and links are not followed"'
has out 'notes.txt","result":"not looked at","words":"of no known kind"'
if grep -q "\"not_checked\":$(grep -c '"result":"not checked"' "$T/out")," "$T/out"; then pass; else fail 'another count of what was not checked'; fi
last '\{"verdict":"DO NOT SEAL","status":2,"folders":1,"unwell":1,"figures":3,"refused":2,.*\}'
if command -v python3 >/dev/null; then
    if python3 -c 'import json, sys
for line in open(sys.argv[1], encoding="utf-8"): json.loads(line)' "$T/out" 2>"$T/err"; then pass; else fail 'not JSON'; fi
else
    skip 'nothing here reads JSON'
fi
stick --json --list samples/edition/adze.3ds
has out '"result":"OK","meshes":2,"vertices":92,"faces":164}'
stick --json --quiet samples/edition
lines out 0

try 'what is almost a figure, or half a slip, though the master has it too'
mkdir "$T/near"
cp samples/edition/adze.3ds "$T/near"
echo x >"$T/near/saw.3ds.part"
echo x >"$T/near/stick.slip.part"
cp -R "$T/near" "$T/near-too"
stick --against "$T/near" "$T/near-too"
status_is 2
has out 'not checked: 1 file almost named as a figure: '
has err 'stick.slip.part: not checked: it is half a slip'

try 'a master that lies inside the stick, or the stick in it'
cp -R samples/edition "$T/holds"
cp -R samples/edition "$T/holds/master"
stick --against "$T/holds/master" "$T/holds"
status_is 2
matches err "stick: $T/holds: not checked: the master lies inside it: put the master elsewhere"
lines out 1
stick --against "$T/holds" "$T/holds/master"
status_is 2
matches err "stick: $T/holds/master: not checked: it lies inside the master: give the folder of the stick"
stick --against "$T/holds" "$T/holds/adze.3ds"
status_is 2
matches err "stick: $T/holds/adze.3ds: not checked: it lies inside the master: give the folder of the stick"

# twice OPTION ARGUMENTS...: nothing is done where an option stands there a second time.
twice() {
    option=$1
    shift
    stick "$@"
    status_is 2
    lines out 0
    has err "stick: $option is given twice: leave one away"
}
try 'an option given twice'
twice --against --against "$T/near" --against "$T/holds" "$T/near-too"
twice --copy --copy "$T/near" --copy "$T/holds" "$T/near-too"
twice --batch --log "$T/twice.log" --batch 1 --batch 2 "$T/near-too"
twice --log --batch 1 --log "$T/one.log" --log "$T/other.log" "$T/near-too"
twice --rescue --rescue "$T/near/adze.3ds" --rescue "$T/holds/adze.3ds" "$T/mended.3ds"

try 'files of a folder that cannot be read are not missing'
if [ "$(id -u)" -ne 0 ] || ! command -v setpriv >/dev/null; then skip 'nobody else to be here'; else
    mkdir "$T/shut" "$T/shut/sub"
    cp samples/edition/adze.3ds "$T/shut"
    cp samples/edition/saw.3ds "$T/shut/sub"
    cp -R "$T/shut" "$T/shut-master"
    chmod 755 "$T" "$T/shut" "$T/shut-master" "$T/shut-master/sub"
    chmod -R go+r "$T/shut" "$T/shut-master"
    chmod 700 "$T/shut/sub"
    run setpriv --reuid=65534 --regid=65534 --clear-groups "$S" --against "$T/shut-master" "$T/shut"
    status_is 2
    has err "stick: $T/shut/sub: not checked: this is not permitted"
    if grep -q missing "$T/out"; then fail 'they are said to be missing'; else pass; fi
fi
finish against_test
