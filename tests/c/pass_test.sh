#!/bin/sh
# PASS means compared: what once passed without being compared, and remedies that hold.
# shellcheck source=tests/c/stick_common.sh
. tests/c/stick_common.sh

full_edition edition
E=$F
slip "$E"
cp "$T/slip" "$E/stick.slip"

# fresh NAME: a copy of the edition with its slip, in $F.
fresh() {
    F=$T/$1
    cp -R "$E" "$F"
}
# listed NAME...: $F with a slip of these names, as docs/SLIP.md has it.
listed() {
    rm -f "$F/stick.slip"
    (cd "$F" && "$HELPERS/make_slip" . "$@") >"$T/slip" && cp "$T/slip" "$F/stick.slip"
}
# unsealed_silently: with -q too it is said, and the exit status is not that of a PASS.
unsealed_silently() {
    stick -q "$F"
    if [ "$status" -ne 0 ]; then pass; else fail 'exit status 0'; fi
    if grep -qE '^(DO NOT SEAL|STRUCTURE ONLY): ' "$T/out"; then pass; else fail 'nothing is said'; fi
    stick --json "$F"
    if tail -n 1 "$T/out" | grep -q '"verdict":"PASS"'; then fail 'PASS for programs'; else pass; fi
}

# --- each of these passed once

try 'half a copy without a slip'
fresh half
rm "$F/stick.slip" "$F/plane.3ds" "$F/saw.3ds" "$F/vice.3ds"
stick "$F"
status_is 2
structure 4
unsealed_silently
try 'half a copy with its slip'
cp "$E/stick.slip" "$F"
stick "$F"
status_is 1
matches out "$F/saw.3ds: missing: copy it again"
unsealed_silently

for name in rtick.slip stick.slip~ 'stick (1).slip' 'stick.slip ' Stick.Slip.bak STICK~1.SLI stick.slip.1; do
    try "a slip that lost its name, a figure gone and another exchanged: $name"
    rm -rf "$T/lost"
    fresh lost
    mv "$F/stick.slip" "$F/$name"
    rm "$F/vice.3ds"
    cp "$F/saw.3ds" "$F/plane.3ds"
    stick "$F"
    status_is 2
    has err ': not checked: it is almost named as a slip: call it stick.slip if it is the slip, else delete it'
    lines err 1
    unsealed 6 0 1
    unsealed_silently
done
try 'names that only look alike'
fresh alike
for name in landslip.txt slippery.txt stick.slips notes.sliding; do echo x >"$F/$name"; done
rm "$F/stick.slip"
stick --structure "$F"
status_is 0
try 'a slip below the top'
fresh below
mkdir "$F/sub"
mv "$F/stick.slip" "$F/sub"
stick "$F"
status_is 2
matches err "stick: $F/sub/stick.slip: not checked: it is a slip, and stands below the top of the stick: check the folder it stands in by itself, or delete it"
lines err 1
unsealed_silently
try 'the folder above two sticks'
mkdir "$T/media"
cp -R "$E" "$T/media/a"
cp -R "$E" "$T/media/b"
rm "$T/media/b/vice.3ds"
F=$T/media
stick "$F"
status_is 2
lines err 2
unsealed_silently
try 'a slip-like file that the slip has too is not to be deleted'
mkdir "$T/both"
F=$T/both
triangle >"$F/t.3ds"
echo x >"$F/old.slip"
listed t.3ds old.slip
stick "$F"
status_is 2
matches err "stick: $F/old.slip: not checked: it is almost named as a slip: give it another name, here and in the edition, and write its slip again"

try 'a slip that names itself'
for name in stick.slip STICK.SLIP; do
    rm -rf "$T/self"
    mkdir "$T/self"
    F=$T/self
    triangle >"$F/t.3ds"
    echo x >"$F/$name"
    (cd "$F" && "$HELPERS/make_slip" . t.3ds "$name") >"$T/slip" && cp "$T/slip" "$F/$name"
    stick "$F"
    status_is 1
    matches out "$F/$name: the slip names itself, or a file twice: delete it, and copy the right slip"
    lines out 2
    unsealed_silently
done
triangle >"$F/T.3DS"
rm "$F/STICK.SLIP"
listed t.3ds T.3DS
stick "$F"
status_is 1
matches out "$F/stick.slip: the slip names itself, or a file twice: delete it, and copy the right slip"

try 'a file of 2^48 bytes in the place of an empty one'
fresh huge
if truncate -s 281474976710656 "$F/empty" 2>/dev/null || truncate -s 8796093022208 "$F/empty" 2>/dev/null; then
    stick "$F"
    status_is 1
    matches out "$F/empty: differs from the slip \(another length\): copy it again"
    unsealed_silently
else
    skip 'no file can be so long here'
fi

try 'a folder in the place of the slip, and a stick that does not answer once'
fresh blink
rm "$F/stick.slip"
mkdir "$F/stick.slip"
faulty "readdir:$EIO:blink:-1" "$F"
status_is 2
has err "$F/stick.slip: not checked: it is a folder, and a file of this name belongs here"
last 'DO NOT SEAL: .*'

try 'a slip that is another when it is read again'
fresh exchanged
if traced 'do' "cp '$T/self/stick.slip' '$F/stick.slip'" "$F/adze.3ds" "$F"; then
    status_is 1
    matches out "$F/stick.slip: this slip is not as it was when the check began: check again"
    lines out 2
fi
fresh vanished
if traced 'do' "rm '$F/stick.slip'" "$F/adze.3ds" "$F"; then
    if [ "$status" -ne 0 ]; then pass; else fail 'exit status 0'; fi
    last 'DO NOT SEAL: .*'
fi
try 'a name that was listed and is not there any more'
fresh gone
if traced 'do' "rm '$F/vice.3ds'" "$F/adze.3ds" "$F"; then
    status_is 2
    has err "$F/vice.3ds: not checked: there is no such file or folder"
fi
for call in 1 2 3 4 5 6 7 8 9 10 11 12 13 14 15 16 17 18 19 20; do
    try "names that cannot all be listed ($call)"
    faulty "readdir:$EIO:edition:$call" "$E"
    if [ "$status" -eq 0 ] && ! grep -q '^PASS' "$T/out"; then fail 'exit status 0'; else pass; fi
    if [ -s "$T/err" ] && grep -q '^PASS' "$T/out"; then fail 'PASS, though something was said'; else pass; fi
done

try 'a folder that the slip does not lead to'
fresh empty_folder
mkdir -p "$F/extra/more"
stick "$F"
status_is 1
matches out "$F/extra/more: an empty folder, in which nothing belongs: delete it"
unsealed_silently
stick --against "$E" "$F"
status_is 1
rm -r "$F/extra"
stick --against "$E" "$F"
status_is 0
rm "$F/stick.slip"
mkdir "$F/extra"
stick --write-slip "$F"
status_is 2
has err "$F/extra: not checked: the folder is empty, and a slip has files only: delete it"
if [ -e "$F/stick.slip" ]; then fail 'it was written'; else pass; fi

try 'two folders that are one on a stick'
fresh folders
mkdir "$F/TEXTS"
mv "$F/texts/README.TXT" "$F/TEXTS"
if [ -e "$F/texts/README.TXT" ]; then skip 'they are one here'; else
    stick "$F"
    status_is 1
    matches out "$F/(texts|TEXTS): this folder's name and another are one on a stick: put both into one"
    lines err 0
    stick --against "$E" "$F"
    status_is 1
    lines err 0
fi

# --- two keys

# other ANSWER ARGUMENTS...: the tool where the library gives this answer.
other() {
    # shellcheck disable=SC2086
    answer=$1; shift
    JUDGE=$answer timeout 60 $RUN "$HELPERS/other_judge" "$@" >"$T/out" 2>"$T/err"
    status=$?
}
try 'the tool finds nothing wrong, and the library does'
for answer in 0 2 0x2100000001 0x2300000000 0x1200000000 0x2200000003; do
    other "$answer" "$E"
    status_is 2
    has err 'the tool and the library disagree: the tool finds nothing wrong, '
    unsealed 7 0 1
    other "$answer" -q "$E"
    status_is 2
    unsealed 7 0 1
done
other 0x2100000001 "$E"
matches err "stick: $E/adze.3ds: not checked: the tool and the library disagree: the tool finds nothing wrong, the library says UNEXPECTED \(33, place 1\): do not seal it, and tell whoever looks after this program"
fresh keyed
other 0x2100000001 --against "$E" "$F"
status_is 2
lines err 1
try 'the library finds nothing wrong, and the tool does'
fresh wrong
turn "$F/triangle.3ds" 42
other 1 "$F"
status_is 2
has err 'the tool and the library disagree: the tool has found something wrong, the library has not'
turn "$F/triangle.3ds" 42
turn "$F/triangle.3ds" 2
other 1 "$F"
status_is 2
has err 'the tool and the library disagree'
try 'with the library itself they agree'
run "$HELPERS/other_judge" "$E"
status_is 0
passes 7

try 'what no slip takes cannot be judged by a master'
cp -R "$E" "$T/master"
rm "$T/master/stick.slip"
echo x >"$T/master/$(printf 'rabot-\303\251.txt')"
cp -R "$T/master" "$T/accents"
stick --against "$T/master" "$T/accents"
status_is 2
matches err "stick: $T/accents/rabot-.*.txt: not judged: no slip takes this path, or it is there twice: give it a path of at most 63 plain characters, and in the master too"
last 'DO NOT SEAL: .*'

rm -rf "$T/master" "$T/accents"
mkdir "$T/master"
triangle >"$T/master/t.3ds"
(cd "$T/master" && i=0 && while [ "$i" -lt 1000 ]; do i=$((i + 1)) && : >"$i"; done)
cp -R "$T/master" "$T/accents"
stick --against "$T/master" "$T/accents"
status_is 2
has err "stick: $T/accents: not judged: no slip takes so many files (1,000), or such a long one (4 GB): put fewer on the stick, and into the master"
rm "$T/master/1" "$T/accents/1"
stick --against "$T/master" "$T/accents"
status_is 0

try 'a byte 0 that became 255: a slip does not see it, a master does'
fresh zero
printf '\0' >"$F/empty"
(cd "$F" && find . -type f ! -name stick.slip | sed 's/^..//' | LC_ALL=C sort -f | tr '\n' '\0' | xargs -0 "$HELPERS/make_slip" .) >"$T/slip"
cp "$T/slip" "$F/stick.slip"
cp -R "$F" "$T/zeros"
printf '\377' >"$F/empty"
stick "$F"
status_is 0
stick --against "$T/zeros" "$F"
status_is 1
matches out "$F/empty: differs from the master, at byte 0: copy it again"
stick --explain differs
last 'A byte 0 that became 255 keeps both sums: the slip misses it, --against sees it.'

# --- remedies that hold

try 'the slip of another edition: one line, and no file is blamed'
fresh wrong_edition
for name in "$F"/*.3ds; do triangle >"$name" && turn "$name" 42; done
stick "$F"
status_is 1
matches out "$F/stick.slip: 7 of 10 files are not as this slip says: it is the slip, or the wrong edition: copy the slip again, and see that the edition is the right one"
lacks out 'delete'
if [ "$(grep -vc -e '^not looked' -e '^  ' "$T/out")" -eq 2 ]; then pass; else fail 'more than one line'; fi
stick --verbose "$F"
has out "$F/adze.3ds: differs from the slip"
fresh other_names
for name in "$F"/*.3ds; do mv "$name" "${name%.3ds}-2.3ds"; done
stick "$F"
status_is 1
has out 'it is the slip, or the wrong edition'
lacks out 'delete'
try 'half a copy is no wrong edition'
fresh started
rm "$F"/[b-z]*.3ds
stick "$F"
status_is 1
lacks out 'wrong edition'
has out "$F/saw.3ds: missing: copy it again"

try 'every bit turned in a slip: no good file is to be deleted'
mkdir "$T/bits"
F=$T/bits
triangle >"$F/t.3ds"
echo x >"$F/notes.txt"
listed t.3ds notes.txt
size=$(wc -c <"$F/stick.slip")
at=0
while [ "$at" -lt "$size" ]; do
    turn "$F/stick.slip" "$at"
    stick "$F"
    if [ "$status" -eq 0 ]; then fail "PASS with byte $at turned"; else pass; fi
    lacks out 'delete'
    turn "$F/stick.slip" "$at"
    at=$((at + 1))
done

try 'a file of the master that is not on the slip is not to be deleted'
fresh older
listed adze.3ds
cp -R "$F" "$T/older_master"
stick --against "$T/older_master" "$F"
status_is 1
has out "$F/saw.3ds: not on the slip: the master has it, so the slip is wrong: copy the slip again"
lacks out 'delete'
try 'a file that is as in the master, and not as on the slip'
fresh slip_is_wrong
cp "$E/stick.slip" "$T/kept"
echo y >"$F/texts/README.TXT"
cp -R "$F" "$T/same_master"
stick --against "$T/same_master" "$F"
status_is 1
matches out "$F/texts/README.TXT: differs from the slip \(another length\): it is as in the master, so the slip is wrong: copy the slip again"

try 'an edition that was changed after its slip was written'
fresh changed
echo new >>"$F/texts/README.TXT"
triangle >"$F/new.3ds"
mkdir "$T/to"
stick --any-folder --copy "$F" "$T/to"
status_is 2
matches out "$F/texts/README.TXT: differs from the slip \(another length\): put the right file there, or delete the slip and write it again \(--write-slip\)"
matches out "$F/new.3ds: not on the slip: take it out, or delete the slip and write it again \(--write-slip\)"
stick --write-slip "$F"
status_is 2
matches out "$F/new.3ds: not on the slip: take it out, or delete the slip and write it again \(--write-slip\)"
mv "$F/vice.3ds" "$F/vise.3ds"
stick --write-slip "$F"
status_is 2
matches out "$F/vise.3ds: not on the slip: take it out, or delete the slip and write it again \(--write-slip\)"
matches out "$F/vice.3ds: missing: put it back, or delete the slip and write it again \(--write-slip\)"
rm "$F/stick.slip"
stick --write-slip "$F"
status_is 0
stick "$F"
status_is 0

try 'one file against the master is looked for by its path from the top of the stick'
fresh one
mkdir "$F/sub"
echo below >"$F/texts/README.TXT"
stick --against "$E" "$F/texts/README.TXT"
status_is 1
matches out "$F/texts/README.TXT: differs from the master, at byte 0: copy it again"
stick --against "$E" "$F/texts/film.bin" "$F/adze.3ds"
status_is 0
structure 1
has out '  files named one by one: what is missing or more is not seen'
cp "$F/adze.3ds" "$F/sub/adze.3ds"
stick --against "$E" "$F/sub/adze.3ds"
status_is 1
has out "$F/sub/adze.3ds: not in the master"
rm "$F/stick.slip"
stick --against "$E" "$F/adze.3ds"
status_is 2
has err "$F/adze.3ds: not checked: it cannot be told which file of the master this one is: give the folder of the stick"

try 'files that are named one by one: they are files, and one is no figure'
fresh files
cd "$F" || exit 2
stick adze.3ds saw.3ds vice.3ds
status_is 0
last "STRUCTURE ONLY: 3 files, 3 figures checked, 0 refused, $seconds; files named one by one are not compared with a slip"
stick texts/README.TXT
status_is 1
matches out 'texts/README.TXT: refused: NOT A FIGURE .*: it is not named as a figure: give a figure \(.3ds, .cob, .c4d\), or the whole folder'
cd "$OLDPWD" || exit 2

try 'a good slip in the way of --write-slip'
stick --write-slip "$E"
status_is 0
last "PASS: 7 figures checked, 0 refused, $seconds; the slip that is there is good, and was left alone"
same 'the slip' "$T/kept" "$E/stick.slip"

try 'all paths that are too long for a slip, at once'
fresh long
rm "$F/stick.slip"
for i in 1 2 3; do echo x >"$F/$(printf '%070d' 0)$i"; done
stick --write-slip "$F"
status_is 2
if [ "$(grep -c 'its path does not fit on the slip' "$T/err")" -eq 3 ]; then pass; else fail 'not all are said'; fi

try 'a file system that is a program'
fresh program
faulty "fuse:1:program" "$F"
status_is 2
last "DO NOT SEAL: .*; this file system is a program and holds what it wrote: mount the stick read-only, check again"
faulty "fuse:2:program" "$F"
status_is 0
passes 7

try 'the keys and values of --json are those of the manual page'
fresh json
rm "$F/saw.3ds"
triangle >"$F/new.3ds"
turn "$F/triangle.3ds" 42
turn "$F/vice.3ds" 2
echo x >"$F/.DS_Store"
echo x >"$F/a.3ds.part"
ln -s adze.3ds "$F/link"
stick --json --list --against "$E" "$F"
cp "$T/out" "$T/all"
printf x >"$F/stick.slip"
stick --json "$F"
cat "$T/out" >>"$T/all"
stick --json --structure samples/caligari samples/c4d samples/old
cat "$T/out" >>"$T/all"
stick --json --any-folder --batch 1 --log "$T/json.log" "$E"
cat "$T/out" >>"$T/all"
stick --json --write-slip samples/damaged
cat "$T/out" >>"$T/all"
grep -oE '"[a-z_]+":' "$T/all" | tr -d '":' | sort -u >"$T/keys"
grep -oE '"(result|verdict)":"[^"]*"' "$T/all" | sed 's/.*:"//; s/"$//' | sort -u >"$T/values"
sed -n '/^\.SH JSON/,/^\.SH "EXIT/p' stick/stick.1 >"$T/page"
if [ "$(wc -l <"$T/keys")" -ge 30 ] && [ "$(wc -l <"$T/values")" -ge 11 ]; then pass; else fail "few keys: $(tr '\n' ' ' <"$T/keys" "$T/values")"; fi
while read -r word; do
    if grep -qE "(^|[ ,(])$word([ ,);.]|\$)" "$T/page"; then pass; else fail "the page has no $word"; fi
done <"$T/keys"
while read -r words; do
    if grep -qF "$words" "$T/page"; then pass; else fail "the page has no $words"; fi
done <"$T/values"
finish pass_test
