#!/bin/sh
# The bench tool with one stick after another at the same place. The sticks are folders that are moved there and away.
# shellcheck source=tests/c/stick_common.sh
. tests/c/stick_common.sh

for name in one two three; do sample "$name"; done
turn "$T/two/adze.3ds" 2
P=$T/place

# start ARGUMENTS...: a batch in the background, with folders in place of sticks.
start() {
    : >"$T/out"
    # shellcheck disable=SC2086
    timeout 120 $RUN "$S" --any-folder "$@" >"$T/out" 2>"$T/err" &
    tool=$!
}
# stop: by hand; the tool itself, for timeout(1) may not know yet that it has a child.
stop() {
    # shellcheck disable=SC2046
    kill -TERM $(cat "/proc/$tool/task/$tool/children" 2>/dev/null || echo "$tool")
}
# batch N ARGUMENTS...: one that needs no hand.
batch() {
    stick --any-folder --batch "$@"
}
# named NUMBER FOLDER: what a line calls the stick that is there.
named() {
    printf 'stick %s \(folder %s\)' "$1" "$(stat -c %i "$2")"
}
# in_and_out NUMBER FOLDER: a stick is put in, worked on and taken out again.
in_and_out() {
    await "$T/out" "stick $1: put it in"
    mv "$2" "$P"
    await "$T/out" "$(named "$1" "$P"): take it out"
    mv "$P" "$2"
}
# ended: waits for it.
ended() {
    wait "$tool"
    status=$?
}

try 'three sticks, one of them bad'
start --batch 3 --log "$T/log" "$P"
in_and_out '1 of 3' "$T/one"
has out 'PASS: 6 figures checked'
in_and_out '2 of 3' "$T/two"
await "$T/out" 'stick 3 of 3: put it in'
mv "$T/three" "$P"
ended
status_is 1
last "DO NOT SEAL: 2 of 3 sticks passed; not these: 2 \(folder $(stat -c %i "$T/two")\)"
date='[0-9]{4}-[0-9]{2}-[0-9]{2} [0-9]{2}:[0-9]{2}:[0-9]{2}'
matches log "$date batch of 3 begins: to be checked"
matches log "$date $(named '1 of 3' "$T/one"): PASS: 6 figures checked, .*"
matches log "$date $(named '1 of 3' "$T/one") ends: PASS, 0"
matches log "$date $(named '2 of 3' "$T/two"): $P/adze.3ds: refused: .*"
matches log "$date $(named '2 of 3' "$T/two"): DO NOT SEAL: 6 figures checked, 1 refused, .*"
matches log "$date $(named '2 of 3' "$T/two") ends: DO NOT SEAL, 1"
matches log "$date batch of 3 ends: DO NOT SEAL: 2 of 3 sticks passed"
matches log "$date batch of 3 ends:   not these: 2 \(folder [0-9]+\)"
lines log 10
mv "$P" "$T/three"

try 'a stick that is exchanged without the place being empty in between'
sample four
start --batch 2 --log "$T/log" "$P"
mv "$T/one" "$P"
await "$T/out" "$(named '1 of 2' "$P"): take it out"
mv "$P" "$T/one" && mv "$T/four" "$P"
ended
status_is 0
last 'PASS: 2 of 2 sticks passed'
mv "$P" "$T/four"

try 'one stick put in twice is not counted twice'
start --batch 2 --log "$T/log" "$P"
in_and_out '1 of 2' "$T/one"
await "$T/out" 'stick 2 of 2: put it in'
mv "$T/one" "$P"
await "$T/out" "$(named '1 of 2' "$P"): it has passed already, and is not counted again: take it out"
mv "$P" "$T/one"
tries=0
until [ "$(grep -c 'stick 2 of 2: put it in' "$T/out")" -eq 2 ] || [ "$tries" -ge 100 ]; do
    tries=$((tries + 1))
    sleep 0.1
done
mv "$T/four" "$P"
ended
status_is 0
last 'PASS: 2 of 2 sticks passed'
if [ "$(grep -c 'PASS: 6 figures' "$T/out")" -eq 2 ]; then pass; else fail 'it was worked on again'; fi
mv "$P" "$T/four"

try 'one that did not pass, and is mended, keeps its number'
start --batch 2 --log "$T/log" "$P"
in_and_out '1 of 2' "$T/two"
turn "$T/two/adze.3ds" 2
await "$T/out" 'stick 2 of 2: put it in'
: >"$T/out"
mv "$T/two" "$P"
await "$T/out" "$(named '1 of 2' "$P"): take it out"
mv "$P" "$T/two"
await "$T/out" 'stick 2 of 2: put it in'
mv "$T/one" "$P"
ended
status_is 0
last 'PASS: 2 of 2 sticks passed'
turn "$T/two/adze.3ds" 2
mv "$P" "$T/one"

try 'an empty folder that sticks are mounted on is no stick'
mkdir "$P"
start --batch 1 --log "$T/log" "$P"
await "$T/out" 'stick 1 of 1: put it in'
cp samples/edition/adze.3ds "$T/adze"
mv "$T/adze" "$P/adze.3ds"
ended
status_is 2
try 'a batch counts PASS alone'
last 'STRUCTURE ONLY: 0 of 1 sticks passed; not these: 1 \(folder [0-9]+\)'
batch 1 --structure --log "$T/log" "$P"
status_is 0
last 'STRUCTURE ONLY: 0 of 1 sticks passed; not these: 1 \(folder [0-9]+\)'
rm -r "$P"

try 'copied and checked, one after another'
mkdir "$T/empty"
echo 'No. 1' >"$T/empty/label.txt"
start --batch 1 --log "$T/log" --no-slip --copy samples/edition "$P"
mv "$T/empty" "$P"
ended
status_is 1
matches out "$P/label.txt: not in the master: .*"
same 'the copy' samples/edition/adze.3ds "$P/adze.3ds"
matches log "$date batch of 1 begins: copies of $(cd samples/edition && pwd -P)"

try 'stopped by hand'
rm -r "$P"
start --batch 2 --log "$T/log" "$P"
await "$T/out" 'stick 1 of 2: put it in'
mv "$T/one" "$P"
await "$T/out" "$(named '1 of 2' "$P"): take it out"
stop
ended
status_is 2
last 'DO NOT SEAL: not finished: 1 of 2 sticks passed; go on with --from 2'
mv "$P" "$T/one"

try 'a batch that was broken off goes on where it was'
start --batch 2 --from 2 --log "$T/log" "$P"
await "$T/out" 'stick 2 of 2: put it in'
mv "$T/one" "$P"
await "$T/out" "$(named '1 of 2' "$P"): it has passed already, and is not counted again: take it out"
mv "$P" "$T/one" && mv "$T/two" "$P"
ended
status_is 1
last 'DO NOT SEAL: 1 of 2 sticks passed; not these: 2 .*'
matches log "$date batch of 2 goes on from 2: to be checked"
mv "$P" "$T/two"
try 'and once more, where the last one did not pass'
mv "$T/four" "$P"
batch 2 --from 2 --log "$T/log" "$P"
status_is 0
last 'PASS: 2 of 2 sticks passed'
try 'many that did not pass, on lines that fit'
{
    echo '2026-11-18 01:00:00 batch of 40 begins: to be checked'
    i=0
    while [ "$i" -lt 39 ]; do
        i=$((i + 1))
        echo "2026-11-18 01:00:00 stick $i of 40 (AAAA-00$i) ends: DO NOT SEAL, 1"
    done
} >"$T/long.log"
batch 40 --from 40 --log "$T/long.log" "$P"
status_is 1
last 'DO NOT SEAL: 1 of 40 sticks passed; not these: 1 \(AAAA-001\), 2 .*, 39 \(AAAA-0039\)'
if [ "$(grep -c '^    ' "$T/out")" -eq 9 ]; then pass; else fail "$(grep -c '^    ' "$T/out") lines"; fi
try 'but only by the log of just this batch'
# unknown WORDS ARGUMENTS...: nothing is checked, and the log stays as it is.
unknown() {
    cp "$T/log" "$T/before"
    stick --any-folder "$@" "$P"
    status_is 2
    matches err "stick: the log .* does not tell of stick 1 of such a batch: give its log with --log, or begin a new one"
    lines out 0
    same 'the log' "$T/before" "$T/log"
}
unknown --batch 2 --from 2 --log "$T/another.log"
if [ -e "$T/another.log" ]; then fail 'it is there now'; else pass; fi
unknown --batch 3 --from 2 --log "$T/log"
unknown --batch 2 --from 2 --log "$T/log" --against samples/edition
stick --any-folder --batch 2 --from 3 --log "$T/log" "$P"
status_is 2
has err 'stick: the batch has not so many sticks: give a smaller number to --from'
for number in 0 x -1; do
    stick --batch 2 --from "$number" --log "$T/log" "$P"
    status_is 2
    has err 'stick: which stick of the batch is '
done
for option in '--from 2' --no-bell; do
    # shellcheck disable=SC2086
    stick $option "$P"
    status_is 2
    has err "stick: this is for a batch: give --batch N too, or leave ${option% *} away"
done

try 'a folder of this computer is no stick'
: >"$T/out"
timeout 120 "$S" --batch 1 --log "$T/log" "$P" >"$T/out" 2>"$T/err" &
tool=$!
await "$T/out" 'stick 1 of 1: put it in'
await "$T/err" "stick: $P is on no stick: put one in \(--any-folder takes any folder\)"
stop
ended
status_is 2
matches out 'DO NOT SEAL: not finished: 0 of 1 sticks passed'

try 'for programs'
batch 1 --json --log "$T/log" "$P"
status_is 0
last '\{"verdict":"PASS","sticks":1,"passed":1,"not_finished":0\}'
matches out '\{"stick":1,"sticks":1,"name":"folder [0-9]+","verdict":"PASS"\}'
cp -R "$P" "$T/without"
rm "$T/without/stick.slip"
batch 1 --json --log "$T/log" "$T/without"
status_is 2
last '\{"verdict":"STRUCTURE ONLY","sticks":1,"passed":0,"not_these":"1","not_finished":0\}'

try 'quiet: a PASS is not said'
batch 1 --quiet --log "$T/log" "$P"
status_is 0
matches out 'stick 1 of 1: put it in'
lines out 1

try 'the log has a name of the day where none is given'
cd "$T" || exit 2
batch 1 "$P"
cd "$OLDPWD" || exit 2
status_is 0
if grep -q 'PASS' "$T"/stick-batch-20??-??-??.log; then pass; else fail 'there is no such log'; fi

try 'a log that cannot be written'
no_log='cannot be written: see that its folder is there and has room, or give another with --log'
batch 1 --log "$T/nowhere/log" "$P"
status_is 2
matches err "stick: the log $T/nowhere/log $no_log \(No such file or directory\)"
lines err 1
lines out 0
try 'the name of a log is printed as all names are'
batch 1 --log "$(printf '%s/no/\033[31mred\nx' "$T")" "$P"
status_is 2
has err "stick: the log $T/no/\\x1B[31mred\\x0Ax $no_log"
lines err 1
batch 1 --log '' "$P"
status_is 2
has err "stick: the log '' $no_log"

try 'a log that is full is said once, and does not pass'
if [ -w /dev/full ]; then
    start --batch 2 --log /dev/full "$P"
    await "$T/out" "$(named '1 of 2' "$P"): take it out"
    mv "$P" "$T/four" && mv "$T/one" "$P"
    ended
    status_is 2
    matches err "stick: the log /dev/full $no_log \(No space left on device\)"
    lines err 1
    last 'DO NOT SEAL: 2 of 2 sticks passed; the log is not whole'
    batch 1 --json --log /dev/full "$P"
    status_is 2
    last '\{"verdict":"DO NOT SEAL","sticks":1,"passed":1,"log":"not whole","not_finished":0\}'
else
    skip 'there is no /dev/full'
fi
try 'wrong commands'
for number in 0 -1 ' -5' ' 5' +5 x ''; do
    stick --any-folder --log "$T/wrong.log" --batch "$number" "$P"
    status_is 2
    has err 'stick: how many sticks are '
done
stick --any-folder --log "$T/wrong.log" --batch 2 "$P" "$T/two"
status_is 2
has err 'stick: a batch has one folder'
stick --any-folder --log "$T/wrong.log" --batch 2 --write-slip "$P"
status_is 2
has err 'stick: a slip is written for the edition itself: leave --batch away'
stick --any-folder --log "$T/wrong.log" --batch 2 ''
status_is 2
has err "stick: there is no folder '': give one, for example /media/stick"
stick --any-folder --log "$T/wrong.log" --batch 2 "$S"
status_is 2
has err "stick: there is a file where the folder of the sticks should be, $S"

try 'a log in what is to be checked or copied'
cp -R samples/edition "$T/logged"
mkdir "$T/logged/sub" "$T/to"
batch 1 --log "$T/logged/adze.3ds" --copy "$T/logged" "$T/to"
status_is 2
has err "stick: the log would be written into $T/logged: give another place with --log"
same 'the figure' samples/edition/adze.3ds "$T/logged/adze.3ds"
batch 1 --log "$T/logged/sub/log" --against "$T/logged" "$T/to"
status_is 2
batch 1 --log "$T/to/log" "$T/to"
status_is 2
if [ -e "$T/to/log" ] || [ -e "$T/logged/sub/log" ]; then fail 'it was written'; else pass; fi
(cd "$T/to" && "$S" --any-folder --batch 1 .) >"$T/out" 2>"$T/err"
status=$?
status_is 2
has err 'stick: the log would be written into .: give another place with --log'
if [ -z "$(ls -A "$T/to")" ]; then pass; else fail "$(ls -A "$T/to")"; fi
mkfifo "$T/pipe"
batch 1 --log "$T/pipe" samples/edition
status_is 2
has err "stick: the log $T/pipe cannot be written"
if [ -e /dev/full ]; then
    "$S" --any-folder -q --json --batch 1 --log "$T/full.log" samples/edition >/dev/full 2>"$T/err"
    status=$?
    status_is 2
    has err 'stick: what was found could not be written'
fi

try 'real sticks, by the names of their file systems'
rm -rf "$P"
mkdir "$T/real"
if [ "$(id -u)" -ne 0 ] || ! timeout 60 unshare -m sh tests/c/mounted.sh "$T/real" "$S" "$HELPERS/traced" >"$T/out" 2>"$T/err"; then
    skip "no image can be mounted here: $(head -n 1 "$T/err")"
else
    has out "stick: $T/real/place is on no stick: put one in"
    has out 'stick 1 of 2 (AAAA-0001): take it out'
    has out 'stick 2 of 2 (no name): this computer cannot tell it from others, so it is not counted'
    has out 'stick 1 of 2 (AAAA-0001): it has passed already, and is not counted again: take it out'
    has out 'PASS: 2 of 2 sticks passed'
    has out 'status 0'
    try 'a real stick that is exchanged in the middle'
    if grep -q 'exchanged: status 125' "$T/out"; then
        skip 'nothing may be traced'
    else
        has out 'stick 1 of 1 (AAAA-0002): DO NOT SEAL: it was taken out or exchanged meanwhile'
        has out 'DO NOT SEAL: 0 of 1 sticks passed'
        last 'exchanged: status 2'
    fi
    cp "$T/real/mounted.log" "$T/out"
    has out 'stick 2 of 2 (AAAA-0002) ends: PASS, 0'
fi
finish batch_test
