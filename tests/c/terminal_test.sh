#!/bin/sh
# The bench tool on a terminal: progress, the colour of the last line, and stopping by hand.
# shellcheck source=tests/c/stick_common.sh
. tests/c/stick_common.sh
export TERM=xterm
green=$(printf '\033[1;97;42m')
red=$(printf '\033[1;97;41m')
yellow=$(printf '\033[1;30;43m')
plain=$(printf '\033[0m')

# terminal both|error ARGUMENTS...: what the terminal was sent, in $T/terminal.
terminal() {
    kind=$1
    shift
    # shellcheck disable=SC2086
    timeout 60 "$HELPERS/on_terminal" "$kind" "$T/terminal" $RUN "$S" "$@" >"$T/out" 2>"$T/err"
    status=$?
}
# What is left on the terminal to be read: each line with what was written over it last.
left() {
    awk 'BEGIN { RS = "\n" } {
        count = split($0, part, "\r"); line = ""
        for (i = 1; i <= count; i++) line = part[i] substr(line, length(part[i]) + 1)
        sub(/ +$/, "", line); print line }' "$T/terminal" | sed "s/$(printf '\033')\\[[0-9;]*m//g; s/^  \([A-Z]\)/\1/"
}
# widest: the longest run of bytes between the starts of lines, of all that begins with checking.
widest() {
    tr '\r' '\n' <"$T/terminal" | grep 'check' | awk '{ if (length($0) > most) most = length($0) } END { print most + 0 }'
}

try 'progress on a terminal'
terminal both samples/edition
status_is 0
has terminal 'checking file 1 of 7, 0 refused so far ...'
left >"$T/out"
lines out 1
has out 'PASS'

try 'progress leaves the lines readable'
terminal both samples/damaged
status_is 1
has terminal 'checking file 1, '
left | sed '/^DO NOT SEAL/,$d' >"$T/on"
stick samples/damaged
sed '/^DO NOT SEAL/,$d' "$T/out" >"$T/off"
same 'what is left on the terminal' "$T/on" "$T/off"

try 'progress when only standard error is a terminal'
terminal error samples/edition
has terminal 'checking file 1'
lines out 1
passes 6
lacks out checking

try 'no progress without a terminal'
stick samples/edition
lacks err checking
lacks out checking

try 'no progress when quiet'
terminal both --quiet samples/edition
status_is 0
if [ -s "$T/terminal" ]; then fail 'something was shown'; else pass; fi

try 'progress minds the width'
for width in 1 2 20 40; do
    WIDTH=$width terminal error samples/edition
    status_is 0
    if [ "$(widest)" -lt "$width" ]; then pass; else fail "$(widest) characters in $width columns"; fi
done
WIDTH=20 terminal error samples/edition
has terminal 'checking file 1 of '

try 'progress moves on'
folder many
mkdir "$F/a"
i=0
while [ "$i" -lt 40 ]; do
    i=$((i + 1))
    triangle >"$F/a/$i.3ds"
done
for letter in b c d e f g h i j k l m n o p q r s t u v w x y z; do cp -R "$F/a" "$F/$letter"; done
mkfifo "$T/slow"
# The tool waits at the pipe that takes its lines, so a tenth of a second passes in between.
(sleep 0.3 && cat) <"$T/slow" >"$T/slow-out" &
"$HELPERS/on_terminal" error "$T/terminal" sh -c "$RUN '$S' --list '$F' >'$T/slow'"
wait
figures=$(tr '\r' '\n' <"$T/terminal" | grep -c '^checking file')
if [ "$figures" -ge 2 ]; then pass; else fail "shown $figures times"; fi

try 'how far it is, and the time left'
# rows: what is shown of some rows, without the ways of the cursor, in $T/out; its colours stay
rows() {
    HEIGHT=30 WIDTH=80 "$HELPERS/on_terminal" error "$T/terminal" "$HELPERS/rows"
    status=$?
    status_is 0
    tr -d '\r' <"$T/terminal" >"$T/out"
    echo >>"$T/out"
}
rows
matches out '/a: copying file 3 of 12, 1:(29|30) left \.\.\.'
matches out '/b: checking file 3 of 12 \(45% of it\), 2:(29|30) left, 2 refused so far \.\.\.'
matches out '/c: checking file 3, 0 refused so far \.\.\.'
matches out '/d: checking file 13, 0:00 left, 0 refused so far \.\.\.'
matches out '/e: copying file 1 of 5 \(0% of it\), [0-9]+:[0-9][0-9] left \.\.\.'
matches out '/i: waiting'
try 'what is done has the colour of its verdict'
yellow=$(printf '\033[1;30;43m')
has out "/f: ${green}done$plain"
has out "/g: ${yellow}done$plain"
has out "/h: ${red}done$plain, 3 refused so far"
NO_COLOR=1 rows
matches out '/f: done'

try 'several folders: a line of progress for each, cut at its start'
long=$T/a-rather-long-name-of-a-folder-that-does-not-fit-in
mkdir "$long"
triangle >"$long/t.3ds"
WIDTH=70 HEIGHT=10 terminal error --structure samples/edition "$long" samples/damaged
status_is 1
has terminal 'samples/edition: '
has terminal '-folder-that-does-not-fit-in: '
lacks terminal rather
if [ "$(widest)" -lt 70 ]; then pass; else fail "$(widest) characters in 70 columns"; fi
for name in a b c d e f; do sample "$name"; done
try 'no more lines of progress than the terminal has'
HEIGHT=4 terminal error "$T/a" "$T/b" "$T/c" "$T/d" "$T/e" "$T/f"
status_is 0
back=$(tr '\033' '\n' <"$T/terminal" | sed -n 's/^\[\([0-9]*\)A.*/\1/p' | sort -n | tail -n 1)
if [ "${back:-0}" -le 3 ]; then pass; else fail "goes back $back lines"; fi
try 'a terminal that cannot go back'
TERM=dumb terminal error "$T/a" "$T/b"
status_is 0
has terminal checking
lacks terminal "$(printf '\033')"

try 'the last line is green, yellow or red on a terminal'
terminal both samples/edition
has terminal "$green  PASS  $plain: 6 figures checked"
terminal both samples/old
has terminal "$yellow  STRUCTURE ONLY  $plain: 1 figure checked"
terminal both samples/damaged
has terminal "$red  DO NOT SEAL  $plain: 20 figures checked"
try 'no colour where it is not wanted'
NO_COLOR=1 terminal both samples/edition
lacks terminal "$green"
has terminal 'PASS: 6 figures'
TERM=dumb terminal both samples/edition
lacks terminal "$green"
terminal error samples/edition
lacks out "$(printf '\033')"
NO_COLOR='' terminal both samples/edition
has terminal "$green"

try 'a bell at the verdict on each stick of a batch'
bell=$(printf '\007')
for kind in both error; do
    terminal "$kind" --any-folder --batch 1 --log "$T/log" "$T/a"
    status_is 0
    has terminal "$bell"
    terminal "$kind" --no-bell --any-folder --batch 1 --log "$T/log" "$T/a"
    status_is 0
    lacks terminal "$bell"
done
stick --any-folder --batch 1 --log "$T/log" "$T/a"
lacks out "$bell"
lacks err "$bell"
if grep -q "$bell" "$T/log"; then fail 'it is in the log'; else pass; fi
try 'no bell without a batch'
terminal both "$T/a"
lacks terminal "$bell"

# interrupted SIGNAL WHERE: the signal comes just before a figure is read, on a terminal.
interrupted() {
    # shellcheck disable=SC2016,SC2086
    ASAN_OPTIONS=$TRACED_ASAN timeout 60 "$HELPERS/on_terminal" both "$T/terminal" "$HELPERS/traced" 'do' \
        "kill -$1 \$PROCESS" "$2/chisel.3ds" $RUN "$S" "$2" >"$T/out" 2>"$T/err"
    status=$?
}
edition stopped
for signal in INT TERM HUP; do
    try "stopped by hand ($signal)"
    interrupted "$signal" "$F"
    if [ "$status" -eq 125 ]; then skip 'nothing may be traced'; continue; fi
    status_is 2
    left >"$T/out"
    lines out 1
    has out 'DO NOT SEAL  : not finished: 1 figure checked'
done
try 'stopped by hand, and quiet'
if traced 'do' "kill -INT \$PROCESS" "$F/chisel.3ds" --quiet "$F"; then
    status_is 2
    has out 'DO NOT SEAL: not finished: 1 figure checked'
fi
try 'stopped twice, while nothing moves'
# The pipe is full and never read, so the tool waits there for ever; the second signal ends it.
if [ -n "$RUN" ]; then skip "$RUN waits itself"; else
    mkfifo "$T/stuck"
    exec 5<>"$T/stuck"
    head -c 65536 /dev/zero >&5
    "$S" samples/damaged >&5 2>"$T/err" &
    tool=$!
    tries=0
    # until it is the tool (and not the shell any more), and listens to this signal, the 15th of those that it catches
    until tr '\n' ' ' <"/proc/$tool/status" | grep -q 'Name:.stick .*SigCgt:.[0-9a-f]*[4-7c-f][0-9a-f][0-9a-f][0-9a-f] ' ||
        [ "$tries" -ge 600 ]; do
        tries=$((tries + 1))
        sleep 0.1
    done
    while [ "$tries" -lt 600 ] && kill -s TERM "$tool" 2>/dev/null; do
        tries=$((tries + 1))
        sleep 0.1
    done
    kill -s KILL "$tool" 2>/dev/null
    wait "$tool"
    status=$?
    exec 5>&-
    status_is 2
    has err 'DO NOT SEAL: not finished'
fi
finish terminal_test
