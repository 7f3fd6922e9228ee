#!/bin/sh
# The bench tool reads the stick, not this computer's memory of it.
# shellcheck source=tests/c/stick_common.sh
. tests/c/stick_common.sh

# done_with FILE CALLS ARGUMENTS...: this is done with the file, in this order, before and while it is first read.
done_with() {
    file=$1
    calls=$2
    shift 2
    if traced calls "$T/calls" "$file" "$@"; then
        status_is 0
        sed '/^read$/q' "$T/calls" | tr '\n' ',' >"$T/seen"
        if [ "$(cat "$T/seen")" = "$calls" ]; then pass; else fail "$(cat "$T/seen")"; fi
    fi
}

try 'what is in memory is written out and dropped before a file is read'
sample settled
done_with "$F/adze.3ds" 'write out,drop,read,' "$F"

try 'a file of which nothing is in memory is read at once'
# RUN: what runs the tool may keep it from asking.
# shellcheck disable=SC2086
if $RUN "$HELPERS/cold" "$F/adze.3ds" 2>"$T/err"; then
    done_with "$F/adze.3ds" 'read,' "$F"
else
    skip "$(head -n 1 "$T/err")"
fi

try 'where memory cannot be dropped it does not pass, and the last line says what to do'
faulty "fadvise:$EINVAL:settled/adze" "$F"
status_is 2
last "DO NOT SEAL: 6 figures checked, 0 refused, $seconds: see above; read from this computer's memory, not from the stick: take the stick out, put it in again, check again"
faulty "fadvise:$EINVAL:settled/adze" -q "$F"
status_is 2
lines out 1
faulty "fadvise:$EINVAL:settled/stick.slip" "$F"
status_is 2
has out "read from this computer's memory, not from the stick"
faulty "fdatasync:$ENOSPC:settled/adze" "$F"
status_is 2
has out "read from this computer's memory, not from the stick"
stick "$F"
lacks out memory

# hold FILE: another program has it in memory, until let_go.
hold() {
    mkfifo "$T/end"
    "$HELPERS/hold" "$1" <"$T/end" >"$T/held" &
    exec 6>"$T/end"
    await "$T/held" held
}
let_go() {
    exec 6>&-
    wait $!
    rm "$T/end"
}

try 'a stick that drops out while memory is written out to it'
faulty "fdatasync:$EIO:settled/adze" "$F"
status_is 2
has err "$F/adze.3ds: not checked: the stick stopped answering"

try 'no other stick can take its place unseen: its folder is held open while it is read'
held="ls -l /proc/\$PROCESS/fd | grep -q '$F\$' && echo held >'$T/held'; true"
if traced 'do' "$held" "$F/vice.3ds" "$F"; then
    status_is 0
    if [ -s "$T/held" ]; then pass; else fail 'it is not open'; fi
fi

# What the packer's spring batch had: a bit that turned on the stick, after copying.
try 'a mounted stick'
trap 'umount "$T/mount" 2>/dev/null; rm -rf "$T"' EXIT
mounted() {
    truncate -s 4M "$T/image" && mkdir "$T/mount" && mke2fs -q -F "$T/image" && mount -o loop "$T/image" "$T/mount"
}
if [ "$(id -u)" -ne 0 ] || ! mounted >/dev/null 2>&1; then
    skip 'no image can be mounted here'
else
    # Its page is known in part, and not every question finds that.
    try 'a small file just copied is written out too where blocks are smaller than pages'
    triangle >"$T/mount/triangle.3ds"
    done_with "$T/mount/triangle.3ds" 'write out,drop,read,' --structure "$T/mount"
    rm "$T/mount/triangle.3ds"

    try 'a bit turned on a mounted stick is seen at once'
    cp samples/edition/adze.3ds "$T/mount"
    sync
    stick --structure "$T/mount"
    status_is 0
    structure 1
    # These words are in the first block of the adze; its length stands at its third byte.
    place=$(LC_ALL=C grep -abo 'made by another house' "$T/image" | head -n 1 | cut -d : -f 1)
    turn "$T/image" $((place / 1024 * 1024 + 2))
    stick "$T/mount"
    status_is 1
    has out "$T/mount/adze.3ds: refused: "

    # Another program has the good figure in use, so that it stays in memory whatever is dropped.
    try 'a bit turned on a mounted stick while another program holds the figure is not passed in silence'
    turn "$T/image" $((place / 1024 * 1024 + 2))
    stick --structure "$T/mount"
    status_is 0
    hold "$T/mount/adze.3ds"
    turn "$T/image" $((place / 1024 * 1024 + 2))
    stick --structure "$T/mount"
    status_is 2
    last ".*; read from this computer's memory, not from the stick: take the stick out, put it in again, check again"
    let_go
    stick "$T/mount"
    status_is 1
    lacks out "memory"
    umount "$T/mount"
fi
finish medium_test
