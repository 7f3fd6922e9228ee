#!/bin/sh
# A batch with real sticks, each an image, in a world of its own: /dev has names for two of them.
# Is run by batch_test.sh as: unshare -m sh tests/c/mounted.sh FOLDER STICK TRACED; says what the tool said.
T=$1
S=$2
TRACED=$3
P=$T/place
mkdir "$T/dev" "$P" || exit 125
clean() {
    umount "$P" 2>/dev/null
    for name in one two three; do
        if [ -s "$T/$name.loop" ]; then losetup -d "$(cat "$T/$name.loop")"; fi
    done
}
trap clean EXIT
trap 'exit 2' HUP INT TERM
mount -t tmpfs none "$T/dev" || exit 125
cp -a /dev/null /dev/tty /dev/loop* "$T/dev" || exit 125
mkdir -p "$T/dev/disk/by-uuid"
mount --bind "$T/dev" /dev || exit 125

# image NAME: one with the sample edition on it, on a device that has this name.
image() {
    truncate -s 4M "$T/$1.image"
    mke2fs -q -F "$T/$1.image" && losetup --find --show "$T/$1.image" >"$T/$1.loop" || exit 125
    loop=$(cat "$T/$1.loop")
    mount "$loop" "$P" || exit 125
    rmdir "$P/lost+found"
    cp samples/edition/* "$P"
    umount "$P"
    [ "$2" = none ] || ln -s "$loop" "/dev/disk/by-uuid/$2"
}
put_in() {
    mount "$(cat "$T/$1.loop")" "$P"
}
# said PATTERN: waits for it.
said() {
    tries=0
    until grep -qE "$1" "$T/said" || [ "$tries" -ge 100 ]; do
        tries=$((tries + 1))
        sleep 0.1
    done
}
image one AAAA-0001
image two AAAA-0002
image three none
"$S" --batch 2 --log "$T/mounted.log" "$P" >"$T/said" 2>&1 &
tool=$!
said '^stick 1 of 2: put it in'
cp samples/edition/* "$P" # into the folder, where nothing is mounted
said 'is on no stick'
put_in one
said '\(AAAA-0001\): take it out'
umount "$P" # the files in the folder are seen again
said '^stick 2 of 2: put it in'
put_in three
said 'cannot tell it'
umount "$P"
put_in one
said 'it has passed already'
umount "$P"
put_in two
wait "$tool"
echo "status $?" >>"$T/said"
# The stick is exchanged for another while it is read, at the same place and device.
rename='mv /dev/disk/by-uuid/AAAA-0002 /dev/disk/by-uuid/AAAA-0004'
ASAN_OPTIONS=detect_leaks=0 "$TRACED" 'do' "$rename" "$P/vice.3ds" "$S" --batch 1 --log "$T/mounted.log" "$P" >>"$T/said" 2>&1
echo "exchanged: status $?" >>"$T/said"
cat "$T/said"
