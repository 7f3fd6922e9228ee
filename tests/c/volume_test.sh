#!/bin/sh
# What the bench tool takes a folder for: a stick, or a folder of this computer; and how it knows one stick from another.
# shellcheck source=tests/c/stick_common.sh
. tests/c/stick_common.sh

volume() {
    run "$HELPERS/volume" "$@"
    status_is 0
}
# says LINE: that line alone.
says() {
    if [ "$(cat "$T/out")" = "$1" ]; then pass; else fail "not: $1"; fi
}

# As /sys/dev/block has it: a link for each device; a partition lies in the folder of its disk.
mkdir -p "$T/sys/sda/sda1" "$T/sys/dm-0" "$T/disks"
echo 8:0 >"$T/sys/sda/dev"
echo 8:1 >"$T/sys/sda/sda1/dev"
echo 1 >"$T/sys/sda/sda1/partition"
echo 253:0 >"$T/sys/dm-0/dev"
ln -s ../sys/sda "$T/disks/8:0"
ln -s ../sys/sda/sda1 "$T/disks/8:1"
ln -s ../sys/dm-0 "$T/disks/253:0"
try 'a partition is a part of its disk'
volume disk 8 1 "$T/disks"
says 8:0
try 'a disk is its own'
volume disk 8 0 "$T/disks"
says 8:0
volume disk 253 0 "$T/disks"
says 253:0
try 'a device that is not known is its own'
volume disk 8 17 "$T/disks"
says 8:17
volume disk 8 1 "$T/nowhere"
says 8:1
try 'a disk whose number cannot be read'
: >"$T/sys/sda/dev"
volume disk 8 1 "$T/disks"
says 8:1

try 'a file system has the name of the link that leads to its device'
device=$(find /dev -maxdepth 1 -type b 2>/dev/null | sort | head -n 1)
if [ -z "$device" ]; then
    skip 'there is no disk in /dev'
else
    high=$((0x$(stat -c %t "$device")))
    low=$((0x$(stat -c %T "$device")))
    mkdir "$T/names"
    ln -s "$device" "$T/names/3F2A-91BC"
    ln -s /dev/null "$T/names/0000-0000"
    ln -s "$T/gone" "$T/names/1111-1111"
    volume name "$high" "$low" "$T/names"
    says 'name: 3F2A-91BC'
    volume name "$high" $((low + 200)) "$T/names"
    says 'name: '
    volume name "$high" "$low" "$T/nowhere"
    says 'name: '
    volume name 1 3 "$T/names" # the numbers of /dev/null, which is no disk
    says 'name: '
fi

try 'what a folder stands on'
volume of / # this computer
says 2
volume of "$T/nowhere"
says 0
if [ "$(stat -c %d /proc)" != "$(stat -c %d /)" ]; then
    volume of /proc
    says 4
fi
finish volume_test
