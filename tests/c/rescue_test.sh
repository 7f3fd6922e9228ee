#!/bin/sh
# What is left of a damaged figure: a new file, whole or not at all, and what was cut in words.
# shellcheck source=tests/c/stick_common.sh
. tests/c/stick_common.sh

D=samples/damaged
L=$T/left.3ds
last_words='a mended figure is for looking at what is left, not for packing'

# accepted: what was written is accepted.
accepted() {
    if "$S" -q "$L" >"$T/check" 2>&1; then pass; else fail "it is refused: $(cat "$T/check")"; fi
}
# nothing: no file was written, nor a part of one.
nothing() {
    if ls "$L"* >"$T/check" 2>/dev/null; then fail "something was written: $(cat "$T/check")"; else pass; fi
}

try 'an object whose corner does not exist is cut, with its name'
stick --rescue "$D/index-corner-bit-turned.3ds" "$L"
status_is 1
lines out 2
lines err 0
matches out "$D/index-corner-bit-turned.3ds: cut: the object 'handle', at byte 860, 2048 bytes: INDEX \(12\): .*"
last "$L: written: 1 part is missing, 2048 bytes: $last_words"
accepted

try 'a file that is there is left as it was'
cp "$L" "$T/before"
stick --rescue "$D/name-zero-byte-lost.3ds" "$L"
status_is 2
lines out 0
lines err 1
matches err "stick: $L: something of this name is there already, and is left alone: give the new file another name"
same 'the file' "$T/before" "$L"
if [ -e "$L.part" ]; then fail 'a part of it was left'; else pass; fi
rm "$L"

try 'figures of other formats are not mended'
for figure in samples/caligari/try-square.cob samples/c4d/bench.c4d; do
    stick --rescue "$figure" "$L"
    status_is 2
    matches err "stick: $figure: only \.3ds figures can be mended: take another copy of this figure"
    nothing
done

try 'a bad length takes everything up to the end of the editor part'
stick --rescue "$D/overrun-length-bit-turned.3ds" "$L"
status_is 1
matches out '.*: cut: everything from here to the end of the editor part, at byte 860, 2048 bytes: OVERRUN \(5\): .*'
accepted
rm "$L"

try 'a material has no name of its own here'
stick --rescue "$D/name-zero-byte-lost.3ds" "$L"
status_is 1
matches out '.*: cut: a material, at byte 32, 37 bytes: NAME \(9\): .*'
accepted
rm "$L"

try 'several cuts, one of which is neither an object nor a material'
{
    printf 'MM\050\0\0\0' && printf '==\042\0\0\0'
    printf '\160\024\007\0\0\0x' && printf '\043\201\010\0\0\0ab' && printf '\0@\015\0\0\0\001\0\0A\006\0\0'
} >"$T/several.3ds"
stick --rescue "$T/several.3ds" "$L"
status_is 1
lines out 3
matches out "$T/several.3ds: cut: a chunk 1470, at byte 12, 7 bytes: LENGTH \(10\): .*"
matches out "$T/several.3ds: cut: the object '.x01', at byte 27, 13 bytes: TEXT \(24\): .*"
last "$L: written: 2 parts are missing, 20 bytes: $last_words"
accepted
rm "$L"

try 'a good figure comes back as it is'
stick --rescue samples/edition/adze.3ds "$L"
status_is 0
lines out 1
last "$L: written: the figure is good, and nothing was cut"
same 'the figure' samples/edition/adze.3ds "$L"
rm "$L"

try 'what nothing mends'
for name in missing-editor-mark-bit-turned trailing-one-byte-added not-a-figure-empty-file father-own-number-bit-turned; do
    stick --rescue "$D/$name.3ds" "$L"
    status_is 1
    matches out "$D/$name.3ds: nothing can be mended: .*, at byte [0-9]+: take another copy of this figure"
    lines out 1
    nothing
done
head -c 1048577 /dev/zero >"$T/long.3ds"
stick --rescue "$T/long.3ds" "$L"
status_is 1
has out 'TOO LONG (1)'
nothing

try 'all samples: what is written is accepted'
for file in "$D"/*.3ds; do
    stick --rescue "$file" "$L"
    if [ -e "$L" ]; then accepted; fi
    rm -f "$L"
done

try 'what cannot be read or written'
stick --rescue "$T/none.3ds" "$L"
status_is 2
lines err 1
nothing
stick --rescue "$T" "$L"
status_is 2
has err "$T: it is not a file: see what stands there, and check again"
nothing
stick --rescue "$D/name-zero-byte-lost.3ds" "$T/no/folder.3ds"
status_is 2
lines err 1

try 'an empty name is seen'
stick --rescue '' "$L"
status_is 2
matches err "stick: '': there is no such file or folder .*"
lines err 1
nothing
try 'an object with an empty name has none'
printf 'MM\030\0\0\0==\022\0\0\0\0@\014\0\0\0\0\0A\006\0\0' >"$T/nameless.3ds"
stick --rescue "$T/nameless.3ds" "$L"
status_is 1
matches out "$T/nameless.3ds: cut: an object, at byte 12, 12 bytes: .*"
rm "$L"

try 'stopped by hand: nothing is left, and that is said'
for number in 1 2 15; do
    faulty "stop:$number:left.3ds" --rescue "$D/name-zero-byte-lost.3ds" "$L"
    status_is 2
    lines out 0
    matches err "stick: $L: stopped by hand, and nothing was written: give the command again"
    lines err 1
    nothing
done

try 'mistakes in the command line'
stick --rescue "$D/name-zero-byte-lost.3ds"
status_is 2
has err 'which new file'
stick --rescue "$D/name-zero-byte-lost.3ds" ''
status_is 2
matches err "stick: which new file is what is left of $D/name-zero-byte-lost.3ds to go to\? For example: .*"
lines err 1
stick --rescue '' ''
status_is 2
has err "what is left of '' to go to?"
stick --rescue "$D/name-zero-byte-lost.3ds" "$L" "$L.more"
status_is 2
has err "leave $L.more away"
nothing
for option in --json --quiet --list --verbose; do
    stick --rescue "$D/name-zero-byte-lost.3ds" "$L" "$option"
    status_is 2
    has err 'leave all but --rescue away'
    nothing
done
stick --write-slip --rescue "$D/name-zero-byte-lost.3ds" "$L"
status_is 2
nothing

finish rescue_test
