#!/bin/sh
# `make run`: the folder is one word whatever is in its name; quiet when nothing has changed; clear without the kit. The
# kit's part is played by a script that hands out the library which is under test.
# shellcheck source=tests/c/common.sh
. tests/c/common.sh
TDS_LIB=${TDS_LIB:-target/staticlib/libtds.a}
lib=$(cd "$(dirname "$TDS_LIB")" && pwd)/$(basename "$TDS_LIB")
tree=$T/tree
mkdir -p "$tree/crates/tds/src" "$T/kit"
touch -d '2001-01-01' "$tree/crates/tds/src/lib.rt" "$tree/crates.txt"
ln -s "$PWD/Makefile" "$PWD/stick" "$PWD/packaging" "$PWD/include" "$PWD/samples" "$PWD/tests" "$tree"
cat >"$T/kit/rt" <<END
#!/bin/sh
echo "\$*" >>'$T/asked'
case \$1 in
all)
    echo 'rt: c_version: begins with what a check kept'
    echo 'rt: chose --jobs 1 for tds'
    ;;
lib)
    mkdir -p out
    cp '$lib' out/libtds.a
    ;;
esac
END
chmod +x "$T/kit/rt"
touch -d '2001-01-01' "$T/kit/rt" "$tree/crates/tds/src" "$tree/crates/tds" "$tree/crates"
: >"$T/asked"
mkdir "$T/my stick" "$T/it's"
for name in 'my stick' "it's"; do cp samples/edition/* "$T/$name"; done

# The places for commands without the kit that may be on this machine.
without=$(echo "$PATH" | tr ':' '\n' | while read -r place; do [ -x "$place/rt" ] || printf '%s:' "$place"; done)

# make_run KIT ARGUMENTS...: make run in the tree, with the kit in this place.
make_run() {
    kit=$1
    shift
    (cd "$tree" && unset MAKEFLAGS MFLAGS MAKEOVERRIDES && PATH=$kit:$without && timeout 120 make --no-print-directory \
        CFLAGS=-O0 CC="${CC:-cc}" TDS_LINK="${TDS_LINK:-}" TDS_LIB=target/staticlib/libtds.a BUILD=build run "$@") >"$T/out" 2>"$T/err"
    status=$?
}

try 'without the kit and the library: one clear line'
make_run /nowhere
status_is 2
lines out 0
lines err 1
has err 'The library must be built, and the Rattle kit is not here: install it so that "rt version" answers, then make again'

try 'the first time the kit is asked: to prove side by side, then for the library where the crate is; a short line for each command'
make_run "$T/kit"
status_is 0
matches out '^prove tds$'
lacks out begins
has out 'some 37 minutes of processor time at first'
has out 'PASS: 6 figures checked'
printf 'all check --jobs %s\nlib\n' "$(nproc)" >"$T/order"
same 'what the kit was asked' "$T/order" "$T/asked"
matches out 'compile stick/main\.c'
matches out 'link build/stick'
if [ "$(awk 'length > 120' "$T/out" | wc -l)" -eq 0 ]; then pass; else fail 'a long line'; fi
asked() {
    seen=$(grep -c '^lib' "$T/asked")
    if [ "$seen" -eq "$1" ]; then pass; else fail "the kit was asked $seen times instead of $1"; fi
}
asked 1

try 'nothing has changed: the kit is not asked, nothing is linked, and only the check speaks'
make_run "$T/kit"
status_is 0
lines out 1
lines err 0
has out 'PASS: 6 figures checked'
asked 1

try 'V=1 shows the whole commands'
rm "$tree/build/stick"
make_run "$T/kit" V=1
status_is 0
has out ' -o build/stick'
lacks out 'link build/stick'

try 'the folder is one word'
make_run "$T/kit" "STICK=$T/my stick"
status_is 0
has out 'PASS: 6 figures checked'
make_run "$T/kit" "STICK=$T/it's"
status_is 0
has out 'PASS: 6 figures checked'
make_run "$T/kit" 'STICK=x; echo hi'
status_is 2
has err 'stick: x; echo hi: not checked: there is no such file or folder'
lines out 2
# shellcheck disable=SC2016
make_run "$T/kit" "STICK=\$(shell touch '$T/ran')\`touch '$T/ran'\`"
status_is 2
if [ -e "$T/ran" ]; then fail 'a name was run'; else pass; fi
make_run "$T/kit" STICK=--help
status_is 2
has err 'stick: --help: not checked'

try 'a library in a folder with a space in its name'
mkdir "$T/my libraries"
cp "$lib" "$T/my libraries/libtds.a"
make_run /nowhere TDS_LIB="$T/my libraries/libtds.a"
status_is 0
has out 'link build/stick'
has out 'PASS: 6 figures checked'
touch -d '2001-01-01' "$T/my libraries/libtds.a"
make_run /nowhere TDS_LIB="$T/my libraries/libtds.a"
lines out 1

try 'a warning of the compiler ends the gate, and nothing else'
rm "$tree/build/c/stick/text.o"
make_run "$T/kit" CFLAGS='-O0 -Wtraditional' C_WERROR= # (the gate has it in the environment)
status_is 0
has err 'warning: '
rm "$tree/build/c/stick/text.o"
make_run "$T/kit" CFLAGS='-O0 -Wtraditional' C_WERROR=-Werror
status_is 2
has err 'error: '
make_run "$T/kit"
if grep -q 'C_WERROR=-Werror' tests/gate; then pass; else fail 'the gate lets warnings pass'; fi

try 'real figures: the folder is one word'
mkdir -p "$tree/second/target/release"
# shellcheck disable=SC2016
printf '#!/bin/sh\necho "$#: $2"\n' >"$tree/second/target/release/differ"
chmod +x "$tree/second/target/release/differ"
(cd "$tree" && unset MAKEFLAGS MFLAGS MAKEOVERRIDES && PATH=$T/kit:$without && make --no-print-directory -o differ real FOLDER="$T/my stick") \
    >"$T/out" 2>"$T/err"
status=$?
status_is 0
has out "2: $T/my stick"

try 'a source has changed'
touch "$tree/crates/tds/src/lib.rt"
make_run "$T/kit"
status_is 0
asked 2
try 'a source has gone'
touch -d '2001-01-01' "$tree/crates/tds/src/lib.rt"
rm "$tree/crates/tds/src/lib.rt"
make_run "$T/kit"
asked 3
make_run "$T/kit"
asked 3
finish run_test
