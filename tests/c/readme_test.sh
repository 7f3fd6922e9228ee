#!/bin/sh
# What README shows of the bench tool is what it prints; what the pages point to and name is there.
# shellcheck source=tests/c/common.sh
. tests/c/common.sh

# As it is read: times are another each time.
plain() {
    sed -E 's/in [0-9]+\.[0-9] seconds/in N seconds/'
}
# Each command of the tool in README, and the lines below it.
sed -n '/^    \$ build\/stick /,/^$/p' README.md >"$T/shown"
if [ "$(grep -c '^    \$ ' "$T/shown")" -ge 2 ]; then pass; else fail 'README shows no commands'; fi
while IFS= read -r line; do
    case $line in
    '    $ build/stick '*)
        try "README: ${line#    }"
        # the words behind are folders of the repository
        # shellcheck disable=SC2086
        "$BUILD/stick" ${line#'    $ build/stick '} 2>&1 | plain >"$T/out"
        : >"$T/err"
        ;;
    '' | '    …') ;;
    *)
        echo "${line#    }" | plain >"$T/line"
        if grep -qxF -f "$T/line" "$T/out"; then pass; else fail "it does not print: $(cat "$T/line")"; fi
        ;;
    esac
done <"$T/shown"

try 'the line for the second reader without the kit is one that the gate runs'
line=$(grep -o 'cargo test [^`]*' README.md)
if [ -n "$line" ] && grep -qE "^	([A-Z_]+=[a-z0-9]+ )*$line\$" Makefile; then pass; else fail "not in Makefile: $line"; fi

try 'what the pages point to'
for page in README.md CONTRIBUTING.md docs/*.md docs/landings/*.md samples/README.md second/README.md; do
    # shellcheck disable=SC2016
    sed 's/`[^`]*`//g' "$page" | grep -o '](\([^)]*\))' | sed 's/^](//; s/)$//; s/#.*//' | grep -v '^http' | sort -u | while read -r link; do
        if [ -n "$link" ] && ! [ -e "$(dirname "$page")/$link" ]; then echo "$page: $link"; fi
    done
done >"$T/lost"
if [ -s "$T/lost" ]; then fail "$(cat "$T/lost")"; else pass; fi
try 'the definitions that FORMAT.md names'
cat crates/*/specs/*.antt | grep -oE "[A-Za-z][A-Za-z0-9_'-]*" | sort -u >"$T/words"
# shellcheck disable=SC2016
grep -v '^    ' docs/FORMAT.md | grep -oE '`[A-Za-z][A-Za-z_]{3,}`' | tr -d '`' | sort -u >"$T/named"
printf '%s\n' crates/* | sed 's/.*\///' >"$T/crates"
if [ "$(wc -l <"$T/named")" -ge 40 ]; then pass; else fail 'it names none'; fi
sort -u "$T/words" "$T/crates" | comm -23 "$T/named" - | grep -vx -e refused >"$T/lost"
if [ -s "$T/lost" ]; then fail "not in any specs: $(tr '\n' ' ' <"$T/lost")"; else pass; fi
try 'the definitions, proofs and functions that DEMANDS.md names'
find crates \( -path '*/specs/*.antt' -o -path '*/proofs/*.antt' -o -path '*/src/*.rt' \) -exec cat {} + |
    grep -oE '[A-Za-z_][A-Za-z0-9_-]*' | sort -u - "$T/crates" >"$T/words"
# shellcheck disable=SC2016
grep -oE '`[^`]+`' docs/DEMANDS.md | grep -oE '[A-Za-z_][A-Za-z0-9_-]*' | sort -u >"$T/named"
if [ "$(wc -l <"$T/named")" -ge 200 ]; then pass; else fail 'it names few'; fi
comm -23 "$T/named" "$T/words" >"$T/lost"
if [ -s "$T/lost" ]; then fail "not in any crate: $(tr '\n' ' ' <"$T/lost")"; else pass; fi
grep -oE '[a-z0-9_]+/(specs|proofs)/[A-Za-z0-9_+]+' docs/DEMANDS.md | sort -u | while read -r place; do
    if ! [ -e "crates/$place.antt" ] && ! [ -e "crates/$place" ]; then echo "$place"; fi
done >"$T/lost"
if [ -s "$T/lost" ]; then fail "no such file: $(tr '\n' ' ' <"$T/lost")"; else pass; fi
try 'the decisions have one series of numbers'
grep -oE '^[A-Z]*[0-9]+\.' docs/DECISIONS.md >"$T/numbers"
seq -f '%g.' "$(wc -l <"$T/numbers")" >"$T/series"
if [ -s "$T/numbers" ] && cmp -s "$T/numbers" "$T/series"; then pass; else fail "$(diff "$T/numbers" "$T/series" | head -n 3)"; fi
try 'what is cited is in the repository'
grep -rnIiE 'document 0[0-9]' ./*.md ./*.txt Makefile docs include examples stick tests second/src second/tests second/README.md bench/src |
    grep -v -e '^docs/DEMANDS.md' -e '^tests/c/readme_test.sh' >"$T/lost"
if [ -s "$T/lost" ]; then fail "$(head -n 3 "$T/lost")"; else pass; fi
try 'the chunks of the table are those of FORMAT.md'
grep -oE '0x[0-9A-F]{4}\b' crates/studio_rules/specs/Table.antt | sed 's/0x//' | sort -u >"$T/chunks"
if [ "$(wc -l <"$T/chunks")" -ge 43 ]; then pass; else fail 'the table has none'; fi
while read -r chunk; do
    if grep -qw -e "$chunk" docs/FORMAT.md; then pass; else fail "not $chunk"; fi
done <"$T/chunks"
finish readme_test
