#!/bin/sh
# The header stands alone in every language it promises, and the viewer is what it promises to be.
# shellcheck source=tests/c/common.sh
. tests/c/common.sh
CC=${CC:-cc}
CXX=${CXX:-c++}
strict='-pedantic -Wall -Wextra -Wconversion -Werror -Iinclude'

cat >"$T/use.c" <<'END'
#include "tds.h"
#include "tds.h"
#include "tds_words.h"
int main(void) {
    static unsigned char slice[TDS_RECORD_BYTES];
    static uint32_t row[TDS_RECORD_NUMBERS];
    static struct tds_chunk table[1];
    uint64_t answer = tds_list(NULL, 0, slice, sizeof slice);
    float number = tds_get_float(slice);
    if (TDS_REFUSED(answer) && TDS_REFUSAL(answer) == TDS_NOT_A_FIGURE && TDS_PLACE(answer) == 0) {
        return 0;
    }
    answer = tds_records(NULL, 0, row, TDS_RECORD_NUMBERS, table, 1);
    return number > 0 || TDS_VERTICES(answer) + TDS_FACES(answer) > 0 || tds_get2(slice) > 0 ||
           *tds_refusal_words(TDS_REFUSAL(answer)) > 0 || *tds_refusal_name(0) > 0 ||
           tds_get_record(slice, 0, TDS_RECORD_OWN) > 0 ||
           tds_get_part(slice, 0, TDS_PART_DEPTH) == TDS_NO_FATHER ||
           tds_get_object(slice, 0, TDS_OBJECT_TEXTURES) > 0 ||
           tds_get_c4d_object(slice, 0, TDS_C4D_OBJECT_KIND) == TDS_C4D_OTHER || tds_kind(slice, sizeof slice) == TDS_KIND_3DS;
}
END
cp "$T/use.c" "$T/use.cpp"

# compile COMPILER LANGUAGE FILE [MORE...]
compile() {
    compiler=$1 language=$2 file=$3
    shift 3
    try "$(basename "$file") as $language"
    if ! command -v "$compiler" >/dev/null; then
        skip "there is no $compiler"
        return
    fi
    # strict is a list of words
    # shellcheck disable=SC2086
    if "$compiler" -std="$language" $strict "$@" -c "$file" -o "$T/use.o" >"$T/out" 2>"$T/err"
    then pass; else fail 'does not compile'; fi
}
for language in c89 c99 c11; do compile "$CC" "$language" "$T/use.c"; done
for language in c++98 c++11 c++17; do compile "$CXX" "$language" "$T/use.cpp"; done
compile clang c89 "$T/use.c"
compile "$CC" c89 examples/viewer.c -Wno-conversion

# The lines of C that README shows, with what they take for granted around them.
sed -n '/^A viewer checks before/,/^## /s/^    //p' README.md >"$T/lines"
{
    grep '^#' "$T/lines"
    cat <<'END'
int refuse(const char *words, uint64_t place);
int lend_more(uint64_t meshes);
void draw(const uint8_t *vertices, uint64_t vertices_count, const uint8_t *corners, uint64_t faces_count);
int say_what_is_not_to_be_shown(void);
extern const uint8_t *slip, *names, *path, *bytes;
extern uint8_t *items;
extern size_t slip_len, names_len, items_len, i, path_len, bytes_len;
extern uint64_t size;
int view(const uint8_t *file, size_t file_len, uint8_t *meshes, size_t meshes_len);
int view(const uint8_t *file, size_t file_len, uint8_t *meshes, size_t meshes_len) {
END
    grep -v '^#' "$T/lines"
    echo 'return 0; }'
} >"$T/readme.c"
compile "$CC" c11 "$T/readme.c"
if [ "$(grep -c tds_ "$T/lines")" -ge 7 ]; then pass; else fail 'README shows no calls'; fi

try 'the numbers and names of the refusals'
cat >"$T/names.c" <<'END'
#include "tds.h"
#define IS(number, name) typedef char is_##number[(int)(name) == number ? 1 : -1];
IS(1, TDS_TOO_LONG) IS(2, TDS_NOT_A_FIGURE) IS(3, TDS_TRAILING) IS(4, TDS_SHORT)
IS(5, TDS_OVERRUN) IS(6, TDS_STRAY) IS(7, TDS_MISPLACED) IS(8, TDS_TWICE) IS(9, TDS_NAME)
IS(10, TDS_LENGTH) IS(11, TDS_NUMBER) IS(12, TDS_INDEX) IS(13, TDS_COUNT) IS(14, TDS_MISSING)
IS(15, TDS_NO_ROOM) IS(16, TDS_NO_SUCH_MESH) IS(17, TDS_EMPTY)
IS(18, TDS_SLIP) IS(19, TDS_DIFFERS) IS(23, TDS_FATHER) IS(24, TDS_TEXT)
#define R(number, place) ((uint64_t)(number) * 65536 * 65536 + (place))
IS(118, TDS_REFUSAL(R(118, 5))) IS(119, TDS_PLACE(R(5, 119))) IS(120, TDS_PLACE(R(5, 0xFFFFFFFFu)) / 35791394)
IS(121, 121 * TDS_REFUSED(R(1, 0))) IS(0, TDS_REFUSED(0xFFFFFFFFu))
IS(122, TDS_VERTICES(122 + 65536u * 65535u)) IS(65535, TDS_FACES(122 + 65536u * 65535u))
int main(void) { return 0; }
END
if "$CC" -Iinclude -c "$T/names.c" -o "$T/names.o" >"$T/out" 2>"$T/err"
then pass; else fail 'they are not those of docs/FORMAT.md'; fi

try 'the words of the refusals: all from 1 to 37, by the names that the header has for the numbers'
{
    cat <<'END'
#include <stdio.h>
#include "tds_words.h"
static const char *const names[TDS_LAST_REFUSAL + 1] = {
    "UNKNOWN", "TOO LONG", "NOT A FIGURE", "TRAILING", "SHORT", "OVERRUN", "STRAY", "MISPLACED", "TWICE", "NAME", "LENGTH",
    "NUMBER", "INDEX", "COUNT", "MISSING", "NO ROOM", "NO SUCH MESH", "EMPTY", "SLIP", "DIFFERS", "HEADER", "OWNER", "SIZE",
    "FATHER", "TEXT", "FORM", "ORDER", "COMBINATION", "MATERIAL", "SAME NAME", "NO MATERIAL",
    "UNCHECKED", "BAD FIGURE", "UNEXPECTED", "ABSENT", "INCOMPLETE", "NO FIGURE", "CHANGED"};
static int bad;
static void is(int number, const char *name) {
    if (strcmp(tds_refusal_name(number), name) != 0) {
        printf("%d is %s and not %s\n", number, tds_refusal_name(number), name);
        bad = 1;
    }
}
static void once(int number) {
    for (int i = 0; i < number; i++) {
        if (strcmp(tds_refusal_words(i), tds_refusal_words(number)) == 0) {
            printf("%d and %d have the same words\n", i, number);
            bad = 1;
        }
    }
}
int main(void) {
    for (int i = 1; i <= TDS_LAST_REFUSAL; i++) {
        is(i, names[i]);
        once(i);
    }
    is(0, names[0]);
    is(-1, names[0]);
    is(TDS_LAST_REFUSAL + 1, names[0]);
    is(2147483647, names[0]);
END
    sed -n '/^enum tds_refusal/,/^};/s/^ *TDS_\([A-Z_]*\) = \([1-9][0-9]*\).*/is(\2, "\1");/p' include/tds.h | tr _ ' '
    echo 'return bad; }'
} >"$T/words.c"
if [ "$(grep -c '^is(' "$T/words.c")" -ge 21 ]; then pass; else fail 'the numbers are not found in the header'; fi
if "$CC" -std=c99 -Wall -Wextra -Werror -Iinclude "$T/words.c" -o "$T/words" >"$T/out" 2>"$T/err"
then pass; else fail 'does not compile'; fi
if "$T/words" >"$T/out" 2>"$T/err"; then pass; else fail 'other names, or words that are there twice'; fi

try 'what counts elements ends in _count, and nothing else does'
sed -n '/^uint64_t/,/;/p' include/tds.h | tr '\n' ' ' | sed 's/  */ /g; s/; /;\n/g' | grep -oE '[a-z0-9_]+ \*[a-z]+, size_t [a-z_]+|struct tds_chunk \*[a-z]+, size_t [a-z_]+' |
    sort -u >"$T/slices"
if [ "$(grep -c _count "$T/slices")" -ge 9 ] && [ "$(grep -c _len "$T/slices")" -ge 20 ]; then pass; else fail "$(cat "$T/slices")"; fi
if grep '^uint8_t' "$T/slices" | grep -v '_len$' || grep -v '^uint8_t' "$T/slices" | grep -v '_count$'; then fail 'a wrong name'; else pass; fi

try 'TDS_ROW in every language, and a warning where it is given a pointer'
cat >"$T/row.c" <<'END'
#include "tds.h"
uint64_t written(uint8_t *out, size_t out_len);
uint64_t written(uint8_t *out, size_t out_len) {
    static const float vertices[] = {0, 0, 0, 1, 0, 0, 0, 1, 0};
    static const uint16_t corners[] = {0, 1, 2};
    return tds_write((const uint8_t *)"A", 1, TDS_ROW(vertices), TDS_ROW(corners), out, out_len);
}
#ifdef WRONG
uint64_t wrong(const float *vertices, uint8_t *out, size_t out_len);
uint64_t wrong(const float *vertices, uint8_t *out, size_t out_len) {
    return tds_write((const uint8_t *)"A", 1, TDS_ROW(vertices), NULL, 0, out, out_len);
}
#endif
END
cp "$T/row.c" "$T/row.cpp"
compile "$CC" c89 "$T/row.c"
compile "$CXX" c++11 "$T/row.cpp"
if "$CC" -Wall -Werror -DWRONG -Iinclude -c "$T/row.c" -o "$T/row.o" >"$T/out" 2>"$T/err"; then fail 'a pointer passes'; else pass; fi

try 'the identifiers of the header are the rows of the table, each once and with what stands in it'
sed -n 's/^#define TDS_ID_[A-Z_]* 0x\([0-9A-F]*\)u.*/\1/p' include/tds.h | sort >"$T/named"
grep -oE '0x[0-9A-F]{4}\b' crates/studio_rules/specs/Table.antt | sed 's/0x//' | sort -u >"$T/table"
if [ "$(wc -l <"$T/named")" -eq 47 ]; then pass; else fail 'not 47'; fi
if cmp -s "$T/named" "$T/table"; then pass; else fail "$(diff "$T/named" "$T/table")"; fi

try 'the struct of a record has its seven numbers where the list has them'
cat >"$T/chunk.c" <<'END'
#include "tds.h"
#define AT(field, number) typedef char field[offsetof(struct tds_chunk, field) == 4 * (number) ? 1 : -1];
AT(identifier, TDS_RECORD_ID) AT(offset, TDS_RECORD_OFFSET) AT(length, TDS_RECORD_LENGTH)
AT(depth, TDS_RECORD_DEPTH) AT(parent, TDS_RECORD_PARENT) AT(own, TDS_RECORD_OWN)
AT(next, TDS_RECORD_NEXT)
typedef char whole[sizeof(struct tds_chunk) == TDS_RECORD_BYTES && TDS_RECORD_BYTES == 28 ? 1 : -1];
int main(void) { return 0; }
END
if "$CC" -Iinclude -c "$T/chunk.c" -o "$T/chunk.o" >"$T/out" 2>"$T/err"
then pass; else fail 'they stand elsewhere'; fi
try 'the manual page has every call and every refusal of the header'
sed -n 's/^\(TDS_INLINE \)\{0,1\}[a-z].*[ *]\(tds_[a-z0-9_]*\)(.*/\2/p' include/tds.h include/tds_words.h | grep -v '_$' >"$T/calls"
sed -n '/^enum tds_refusal/,/^};/s/^ *\(TDS_[A-Z_]*\) = [1-9].*/\1/p' include/tds.h >>"$T/calls"
if [ "$(wc -l <"$T/calls")" -ge 45 ]; then pass; else fail 'the calls are not found in the header'; fi
while read -r call; do
    if grep -qw -e "$call" include/tds.3; then pass; else fail "not $call"; fi
done <"$T/calls"
try 'the manual pages are well written'
if ! command -v groff >/dev/null; then skip 'there is no groff'; else
    for page in stick/stick.1 include/tds.3; do
        groff -t -man -ww -z -Tutf8 "$page" >"$T/out" 2>"$T/err"
        lines err 0
    done
fi
finish header_test
