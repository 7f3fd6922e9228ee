#!/bin/sh
# What a program tells its user when something cannot be written: the words of the writers, and which row is meant.
# shellcheck source=tests/c/common.sh
. tests/c/common.sh
TDS_LIB=${TDS_LIB:-target/staticlib/libtds.a}

# Each mistake is made with tds_write_figure itself; the row that is named must have the count that the call answered.
cat >"$T/mistakes.c" <<'END'
#include <stdio.h>
#include <stdlib.h>
#include "tds_words.h"
static uint32_t objects[10], groups[4], materials[2];
static float *vertices;
static uint16_t *corners, *faces;
static uint32_t *smoothing;
static uint8_t *names, *colours, out[4096];
struct counts { size_t names, objects, vertices, corners, smoothing, groups, faces, materials, colours; };
static struct counts c;
static void good(void) { /* two objects, a group in each, two materials */
    static const uint32_t o[10] = {1, 9, 3, 1, 1, 1, 12, 6, 2, 1}, g[4] = {1, 1, 1, 2}, m[2] = {1, 1};
    static const struct counts right = {6, 10, 21, 9, 3, 4, 3, 2, 18};
    memcpy(objects, o, sizeof o);
    memcpy(groups, g, sizeof g);
    memcpy(materials, m, sizeof m);
    memcpy(names, "ABxyxy", 6);
    c = right;
}
static uint64_t written(void) {
    return tds_write_figure(names, c.names, objects, c.objects, vertices, c.vertices, corners, c.corners, smoothing,
                            c.smoothing, groups, c.groups, faces, c.faces, materials, c.materials, colours, c.colours,
                            out, sizeof out);
}
static void is(const char *row, size_t count) {
    uint64_t answer = written();
    const char *named = tds_write_row(c.names, objects, c.objects, c.vertices, c.corners, c.smoothing, groups, c.groups,
                                      c.faces, materials, c.materials, c.colours);
    if (row == NULL ? TDS_REFUSED(answer) || strcmp(named, "no row") != 0
                    : TDS_REFUSAL(answer) != 13 || TDS_PLACE(answer) != count || strcmp(named, row) != 0) {
        printf("%s, %lu: refusal %d at %lu, and it names: %s\n", row == NULL ? "good" : row, (unsigned long)count,
               TDS_REFUSAL(answer), (unsigned long)TDS_PLACE(answer), named);
    }
    good();
}
int main(void) {
    names = calloc(70000, 1), colours = calloc(100, 1);
    vertices = calloc(200000, 4), corners = calloc(200000, 2), faces = calloc(70000, 2), smoothing = calloc(100, 4);
    good(), is(NULL, 0);
    c.objects = 9, is("objects", 9);
    c.groups = 2, is("groups", 2);
    objects[4] = 2, is("groups", 4);
    c.names = 5, is("names", 5);
    materials[1] = 2, is("names", 6);
    groups[2] = 4000000000u, is("names", 6);
    c.vertices = 84, is("vertices", 84);
    c.corners = 18, is("corners", 18);
    c.smoothing = 0, is("smoothing", 0);
    c.faces = 6, is("faces", 6);
    c.colours = 6, is("colours", 6);
    c.materials = 1, is("names", 6);
    objects[1] = 10, objects[6] = 11, is("vertices of an object", 10);
    objects[6] = 196608, c.vertices = 196617, is("vertices of an object", 196608);
    objects[2] = 4, objects[7] = 5, is("corners of an object", 4);
    objects[3] = 0, objects[8] = 3, is("smoothing words of an object", 3);
    objects[3] = 0, c.smoothing = 2, is(NULL, 0);
    groups[3] = 65536, c.faces = 65537, is("face numbers of a group", 65536);
    return 0;
}
END
try 'eight usual mistakes with tds_write_figure, and more: the row is named'
# shellcheck disable=SC2086
if ${CC:-cc} -std=c99 -Wall -Wextra ${CFLAGS:-} -Iinclude "$T/mistakes.c" "$TDS_LIB" ${TDS_LINK:-} -o "$T/mistakes" >"$T/out" 2>"$T/err"
then pass; else fail 'does not compile'; fi
run "$T/mistakes"
status_is 0
lines out 0

try 'the words of the writers: their own where the reader'"'"'s would mislead, else the same'
cat >"$T/writers.c" <<'END'
#include <stdio.h>
#include "tds_words.h"
int main(void) {
    for (int i = -1; i <= TDS_LAST_REFUSAL + 1; i++) {
        if (strcmp(tds_write_words(i), tds_refusal_words(i)) != 0) {
            printf("%d %s\n", i, tds_write_words(i));
        }
    }
    return 0;
}
END
if ${CC:-cc} -std=c99 -Wall -Wextra -Iinclude "$T/writers.c" -o "$T/writers" >"$T/out" 2>"$T/err"; then pass; else fail 'does not compile'; fi
run "$T/writers"
status_is 0
lines out 5
matches out '1 the figure would be longer than a figure may be \(1,048,576 bytes\)'
matches out '9 a name holds a zero byte'
matches out '13 the count of a row is not what it must be'
matches out '15 the room lent to the writer is too small'
matches out '18 an entry cannot stand on a slip'
# One source: tds_words.h. Every other page begins with its words, and may go on behind them.
cat >"$T/list.c" <<'END'
#include <stdio.h>
#include "tds_words.h"
int main(void) {
    for (int i = 1; i <= TDS_LAST_REFUSAL; i++) {
        printf("%d\t%s\t%s\n", i, tds_refusal_name(i), tds_refusal_words(i));
    }
    return 0;
}
END
try 'the refusals in words are the same everywhere'
if ${CC:-cc} -std=c99 -Wall -Wextra -Iinclude "$T/list.c" -o "$T/list" >"$T/out" 2>"$T/err" && "$T/list" >"$T/source"; then pass; else fail 'no words'; fi
# number, name and text as each page has them, one line each
sed -n '/^| number | in plain words/,/^$/s/^| \([0-9]*\) | \([^|]*\) |.*/\1\t\2/p' README.md >"$T/README.md"
sed -n '/^enum tds_refusal/,/^};/p' include/tds.h | tr '\n' ' ' | sed 's/ \{1,\}/ /g; s/TDS_/\n/g' |
    sed -n 's/^[A-Z_]* = \([1-9][0-9]*\),\{0,1\} \/\* \(.*\) \*\/.*/\1\t\2/p' >"$T/tds.h"
sed -n '/^.SH REFUSALS/,/^.TE/p' include/tds.3 | sed -n 's/^\([0-9]*\)\tTDS_[A-Z_]*\tT{$/\1/p; /^T{\|^T}/d; /^[a-z]/p' | sed '/^r l/d; /^nokeep/d' | paste - - >"$T/tds.3"
sed -n '/^.SH REFUSALS/,/^.SH [^R]/p' stick/stick.1 | sed -n 's/^\.B \([0-9]*\) .*/\1/p; /^[a-z].*\.$/p' | paste - - >"$T/stick.1"
cut -f 1 "$T/source" | while read -r number; do "$BUILD/stick" --explain "$number" | sed -n 's/^Refusal \([0-9]*\), [A-Z 4]*: /\1\t/p'; done >"$T/explain"
# (a check of a stick ends with some of them alone)
if [ "$(wc -l <"$T/stick.1")" -ge 25 ]; then pass; else fail "stick.1 has few: $(cat "$T/stick.1")"; fi
for page in README.md tds.h tds.3 stick.1 explain; do
    while IFS='	' read -r number name words; do
        text=$(sed -n "s/^$number	//p" "$T/$page")
        case $page-$text in stick.1-) continue ;; esac
        case $text in
        "$words" | "$words"[.:,]* | "$words ("*) pass ;;
        *) fail "$page has for $number $name: $text" ;;
        esac
    done <"$T/source"
done
finish words_test
