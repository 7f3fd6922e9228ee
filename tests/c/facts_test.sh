#!/bin/sh
# What tds.h tells of the files themselves, tried on files: where own data begins, where the numbers of a Caligari mesh stand, which of
# two slices a 15 speaks of; and the functions that live in the header.
# shellcheck source=tests/c/common.sh
. tests/c/common.sh
TDS_LIB=${TDS_LIB:-target/staticlib/libtds.a}
cat >"$T/facts.c" <<'END'
#include <stdio.h>
#include <stdlib.h>
#include "tds.h"
static uint8_t file[TDS_LONGEST_FILE + 1], rows[1 << 16], more[1 << 16];
static size_t file_len;
static int tried;
static void is(const char *what, uint64_t seen, uint64_t wanted) {
    tried++;
    if (seen != wanted) {
        printf("%s: %llu instead of %llu\n", what, (unsigned long long)seen, (unsigned long long)wanted);
    }
}
static void load(const char *path) {
    FILE *stream = fopen(path, "rb");
    if (stream == NULL) {
        printf("no %s\n", path);
        exit(1);
    }
    file_len = fread(file, 1, sizeof file, stream);
    fclose(stream);
}
/* Own data begins at offset + 6: the name of each part there is that of an object, with its mesh. */
static void parts(void) {
    size_t count, i, j, found, all = 0;
    load("samples/edition/vice.3ds");
    count = (size_t)tds_list(file, file_len, rows, sizeof rows);
    for (i = 0; i < count; i++) {
        if (tds_get_record(rows, i, TDS_RECORD_ID) != TDS_ID_PART_HEAD) {
            continue;
        }
        for (found = 0, j = 0; j < count; j++) {
            found += tds_get_record(rows, j, TDS_RECORD_ID) == TDS_ID_OBJECT &&
                     strcmp((char *)file + tds_get_record(rows, i, TDS_RECORD_OFFSET) + 6,
                            (char *)file + tds_get_record(rows, j, TDS_RECORD_OFFSET) + 6) == 0;
        }
        is("objects of a part's name", found, 1);
        all++;
    }
    is("parts", all, 4);
}
/* The places that the header gives for a Caligari mesh. */
static void caligari(const char *path, uint32_t all_faces) {
    uint8_t sizes[8];
    size_t count, i;
    uint32_t mesh = 0, offset, n, vertices, pairs, faces = 0;
    load(path);
    count = (size_t)tds_cob_list(file, file_len, rows, sizeof rows);
    for (i = 0; i < count; i++) {
        if (tds_get_cob_record(rows, i, TDS_COB_TYPE) != TDS_COB_MESH) {
            continue;
        }
        is("sizes", tds_cob_sizes(file, file_len, mesh++, sizes, 8), 2);
        offset = tds_get_cob_record(rows, i, TDS_COB_OFFSET);
        n = tds_get2(file + offset + 22);
        vertices = tds_get4(file + offset + 120 + n);
        is("vertices at offset + 120 + n", vertices, tds_get4(sizes));
        pairs = tds_get4(file + offset + 124 + n + 12 * vertices);
        faces += tds_get4(file + offset + 128 + n + 12 * vertices + 8 * pairs);
        is("no fewer faces in all", tds_get4(file + offset + 128 + n + 12 * vertices + 8 * pairs) >= tds_get4(sizes + 4), 1);
    }
    is("meshes tried", mesh > 0, 1);
    is("faces in all", faces, all_faces);
}
/* Both too small: the first is meant. The first large enough: the second. */
static void rooms(void) {
    uint64_t good;
    load("samples/edition/adze.3ds"); /* mesh 1: 60 vertices, 116 faces */
    is("tds_tables, both", tds_tables(file, file_len, 1, rows, 0, more, 0) & 0xFFFFFFFFu, 180);
    is("tds_tables, the second", tds_tables(file, file_len, 1, rows, sizeof rows, more, 0) & 0xFFFFFFFFu, 348);
    load("samples/damaged/overrun-length-bit-turned.3ds");
    good = tds_rescue(file, file_len, rows, sizeof rows, more, sizeof more);
    is("tds_rescue mends", TDS_REFUSED(good) || good == 0, 0);
    is("tds_rescue, both", tds_rescue(file, file_len, rows, 0, more, 0) & 0xFFFFFFFFu, good);
    is("tds_rescue, the second is in bytes", TDS_PLACE(tds_rescue(file, file_len, rows, sizeof rows, more, 0)) > 100, 1);
    load("samples/caligari/try-square.cob");
    is("tds_cob_sizes", tds_cob_sizes(file, file_len, 0, rows, 8), 2);
    good = 3 * (uint64_t)tds_get4(rows + 4);
    is("tds_cob_tables, both", TDS_PLACE(tds_cob_tables(file, file_len, 0, more, 0, more, 0)), 3 * tds_get4(rows));
    is("tds_cob_tables, the second", TDS_PLACE(tds_cob_tables(file, file_len, 0, more, sizeof more, NULL, 0)), good);
    load("samples/c4d/bench.c4d");
    good = tds_c4d_list(file, file_len, rows, sizeof rows, more, sizeof more);
    is("tds_c4d_check tells the objects", tds_c4d_check(file, file_len), good);
    is("tds_c4d_list, both", TDS_PLACE(tds_c4d_list(file, file_len, rows, 0, more, 0)), good);
}
static void inline_functions(void) {
    uint8_t at[6] = {9, 9, 9, 9, 9, 9};
    tds_put4(at + 1, 0xFEDCBA98u);
    is("put4", tds_get4(at + 1) == 0xFEDCBA98u && at[0] == 9 && at[5] == 9 && at[1] == 0x98, 1);
    tds_put2(at + 1, 0x1234);
    is("put2", tds_get2(at + 1) == 0x1234 && at[1] == 0x34 && at[3] == 0xDC, 1);
    is("kind of nothing", tds_kind(NULL, 0), TDS_KIND_UNKNOWN);
    is("kind of a slip", tds_kind((const uint8_t *)"\001", 1), TDS_KIND_UNKNOWN);
    is("kind of text", tds_kind((const uint8_t *)"Caligari V00.01ALH", 18), TDS_KIND_COB);
    is("kind of FORM", tds_kind((const uint8_t *)"FORM....AIFF", 12), TDS_KIND_UNKNOWN);
    is("kind of a short FORM", tds_kind((const uint8_t *)"FORM....MC4", 11), TDS_KIND_UNKNOWN);
    load("samples/edition/adze.3ds"), is("kind .3ds", tds_kind(file, file_len), TDS_KIND_3DS);
    load("samples/caligari/try-square.cob"), is("kind .cob", tds_kind(file, file_len), TDS_KIND_COB);
    load("samples/c4d/bench.c4d"), is("kind .c4d", tds_kind(file, file_len), TDS_KIND_C4D);
}
int main(void) {
    parts();
    caligari("samples/caligari/try-square.cob", 6);
    caligari("samples/caligari/marking-gauge.cob", 3);
    rooms();
    inline_functions();
    printf("tried %d\n", tried);
    return 0;
}
END
try 'what the header says of files is so'
# shellcheck disable=SC2086
if ${CC:-cc} -std=c99 -Wall -Wextra ${CFLAGS:-} -Iinclude "$T/facts.c" "$TDS_LIB" ${TDS_LINK:-} \
    -o "$T/facts" >"$T/out" 2>"$T/err"
then pass; else fail 'does not compile'; fi
run "$T/facts"
status_is 0
lines out 1
matches out 'tried [3-9][0-9]'
finish facts_test
