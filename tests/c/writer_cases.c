/*
 * tds_write: each refusal in its order, the place of each, rooms below, at and above the size; what
 * is written reads back; nothing else is touched.
 */
#include "writer_cases.h"

#include <math.h>
#include <stdio.h>
#include <stdlib.h>
#include <string.h>
#include <sys/mman.h>

#include "answers.h"
#include "slices.h"
#include "tds.h"

static struct arena name_arena, vertices_arena, corners_arena, out_arena;

/* What is to be written, and the answer. Lengths that no memory is needed for are given alone. */
struct writer_case {
    const char *what;
    const char *name;
    size_t name_length;
    float vertices[12];
    size_t vertices_length;
    uint16_t corners[6];
    size_t corners_length;
    uint64_t refusal; /* 0 if it is to be written */
};

#define TRIANGLE                                                                                   \
    { 0, 0, 0, 1, 0, 0, 0, 1, 0 }

#define NAME_62 "abcdefghijklmnopqrstuvwxyzABCDEFGHIJKLMNOPQRSTUVWXYZ0123456789"

static const struct writer_case cases[] = {
    {"the triangle", "A", 1, TRIANGLE, 9, {0, 1, 2}, 3, 0},
    {"no name", "", 0, TRIANGLE, 9, {0, 1, 2}, 3, 0},
    {"nothing at all", "", 0, {0}, 0, {0}, 0, 0},
    {"vertices alone", "a long name", 11, TRIANGLE, 9, {0}, 0, 0},
    {"two faces", "two", 3, {-0.0f, 1e-45f, -3e38f, 3e38f, 5, 6}, 6, {0, 1, 1, 0, 0, 1}, 6, 0},
    {"a zero in the name", "ab\0c\0", 5, TRIANGLE, 9, {0, 1, 2}, 3, REFUSAL(9, 2)},
    {"a zero in the name wins over all", "\0", 1, {INFINITY}, 1, {7}, 1, REFUSAL(9, 0)},
    {"a name of 63 bytes", NAME_62 "~", 63, TRIANGLE, 9, {0, 1, 2}, 3, 0},
    {"a name of 64 bytes", NAME_62 "ab", 64, TRIANGLE, 9, {0, 1, 2}, 3, REFUSAL(24, 63)},
    {"a bad byte before 63", "a\x1F" NAME_62 "\x7F", 65, TRIANGLE, 9, {0}, 0, REFUSAL(24, 1)},
    {"a bad byte at 63", NAME_62 "a\x7F", 64, TRIANGLE, 9, {0}, 0, REFUSAL(24, 63)},
    {"a bad byte behind 63", NAME_62 "abc\x80", 66, TRIANGLE, 9, {0}, 0, REFUSAL(24, 63)},
    {"a byte 127 wins over 8 floats", "~ \x7F", 3, TRIANGLE, 8, {0}, 0, REFUSAL(24, 2)},
    {"a zero behind a bad byte", "\xFF\0", 2, TRIANGLE, 9, {0}, 0, REFUSAL(9, 1)},
    {"8 floats", "A", 1, TRIANGLE, 8, {0, 1, 2}, 3, REFUSAL(13, 8)},
    {"2 corners", "A", 1, TRIANGLE, 9, {0, 1, 2}, 2, REFUSAL(13, 2)},
    {"10 floats and 4 corners", "A", 1, TRIANGLE, 10, {0, 1, 2}, 4, REFUSAL(13, 10)},
    {"4 corners win over an infinite float", "A", 1, {0, INFINITY, 0}, 3, {0}, 4, REFUSAL(13, 4)},
    {"an infinite float", "A", 1, {0, 0, 0, 0, -INFINITY, NAN}, 6, {0}, 0, REFUSAL(11, 4)},
    {"a float that is no number wins over a corner",
     "A",
     1,
     {0, 0, NAN},
     3,
     {9},
     3,
     REFUSAL(11, 2)},
    {"a corner too high", "A", 1, TRIANGLE, 9, {0, 1, 2, 0, 3, 9}, 6, REFUSAL(12, 4)},
    {"the highest corner", "A", 1, TRIANGLE, 9, {0, 1, 65535}, 3, REFUSAL(12, 2)},
    {"corners without vertices", "A", 1, {0}, 0, {0}, 3, REFUSAL(12, 0)},
};

/* Whether name, floats (bit for bit) and corners are read back from what was written. */
static void judge_read_back(const struct writer_case *this, const uint8_t *file, size_t size) {
    uint8_t span[8], vertices[4 * 12], corners[2 * 6];
    uint64_t answer = tds_tables(file, size, 0, vertices, sizeof vertices, corners, sizeof corners);
    size_t name_length = this->name_length;
    judge_answer(tds_check(file, size), 6);
    judge_answer(answer, this->vertices_length / 3 + this->corners_length / 3 * 65536);
    judge_answer(tds_name(file, size, 0, span, sizeof span), 2);
    expect(tds_get4(span + 4) == name_length &&
               memcmp(file + tds_get4(span), this->name, name_length) == 0,
           "the name reads back differently");
    for (size_t i = 0; i < this->vertices_length; i++) {
        float number = tds_get_float(vertices + 4 * i);
        expect(memcmp(&number, &this->vertices[i], sizeof number) == 0, "float %zu differs", i);
    }
    for (size_t i = 0; i < this->corners_length; i++) {
        expect(tds_get2(corners + 2 * i) == this->corners[i], "corner %zu differs", i);
        /* the tables leave out the flag word behind every third corner, at the end of the file */
        expect(i % 3 != 2 ||
                   tds_get2(file + size - 8 * (this->corners_length - i - 1) / 3 - 2) == 0,
               "the flags behind corner %zu are not 0", i);
    }
}

/* One call, all inputs right before forbidden pages (rows are then still aligned). */
static void try_room(const struct writer_case *this, size_t size, size_t room, enum where where) {
    uint64_t right = this->refusal != 0 ? this->refusal : room < size ? REFUSAL(15, size) : size;
    const void *name = arena_hold(&name_arena, this->name, this->name_length, where);
    const void *vertices =
        arena_hold(&vertices_arena, this->vertices, 4 * this->vertices_length, AT_END);
    const void *corners =
        arena_hold(&corners_arena, this->corners, 2 * this->corners_length, AT_END);
    uint8_t *out = arena_lend(&out_arena, room, where);
    uint64_t answer;
    trying("tds_write of %s into %zu bytes (%d)", this->what, room, where);
    answer = tds_write(this->name_length == 0 ? NULL : name, this->name_length,
                       this->vertices_length == 0 ? NULL : vertices, this->vertices_length,
                       this->corners_length == 0 ? NULL : corners, this->corners_length,
                       room == 0 ? NULL : out, room);
    judge_answer(answer, right);
    expect(arena_alive(&out_arena, out, TDS_REFUSED(right) ? 0 : size), "something was changed");
    if (!TDS_REFUSED(right) && answer == right) {
        judge_read_back(this, out, size);
    }
}

static void try_case(const struct writer_case *this) {
    size_t size =
        41 + this->name_length + 4 * this->vertices_length + 8 * (this->corners_length / 3);
    const size_t rooms[] = {0, 1, 40, size - 1, size, size + 1, size + 7, size + 100};
    EACH(i, rooms) {
        for (int where = AT_START; where < WHERES; where++) {
            try_room(this, size, rooms[i], (enum where)where);
        }
    }
}

/* The triangle is that of docs/FORMAT.md, byte for byte. */
static void try_triangle(void) {
    static const uint8_t right[] =
        "MM\x56\0\0\0==\x50\0\0\0\0@\x4A\0\0\0A\0\0A\x42\0\0\0\x10\x41\x2C\0\0\0\3\0"
        "\0\0\0\0\0\0\0\0\0\0\0\0\0\0\x80\x3F\0\0\0\0\0\0\0\0\0\0\0\0\0\0\x80\x3F\0\0\0\0"
        "\x20\x41\x10\0\0\0\1\0\0\0\1\0\2\0\0";
    uint8_t out[86];
    trying("tds_write of the triangle");
    judge_answer(tds_write((const uint8_t *)"A", 1, cases[0].vertices, 9, cases[0].corners, 3, out,
                           sizeof out),
                 86);
    expect(sizeof right == 86 && memcmp(out, right, 86) == 0,
           "the bytes are not those of docs/FORMAT.md");
}

/* Rows that take the size to the limit with a name of three bytes, and over it with four. */
static void try_limit(void) {
    const size_t floats = 3 * 65535, corners = 3 * 32764;
    float *vertices = calloc(floats, sizeof *vertices);
    uint16_t *row = calloc(corners, sizeof *row);
    uint8_t *out = malloc(TDS_LONGEST_FILE);
    const uint8_t *name = (const uint8_t *)"name";
    if (vertices == NULL || row == NULL || out == NULL) {
        abort();
    }
    trying("tds_write at the longest size");
    judge_answer(tds_write(name, 3, vertices, floats, row, corners, out, TDS_LONGEST_FILE),
                 TDS_LONGEST_FILE);
    judge_answer(tds_check(out, TDS_LONGEST_FILE), 6);
    judge_answer(tds_write(name, 3, vertices, floats, row, corners, out, TDS_LONGEST_FILE - 1),
                 REFUSAL(15, TDS_LONGEST_FILE));
    trying("tds_write one byte over the longest size");
    judge_answer(tds_write(name, 4, vertices, floats, row, corners, out, TDS_LONGEST_FILE),
                 REFUSAL(1, 0));
    judge_answer(tds_write(name, 4, vertices, floats, row, corners, NULL, 0), REFUSAL(1, 0));
    free(vertices);
    free(row);
    free(out);
}

/* Rows of more numbers than a mesh may have, also of more than 2^32: the place is capped. */
static void try_rows(void) {
    size_t most = 3 * 65535, huge = sizeof(size_t) < 8 ? most : (size_t)((1ull << 32) + 2);
    float *zeros =
        mmap(NULL, 4 * huge, PROT_READ, MAP_PRIVATE | MAP_ANONYMOUS | MAP_NORESERVE, -1, 0);
    const uint16_t *corners = (const void *)zeros;
    if (zeros == MAP_FAILED) {
        printf("skipped: no address space for a row of more than 2^32 numbers\n");
        return;
    }
    trying("tds_write of long rows");
    judge_answer(tds_write(NULL, 0, zeros, most, NULL, 0, NULL, 0), REFUSAL(15, 41 + 4 * most));
    judge_answer(tds_write(NULL, 0, zeros, most + 3, NULL, 0, NULL, 0), REFUSAL(13, most + 3));
    judge_answer(tds_write(NULL, 0, zeros, 3, corners, most, NULL, 0),
                 REFUSAL(15, 53 + 8 * (most / 3)));
    judge_answer(tds_write(NULL, 0, zeros, 3, corners, most + 3, NULL, 0), REFUSAL(13, most + 3));
    if (huge > most) {
        judge_answer(tds_write(NULL, 0, zeros, huge, NULL, 0, NULL, 0), REFUSAL(13, 0xFFFFFFFF));
        judge_answer(tds_write(NULL, 0, zeros, 3, corners, huge, NULL, 0), REFUSAL(13, 0xFFFFFFFF));
        judge_answer(tds_write(NULL, 0, zeros, 3, corners, huge - 1, NULL, 0),
                     REFUSAL(13, 0xFFFFFFFF));
    }
    munmap(zeros, 4 * huge);
}

void try_writer(void) {
    name_arena = arena_make(4096);
    vertices_arena = arena_make(4096);
    corners_arena = arena_make(4096);
    out_arena = arena_make(4096);
    EACH(i, cases) {
        try_case(&cases[i]);
    }
    try_triangle();
    try_limit();
    try_rows();
}
