/*
 * tds_write_figure: a painted triangle and a bare object beside it, byte for byte, and its list;
 * then one thing changed at a time: each refusal with its place; rooms; nothing else is touched.
 */
#include "figure_cases.h"

#include <math.h>
#include <stdio.h>
#include <string.h>

#include "answers.h"
#include "slices.h"
#include "tds.h"

enum { SIZE = 258, RECORDS = 28 };

static struct arena out_arena;

/* Two objects, A with a face and B without, and two materials, A and CC; the face of A has CC. */
struct rows {
    uint8_t names[7];
    uint32_t objects[10];
    float vertices[9];
    uint16_t corners[3];
    uint32_t smoothing[1];
    uint32_t groups[2];
    uint16_t faces[1];
    uint32_t materials[2];
    uint8_t colours[18];
    size_t length[9]; /* of each row, in the order of the call */
};

static const struct rows right = {
    {'A', 'B', 'A', 'C', 'C', 'C', 'C'},
    {1, 9, 3, 1, 1, 1, 0, 0, 0, 0},
    {0, 0, 0, 1, 0, 0, 0, 1, 0},
    {0, 1, 2},
    {7},
    {2, 1},
    {0},
    {1, 2},
    {1, 2, 3, 4, 5, 6, 7, 8, 9, 11, 12, 13, 14, 15, 16, 17, 18, 19},
    {7, 10, 9, 3, 1, 2, 1, 2, 18},
};

/* Its bytes, by the rules of the format. */
#define COLOUR(id, r, g, b) CHUNK(id, 15), CHUNK(0x0011, 9), r, g, b
#define ZERO 0, 0, 0, 0
#define ONE 0, 0, 0x80, 0x3F
#define MATERIAL_A                                                                                 \
    CHUNK(0xAFFF, 59), CHUNK(0xA000, 8), 'A', 0, COLOUR(0xA010, 1, 2, 3), COLOUR(0xA020, 4, 5, 6), \
        COLOUR(0xA030, 7, 8, 9)
#define MATERIAL_CC                                                                                \
    CHUNK(0xAFFF, 60), CHUNK(0xA000, 9), 'C', 'C', 0, COLOUR(0xA010, 11, 12, 13),                  \
        COLOUR(0xA020, 14, 15, 16), COLOUR(0xA030, 17, 18, 19)
#define VERTICES_A CHUNK(0x4110, 44), WORD(3), ZERO, ZERO, ZERO, ONE, ZERO, ZERO, ZERO, ONE, ZERO
#define GROUP_CC CHUNK(0x4130, 13), 'C', 'C', 0, WORD(1), WORD(0)
#define FACES_A                                                                                    \
    CHUNK(0x4120, 39), WORD(1), WORD(0), WORD(1), WORD(2), WORD(0), GROUP_CC, CHUNK(0x4150, 10),   \
        7, 0, 0, 0
#define OBJECT_A CHUNK(0x4000, 97), 'A', 0, CHUNK(0x4100, 89), VERTICES_A, FACES_A
#define LISTS_B CHUNK(0x4110, 8), WORD(0), CHUNK(0x4120, 8), WORD(0)
#define OBJECT_B CHUNK(0x4000, 30), 'B', 0, CHUNK(0x4100, 22), LISTS_B
#define HEADS WORD(0x4D4D), WORD(SIZE), WORD(0), CHUNK(0x3D3D, SIZE - 6)

static const uint8_t figure[SIZE] = {HEADS, MATERIAL_A, MATERIAL_CC, OBJECT_A, OBJECT_B};
static const uint8_t empty[] = {CHUNK(0x4D4D, 12), CHUNK(0x3D3D, 6)};

static uint64_t call(const struct rows *r, uint8_t *out, size_t room) {
    const size_t *n = r->length;
    return tds_write_figure(r->names, n[0], r->objects, n[1], r->vertices, n[2], r->corners, n[3],
                            r->smoothing, n[4], r->groups, n[5], r->faces, n[6], r->materials, n[7],
                            r->colours, n[8], out, room);
}

/* The answer, and that no more than the figure was touched. */
static void judge(const char *what, const struct rows *r, size_t room, uint64_t answer) {
    for (int where = AT_START; where < WHERES; where++) {
        uint8_t *out = arena_lend(&out_arena, room, (enum where)where);
        uint64_t got;
        trying("tds_write_figure: %s, %zu bytes (%d)", what, room, where);
        got = call(r, room == 0 ? NULL : out, room);
        expect(got == answer, "%s: %llx, not %llx", what, (unsigned long long)got,
               (unsigned long long)answer);
        expect(arena_alive(&out_arena, out, TDS_REFUSED(answer) ? 0 : (size_t)answer),
               "%s: something was changed", what);
        if (!TDS_REFUSED(answer)) {
            expect(memcmp(out, answer == SIZE ? figure : empty, (size_t)answer) == 0,
                   "%s: other bytes are written", what);
        }
    }
}

/* What is written is accepted, and has these chunks. */
static void judge_list(void) {
    static const uint16_t chunks[RECORDS] = {
        0x4D4D, 0x3D3D, 0xAFFF, 0xA000, 0xA010, 0x0011, 0xA020, 0x0011, 0xA030, 0x0011,
        0xAFFF, 0xA000, 0xA010, 0x0011, 0xA020, 0x0011, 0xA030, 0x0011, 0x4000, 0x4100,
        0x4110, 0x4120, 0x4130, 0x4150, 0x4000, 0x4100, 0x4110, 0x4120};
    uint8_t out[SIZE], list[RECORDS * TDS_RECORD_BYTES];
    trying("what tds_write_figure wrote");
    expect(call(&right, out, sizeof out) == SIZE, "the size differs");
    expect(tds_list(out, SIZE, list, sizeof list) == RECORDS, "the count of records differs");
    EACH(i, chunks) {
        expect(tds_get4(list + i * TDS_RECORD_BYTES) == chunks[i], "chunk %zu differs", i);
    }
}

/* The order in which the lengths of rows are asked. */
static const size_t order[] = {1, 5, 0, 2, 3, 4, 6, 8};

/* This row, and all that are asked later, are too short. */
static struct rows shorter_from(size_t first) {
    struct rows r = right;
    for (size_t i = first; i < sizeof order / sizeof order[0]; i++) {
        r.length[order[i]]--;
    }
    return r;
}

static void judge_lengths(void) {
    EACH(i, order) {
        struct rows r = shorter_from(i);
        judge("this row and later ones too short", &r, SIZE, REFUSAL(13, r.length[order[i]]));
        r = right, r.length[order[i]]++;
        judge("a row too long", &r, SIZE, REFUSAL(13, r.length[order[i]]));
    }
}

static void judge_faults(void) {
    struct rows r = right;
    r.names[1] = 0;
    judge("a zero in a name", &r, SIZE, REFUSAL(9, 0));
    r = right, r.names[4] = 127;
    judge("a name not for the label", &r, SIZE, REFUSAL(24, 1));
    r = right, r.names[1] = 'A';
    judge("two objects of one name", &r, SIZE, REFUSAL(29, 1));
    r = right, r.names[6] = 'D';
    judge("a group of no material", &r, SIZE, REFUSAL(30, 0));
    r = right, r.objects[1] = 8, r.objects[6] = 1;
    judge("floats of no whole vertex", &r, SIZE, REFUSAL(13, 8));
    r = right, r.objects[3] = 0, r.objects[8] = 1;
    judge("a smoothing word for no face", &r, SIZE, REFUSAL(13, 1));
    r = right, r.vertices[4] = INFINITY;
    judge("an infinite float", &r, SIZE, REFUSAL(11, 4));
    r = right, r.corners[2] = 3;
    judge("a corner that does not exist", &r, SIZE, REFUSAL(12, 2));
    r = right, r.faces[0] = 1;
    judge("a face that does not exist", &r, SIZE, REFUSAL(12, 0));
}

enum { MANY = 5000, DIGITS = 6 };

static uint8_t numbered[DIGITS * (MANY + 2)];

static void put_name(size_t at, size_t number) {
    for (size_t j = DIGITS; j-- > 0; number /= 10) {
        numbered[DIGITS * at + j] = (uint8_t)('0' + number % 10);
    }
}

/* Asks for n objects, the last of which has the name of another, or its own. */
static uint64_t many_objects(size_t n, size_t last) {
    static uint32_t objects[5 * MANY];
    for (size_t i = 0; i < n; i++) {
        put_name(i, i < n - 1 ? i : last);
        objects[5 * i] = DIGITS;
    }
    return tds_write_figure(numbered, DIGITS * n, objects, 5 * n, NULL, 0, NULL, 0, NULL, 0, NULL,
                            0, NULL, 0, NULL, 0, NULL, 0, NULL, 0);
}

/* Asks for n materials and an object with a group of that number. */
static uint64_t many_materials(size_t n, size_t group) {
    static const uint32_t object[5] = {DIGITS, 0, 0, 0, 1}, groups[2] = {DIGITS, 0};
    static uint32_t materials[MANY];
    static uint8_t colours[9 * MANY];
    put_name(0, 0);
    put_name(n + 1, group);
    for (size_t i = 0; i < n; i++) {
        put_name(i + 1, i);
        materials[i] = DIGITS;
    }
    return tds_write_figure(numbered, DIGITS * (n + 2), object, 5, NULL, 0, NULL, 0, NULL, 0,
                            groups, 2, NULL, 0, materials, n, colours, 9 * n, NULL, 0);
}

/* Few names are compared with each other, more are looked up in a short row or a long one. */
static void judge_many_names(void) {
    static const size_t counts[] = {32, 33, 1024, 1025, MANY};
    EACH(i, counts) {
        size_t n = counts[i];
        trying("tds_write_figure: %zu names", n);
        judge_answer(many_objects(n, n - 1), REFUSAL(15, 12 + 35 * n));
        judge_answer(many_objects(n, 0), REFUSAL(29, n - 1));
        judge_answer(many_objects(n, n / 2), REFUSAL(29, n - 1));
        judge_answer(many_materials(n, n - 1), REFUSAL(15, 62 + 64 * n));
        judge_answer(many_materials(n, n), REFUSAL(30, 0));
    }
}

void try_figures(void) {
    const size_t rooms[] = {SIZE, SIZE + 1, SIZE + 50};
    struct rows none = {.length = {0}};
    out_arena = arena_make(4096);
    EACH(i, rooms) {
        judge("the painted triangle", &right, rooms[i], SIZE);
    }
    judge("one byte too few", &right, SIZE - 1, REFUSAL(15, SIZE));
    judge("no room", &right, 0, REFUSAL(15, SIZE));
    judge("nothing at all", &none, 12, 12);
    judge_list();
    judge_lengths();
    judge_faults();
    judge_many_names();
}
