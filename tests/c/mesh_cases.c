/*
 * The calls about one mesh, on figures at the edges of docs/FORMAT.md: zeros of both signs,
 * subnormal and largest numbers, a mesh with nothing in it, meshes in several objects, faces before
 * vertices, rooms of just what is needed and of one number less, the longest vertex list. All
 * answers are written down here by hand, from the rules.
 */
#include "mesh_cases.h"

#include <stdlib.h>
#include <string.h>

#include "answers.h"
#include "slices.h"
#include "tds.h"

#define SIZES(vertices, faces) ((uint64_t)(vertices) + 65536 * (uint64_t)(faces))

static struct arena file_arena, vertices_arena, corners_arena, out_arena;

/* A vertex by the bits of its floats, a face with flag word 0. */
#define FLOAT(bits) (bits) & 255, (bits) >> 8 & 255, (bits) >> 16 & 255, (bits) >> 24 & 255
#define VERTEX(x, y, z) FLOAT(x), FLOAT(y), FLOAT(z)
#define FACE(a, b, c) WORD(a), WORD(b), WORD(c), WORD(0)

/* The headers around `inside` bytes of a mesh, whose object is named A at 18. */
#define MESH(inside)                                                                               \
    CHUNK(0x4D4D, 26 + (inside)), CHUNK(0x3D3D, 20 + (inside)), CHUNK(0x4000, 14 + (inside)), 'A', \
        0, CHUNK(0x4100, 6 + (inside))

/* Of a case: its figure; where the name stands, and how long it is. */
#define OF(figure) .file = figure, .file_length = sizeof figure
#define NAMED(at, length) .name_at = at, .name_length = length

/* Zero and then minus zero in x, minus zero and then zero in y. */
static const uint8_t zeros[] = {MESH(32), CHUNK(0x4110, 32), WORD(2),
                                VERTEX(0u, 0x80000000u, 0x3F800000u),
                                VERTEX(0x80000000u, 0u, 0xBF800000u)};

/* Subnormal numbers: each half is rounded, and the centre may stand beside the box. */
static const uint8_t subnormals[] = {MESH(32), CHUNK(0x4110, 32), WORD(2),
                                     VERTEX(0x80000003u, 0x80000001u, 0x007FFFFFu),
                                     VERTEX(5u, 0x80000001u, 0x007FFFFFu)};

/* The largest finite numbers, of both signs. */
static const uint8_t largest[] = {MESH(32), CHUNK(0x4110, 32), WORD(2),
                                  VERTEX(0x7F7FFFFFu, 0xFF7FFFFFu, 0x7F7FFFFFu),
                                  VERTEX(0x7F7FFFFFu, 0xFF7FFFFFu, 0xFF7FFFFFu)};

/* One vertex, and a face that has it three times. */
static const uint8_t one[] = {MESH(36),          CHUNK(0x4110, 20),
                              WORD(1),           VERTEX(0x3F800000u, 0xC0000000u, 0x40400000u),
                              CHUNK(0x4120, 16), WORD(1),
                              FACE(0, 0, 0)};

/* A mesh with neither 4110 nor 4120. */
static const uint8_t bare[] = {MESH(0)};

/* Two vertices and three faces. */
static const uint8_t room[] = {MESH(64),
                               CHUNK(0x4110, 32),
                               WORD(2),
                               VERTEX(0x3F800000u, 0u, 0u),
                               VERTEX(0u, 0x3F800000u, 0u),
                               CHUNK(0x4120, 32),
                               WORD(3),
                               FACE(0, 1, 0),
                               FACE(1, 0, 1),
                               FACE(1, 1, 0)};

/* A light; a mesh with no name, whose 4120 stands before its 4110; a mesh of another object. */
static const uint8_t several[] = {CHUNK(0x4D4D, 159),
                                  CHUNK(0x3D3D, 153), /* 0, 6 */
                                  CHUNK(0x4000, 26),
                                  'L',
                                  0,
                                  CHUNK(0x4600, 18),
                                  VERTEX(0x3F800000u, 0x40000000u, 0x40400000u), /* 12 */
                                  CHUNK(0x4000, 61),
                                  0,
                                  CHUNK(0x4100, 54),
                                  CHUNK(0x4120, 16),
                                  WORD(1),
                                  FACE(1, 0, 1), /* 38 */
                                  CHUNK(0x4110, 32),
                                  WORD(2),
                                  VERTEX(0x3F800000u, 0x40000000u, 0x40400000u),
                                  VERTEX(0x40400000u, 0xBF800000u, 0u), /* 67 */
                                  CHUNK(0x4000, 60),
                                  'T',
                                  'w',
                                  'o',
                                  0,
                                  CHUNK(0x4100, 50),
                                  CHUNK(0x4110, 20),
                                  WORD(1),
                                  VERTEX(0xC0000000u, 0x3F000000u, 0x3F800000u), /* 99 */
                                  CHUNK(0x4120, 24),
                                  WORD(2),
                                  FACE(0, 0, 0),
                                  FACE(0, 0, 0)}; /* 135 */

/* A mesh that is asked for, and what is right about it. */
static const struct mesh {
    const char *what;
    const uint8_t *file;
    size_t file_length;
    uint32_t number;
    uint64_t refusal; /* 0 if the mesh is there; then the rest counts */
    uint32_t name_at, name_length;
    uint32_t vertices, faces;
    uint32_t coordinates[6]; /* bits of floats */
    uint16_t corners[9];
    uint32_t box[9]; /* bits of floats: low, high, centre */
} meshes[] = {
    {.what = "zeros of both signs",
     OF(zeros),
     NAMED(18, 1),
     .vertices = 2,
     .coordinates = {0, 0x80000000, 0x3F800000, 0x80000000, 0, 0xBF800000},
     .box = {0, 0x80000000, 0xBF800000, 0, 0x80000000, 0x3F800000, 0, 0x80000000, 0}},
    {.what = "subnormal numbers",
     OF(subnormals),
     NAMED(18, 1),
     .vertices = 2,
     .coordinates = {0x80000003, 0x80000001, 0x007FFFFF, 5, 0x80000001, 0x007FFFFF},
     .box = {0x80000003, 0x80000001, 0x007FFFFF, 5, 0x80000001, 0x007FFFFF, 0, 0x80000000,
             0x00800000}},
    {.what = "the largest numbers",
     OF(largest),
     NAMED(18, 1),
     .vertices = 2,
     .coordinates = {0x7F7FFFFF, 0xFF7FFFFF, 0x7F7FFFFF, 0x7F7FFFFF, 0xFF7FFFFF, 0xFF7FFFFF},
     .box = {0x7F7FFFFF, 0xFF7FFFFF, 0xFF7FFFFF, 0x7F7FFFFF, 0xFF7FFFFF, 0x7F7FFFFF, 0x7F7FFFFF,
             0xFF7FFFFF, 0}},
    {.what = "one vertex",
     OF(one),
     NAMED(18, 1),
     .vertices = 1,
     .faces = 1,
     .coordinates = {0x3F800000, 0xC0000000, 0x40400000},
     .box = {0x3F800000, 0xC0000000, 0x40400000, 0x3F800000, 0xC0000000, 0x40400000, 0x3F800000,
             0xC0000000, 0x40400000}},
    {.what = "nothing in it", OF(bare), NAMED(18, 1)},
    {.what = "a number one too high", OF(bare), .number = 1, .refusal = REFUSAL(16, 1)},
    {.what = "faces before vertices",
     OF(several),
     NAMED(44, 0),
     .vertices = 2,
     .faces = 1,
     .coordinates = {0x3F800000, 0x40000000, 0x40400000, 0x40400000, 0xBF800000, 0},
     .corners = {1, 0, 1},
     .box = {0x3F800000, 0xBF800000, 0, 0x40400000, 0x40000000, 0x40400000, 0x40000000, 0x3F000000,
             0x3FC00000}},
    {.what = "a mesh before it",
     OF(several),
     .number = 1,
     NAMED(105, 3),
     .vertices = 1,
     .faces = 2,
     .coordinates = {0xC0000000, 0x3F000000, 0x3F800000},
     .box = {0xC0000000, 0x3F000000, 0x3F800000, 0xC0000000, 0x3F000000, 0x3F800000, 0xC0000000,
             0x3F000000, 0x3F800000}},
    {.what = "a number that is the count", OF(several), .number = 2, .refusal = REFUSAL(16, 2)},
    {.what = "more faces than vertices",
     OF(room),
     NAMED(18, 1),
     .vertices = 2,
     .faces = 3,
     .coordinates = {0x3F800000, 0, 0, 0, 0x3F800000, 0},
     .corners = {0, 1, 0, 1, 0, 1, 1, 1, 0},
     .box = {0, 0, 0, 0x3F800000, 0x3F800000, 0, 0x3F000000, 0x3F000000, 0}},
};

/* Whether these numbers, and nothing else, were put into a slice. */
static void judge_numbers(const struct arena *arena, const uint8_t *slice, const uint32_t *numbers,
                          size_t count) {
    for (size_t i = 0; i < count; i++) {
        expect(tds_get4(slice + 4 * i) == numbers[i], "number %zu is %lx instead of %lx", i,
               (unsigned long)tds_get4(slice + 4 * i), (unsigned long)numbers[i]);
    }
    expect(arena_alive(arena, slice, 4 * count), "something else was changed");
}

static void try_tables(const struct mesh *this, const uint8_t *file, size_t vertices_room,
                       size_t corners_room, enum where where) {
    size_t numbers = 3 * this->vertices, words = 3 * this->faces;
    uint8_t *vertices = arena_lend(&vertices_arena, vertices_room, where);
    uint8_t *corners = arena_lend(&corners_arena, corners_room, where);
    uint64_t right = this->refusal != 0            ? this->refusal
                     : vertices_room / 4 < numbers ? REFUSAL(15, numbers)
                     : corners_room / 2 < words    ? REFUSAL(15, words)
                                                   : SIZES(this->vertices, this->faces);
    size_t filled = TDS_REFUSED(right) ? 0 : words;
    trying("tds_tables of a mesh with %s into %zu and %zu bytes (%d)", this->what, vertices_room,
           corners_room, where);
    judge_answer(tds_tables(file, this->file_length, this->number, vertices, vertices_room, corners,
                            corners_room),
                 right);
    judge_numbers(&vertices_arena, vertices, this->coordinates, TDS_REFUSED(right) ? 0 : numbers);
    for (size_t i = 0; i < filled; i++) {
        expect(tds_get2(corners + 2 * i) == this->corners[i], "corner %zu differs", i);
    }
    expect(arena_alive(&corners_arena, corners, 2 * filled), "something else was changed");
}

static void try_name(const struct mesh *this, const uint8_t *file, enum where where) {
    const uint32_t span[2] = {this->name_at, this->name_length};
    uint64_t right = this->refusal != 0 ? this->refusal : 2;
    uint8_t *out = arena_lend(&out_arena, 8, where);
    trying("tds_name of a mesh with %s (%d)", this->what, where);
    judge_answer(tds_name(file, this->file_length, this->number, out, 8), right);
    judge_numbers(&out_arena, out, span, TDS_REFUSED(right) ? 0 : 2);
}

static void try_box(const struct mesh *this, const uint8_t *file, enum where where) {
    uint64_t right = this->refusal != 0 ? this->refusal : this->vertices == 0 ? REFUSAL(17, 0) : 9;
    uint8_t *out = arena_lend(&out_arena, 36, where);
    trying("tds_box of a mesh with %s (%d)", this->what, where);
    judge_answer(tds_box(file, this->file_length, this->number, out, 36), right);
    judge_numbers(&out_arena, out, this->box, TDS_REFUSED(right) ? 0 : 9);
}

/* Each room below, at and above what is needed, in numbers and in bytes. */
static void try_mesh(const struct mesh *this, enum where where) {
    size_t vertices = 12 * this->vertices, corners = 6 * this->faces;
    const size_t vertices_rooms[] = {vertices, vertices - (vertices > 0), vertices + 7, 0,
                                     vertices + 99};
    const size_t corners_rooms[] = {corners, corners - (corners > 0), corners + 5, 0, corners + 99};
    const uint8_t *file = arena_hold(&file_arena, this->file, this->file_length, where);
    EACH(i, vertices_rooms) {
        EACH(j, corners_rooms) {
            try_tables(this, file, vertices_rooms[i], corners_rooms[j], where);
        }
    }
    try_name(this, file, where);
    try_box(this, file, where);
}

enum { MOST = 65535, LONG_FILE = 50 + 12 * MOST };

/* A figure of the longest vertex list, whose numbers are of either sign and finite, since their
 * highest byte is even; and a face of vertices 0, 65,534 and 65,533. */
static uint8_t *long_figure(void) {
    static const uint8_t front[] = {
        0x4D, 0x4D, 0x26, 0, 0x0C, 0, 0x3D, 0x3D, 0x20, 0,    0x0C, 0,            /* 0, 6 */
        0x00, 0x40, 0x1A, 0, 0x0C, 0, 'A',  0,                                    /* 12 */
        0x00, 0x41, 0x12, 0, 0x0C, 0, 0x10, 0x41, 0xFC, 0xFF, 0x0B, 0, 0xFF, 0xFF /* 20, 26 */
    };
    static const uint8_t face[] = {0x20, 0x41, 16,   0,    0,    0,    1, 0,
                                   0,    0,    0xFE, 0xFF, 0xFD, 0xFF, 0, 0};
    uint8_t *file = need_bytes(LONG_FILE);
    memcpy(file, front, sizeof front);
    for (size_t j = 0; j < 3 * MOST; j++) {
        uint8_t *at = file + sizeof front + 4 * j;
        at[0] = (uint8_t)j;
        at[1] = (uint8_t)(j / 256);
        at[2] = (uint8_t)(j / 3);
        at[3] = (uint8_t)(j % 127 * 2);
    }
    memcpy(file + LONG_FILE - sizeof face, face, sizeof face);
    return file;
}

static void try_long(void) {
    static const uint32_t box[9] = {0xFCFFFEFD, 0xFCFFBAFE, 0xFCFFF9FF, 0x7EFF9DFD, 0x7EFFDCFE,
                                    0x7EFF9EFF, 0x7E6F9E0D, 0x7E6FE14E, 0x7E6F9F5F};
    uint8_t *file = long_figure(), *vertices = need_bytes(12 * MOST), corners[6];
    uint8_t *out = arena_lend(&out_arena, 36, AT_END);
    trying("the calls about a mesh of 65,535 vertices");
    judge_answer(tds_tables(file, LONG_FILE, 0, vertices, 12 * MOST, corners, sizeof corners),
                 SIZES(MOST, 1));
    expect(memcmp(vertices, file + 34, 12 * MOST) == 0, "the vertices differ");
    expect(memcmp(corners, file + LONG_FILE - 8, sizeof corners) == 0, "the corners differ");
    judge_answer(tds_tables(file, LONG_FILE, 0, vertices, 12 * MOST - 1, corners, sizeof corners),
                 REFUSAL(15, 3 * MOST));
    judge_answer(tds_box(file, LONG_FILE, 0, out, 36), 9);
    judge_numbers(&out_arena, out, box, 9);
    free(file);
    free(vertices);
}

void try_meshes(void) {
    file_arena = arena_make(4096);
    vertices_arena = arena_make(4096);
    corners_arena = arena_make(4096);
    out_arena = arena_make(4096);
    EACH(i, meshes) {
        for (int where = AT_START; where < WHERES; where++) {
            try_mesh(&meshes[i], (enum where)where);
        }
    }
    try_long();
}
