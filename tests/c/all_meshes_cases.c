/*
 * All meshes, and all boxes, in one call: none, an empty one, one with all its lists and with some
 * of them, in any order, between objects without a mesh and unknown chunks; empty lists, which are
 * there; fewer mapping pairs than vertices; faults of the file; rooms of just what is needed, of
 * less and of a part of a mesh more; and the most meshes that a file can have. All answers are
 * written down here by hand, from the rules.
 */
#include "all_meshes_cases.h"

#include <stdlib.h>
#include <string.h>

#include "answers.h"
#include "slices.h"
#include "tds.h"

/* The bytes of a float 1, and of a face of the first vertex. */
#define ONE 0, 0, 0x80, 0x3F
#define FACE 0, 0, 0, 0, 0, 0, 7, 7

/* A figure with these bytes in its 3D3D; they begin at 12. */
#define FIGURE(length) CHUNK(0x4D4D, 12 + (length)), CHUNK(0x3D3D, 6 + (length))

/* AMPLE: room for more than any case has, so that a refusal has something to spoil. */
enum { MOST_MESHES = 3, EMPTY_LENGTH = 13, AMPLE = (MOST_MESHES + 1) * TDS_BOX_BYTES };

static struct arena file_arena, meshes_arena;

static const struct {
    const char *what;
    uint8_t file[220];
    size_t length;
    uint64_t refusal; /* 0 if the file is to be accepted; then the rest counts */
    size_t meshes;
    uint32_t right[MOST_MESHES][TDS_MESH_NUMBERS];
} cases[] = {
    {"no object", {FIGURE(0)}, 12, 0, 0, {{0}}},
    {"an object without a mesh", {FIGURE(8), CHUNK(0x4000, 8), 'a', 0}, 20, 0, 0, {{0}}},
    {"an empty mesh",
     {FIGURE(16), CHUNK(0x4000, 16), 'a', 'b', 'c', 0, CHUNK(0x4100, 6)},
     28,
     0,
     1,
     {{18, 3, 0, 0, 0, 0, 0, 0}}},
    {"a mesh with all its lists",
     {FIGURE(66), CHUNK(0x4000, 66), 'a', 0, CHUNK(0x4100, 58), CHUNK(0x4110, 20), WORD(1), ONE,
      ONE, ONE, CHUNK(0x4120, 16), WORD(1), FACE, CHUNK(0x4140, 16), WORD(1), ONE, ONE},
     78,
     0,
     1,
     {{18, 1, 1, 34, 1, 54, 1, 70}}},
    {"the lists in another order, an empty name, and unknown chunks between",
     {FIGURE(84),
      CHUNK(0x1234, 7),
      1,
      CHUNK(0x4000, 77),
      0,
      CHUNK(0x4321, 6),
      CHUNK(0x4100, 64),
      CHUNK(0x4140, 16),
      WORD(1),
      ONE,
      ONE,
      CHUNK(0x4120, 22),
      WORD(1),
      FACE,
      CHUNK(0x7777, 6),
      CHUNK(0x4110, 20),
      WORD(1),
      ONE,
      ONE,
      ONE},
     96,
     0,
     1,
     {{25, 0, 1, 84, 1, 62, 1, 46}}},
    {"lists that are there and have nothing in them",
     {FIGURE(38), CHUNK(0x4000, 38), 'a', 0, CHUNK(0x4100, 30), CHUNK(0x4110, 8), WORD(0),
      CHUNK(0x4120, 8), WORD(0), CHUNK(0x4140, 8), WORD(0)},
     50,
     0,
     1,
     {{18, 1, 0, 34, 0, 42, 0, 50}}},
    {"fewer pairs than vertices",
     {FIGURE(62), CHUNK(0x4000, 62), 'a', 0, CHUNK(0x4100, 54), CHUNK(0x4110, 32), WORD(2), ONE,
      ONE, ONE, ONE, ONE, ONE, CHUNK(0x4140, 16), WORD(1), ONE, ONE},
     74,
     0,
     1,
     {{18, 1, 2, 34, 0, 0, 1, 66}}},
    {"three meshes, and an object without one",
     {FIGURE(85),
      CHUNK(0x4000, 14),
      'a',
      0,
      CHUNK(0x4100, 6),
      CHUNK(0x4000, 8),
      'b',
      0,
      CHUNK(0x3333, 6),
      CHUNK(0x4000, 35),
      'c',
      'd',
      0,
      CHUNK(0x4100, 26),
      CHUNK(0x4110, 20),
      WORD(1),
      ONE,
      ONE,
      ONE,
      CHUNK(0x4000, 22),
      'e',
      0,
      CHUNK(0x4100, 14),
      CHUNK(0x4120, 8),
      WORD(0)},
     97,
     0,
     3,
     {{18, 1, 0, 0, 0, 0, 0, 0}, {46, 2, 1, 63, 0, 0, 0, 0}, {81, 1, 0, 0, 0, 97, 0, 0}}},
    {"no figure", {0, 0, 0, 0, 0, 0}, 6, REFUSAL(2, 0), 0, {{0}}},
    {"a corner that is no vertex",
     {FIGURE(50),
      CHUNK(0x4000, 50),
      'a',
      0,
      CHUNK(0x4100, 42),
      CHUNK(0x4110, 20),
      WORD(1),
      ONE,
      ONE,
      ONE,
      CHUNK(0x4120, 16),
      WORD(1),
      1,
      0,
      0,
      0,
      0,
      0,
      0,
      0},
     62,
     REFUSAL(12, 46),
     0,
     {{0}}},
    {"a pair and no vertex",
     {FIGURE(30), CHUNK(0x4000, 30), 'a', 0, CHUNK(0x4100, 22), CHUNK(0x4140, 16), WORD(1), ONE,
      ONE},
     42,
     REFUSAL(13, 26),
     0,
     {{0}}},
};

static void judge_mesh(const uint8_t *meshes, size_t mesh, const uint32_t *right) {
    for (int number = 0; number < TDS_MESH_NUMBERS; number++) {
        uint32_t is = tds_get_mesh(meshes, mesh, (enum tds_mesh)number);
        if (is != right[number]) {
            expect(0, "number %d of mesh %zu is %lu instead of %lu", number, mesh,
                   (unsigned long)is, (unsigned long)right[number]);
        }
    }
}

static void try_room(size_t number, const uint8_t *file, size_t room, enum where where) {
    uint64_t right = cases[number].refusal != 0 ? cases[number].refusal
                     : room / TDS_MESH_BYTES < cases[number].meshes
                         ? REFUSAL(15, cases[number].meshes)
                         : cases[number].meshes;
    size_t filled = TDS_REFUSED(right) ? 0 : cases[number].meshes;
    uint8_t *meshes = arena_lend(&meshes_arena, room, where);
    trying("tds_meshes of %s into %zu bytes (%d)", cases[number].what, room, (int)where);
    judge_answer(tds_meshes(file, cases[number].length, room == 0 ? NULL : meshes, room), right);
    for (size_t i = 0; i < filled; i++) {
        judge_mesh(meshes, i, cases[number].right[i]);
    }
    expect(arena_alive(&meshes_arena, meshes, filled * TDS_MESH_BYTES),
           "something else was changed");
}

/* Every coordinate of these files is 1: so is every number of a box; without vertices it is 0. */
static void judge_box(const uint8_t *box, size_t mesh, uint32_t vertices) {
    uint32_t right = vertices == 0 ? 0 : 0x3F800000u;
    for (size_t number = 0; number < TDS_BOX_NUMBERS; number++) {
        uint32_t is = tds_get4(box + 4 * number);
        if (is != right) {
            expect(0, "number %zu of box %zu is %lx instead of %lx", number, mesh,
                   (unsigned long)is, (unsigned long)right);
        }
    }
}

static void try_boxes(size_t number, const uint8_t *file, size_t room, enum where where) {
    uint64_t right = cases[number].refusal != 0 ? cases[number].refusal
                     : room / TDS_BOX_BYTES < cases[number].meshes
                         ? REFUSAL(15, cases[number].meshes)
                         : cases[number].meshes;
    size_t filled = TDS_REFUSED(right) ? 0 : cases[number].meshes;
    uint8_t *boxes = arena_lend(&meshes_arena, room, where);
    trying("tds_boxes of %s into %zu bytes (%d)", cases[number].what, room, (int)where);
    judge_answer(tds_boxes(file, cases[number].length, room == 0 ? NULL : boxes, room), right);
    for (size_t i = 0; i < filled; i++) {
        judge_box(boxes + i * TDS_BOX_BYTES, i, cases[number].right[i][TDS_MESH_VERTICES]);
    }
    expect(arena_alive(&meshes_arena, boxes, filled * TDS_BOX_BYTES), "something else was changed");
}

static void try_one(size_t number, enum where where) {
    size_t all = cases[number].meshes * TDS_MESH_BYTES;
    size_t boxes = cases[number].meshes * TDS_BOX_BYTES;
    const size_t rooms[] = {all, all - (all > 0), all + TDS_MESH_BYTES - 1, all / 2, 0, AMPLE};
    const size_t box_rooms[] = {boxes, boxes - (boxes > 0), boxes + TDS_BOX_BYTES - 1, 0, AMPLE};
    const uint8_t *file = arena_hold(&file_arena, cases[number].file, cases[number].length, where);
    EACH(i, rooms) {
        try_room(number, file, rooms[i], where);
    }
    EACH(i, box_rooms) {
        try_boxes(number, file, box_rooms[i], where);
    }
}

/* A figure of so many objects with empty names and empty meshes. */
static uint8_t *empty_meshes(size_t count) {
    static const uint8_t front[] = {FIGURE(0)};
    static const uint8_t object[] = {CHUNK(0x4000, EMPTY_LENGTH), 0, CHUNK(0x4100, 6)};
    uint8_t *file = need_bytes(sizeof front + EMPTY_LENGTH * count);
    memcpy(file, front, sizeof front);
    set_length(file, sizeof front + EMPTY_LENGTH * count);
    set_length(file + 6, sizeof front - 6 + EMPTY_LENGTH * count);
    for (size_t i = 0; i < count; i++) {
        memcpy(file + sizeof front + EMPTY_LENGTH * i, object, sizeof object);
    }
    return file;
}

static void try_most_boxes(const uint8_t *file, size_t length, size_t count) {
    size_t all = TDS_BOX_BYTES * count;
    struct arena arena = arena_make(all + 2);
    uint8_t *boxes = arena_lend(&arena, all - 1, AT_END);
    judge_answer(tds_boxes(file, length, boxes, all - 1), REFUSAL(15, count));
    expect(arena_alive(&arena, boxes, 0), "a refusal changed something");
    boxes = arena_lend(&arena, all, AT_END);
    judge_answer(tds_boxes(file, length, boxes, all), count);
    for (size_t i = 0; i < count; i++) {
        judge_box(boxes + i * TDS_BOX_BYTES, i, 0);
    }
}

static void try_most(size_t count) {
    size_t length = 12 + EMPTY_LENGTH * count, all = TDS_MESH_BYTES * count;
    struct arena arena = arena_make(all + 2);
    uint8_t *file = empty_meshes(count), *meshes = arena_lend(&arena, all - 1, AT_END);
    trying("%zu empty meshes", count);
    judge_answer(tds_meshes(file, length, meshes, all - 1), REFUSAL(15, count));
    expect(arena_alive(&arena, meshes, 0), "a refusal changed something");
    meshes = arena_lend(&arena, all, AT_END);
    judge_answer(tds_meshes(file, length, meshes, all), count);
    for (size_t i = 0; i < count; i++) {
        const uint32_t right[TDS_MESH_NUMBERS] = {(uint32_t)(18 + EMPTY_LENGTH * i)};
        judge_mesh(meshes, i, right);
    }
    try_most_boxes(file, length, count);
    free(file);
}

void try_all_meshes(void) {
    file_arena = arena_make(4096);
    meshes_arena = arena_make(4096);
    EACH(i, cases) {
        for (int where = AT_START; where < WHERES; where++) {
            try_one(i, (enum where)where);
        }
    }
    try_most((TDS_LONGEST_FILE - 12) / EMPTY_LENGTH);
}
