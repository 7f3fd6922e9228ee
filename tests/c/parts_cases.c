/*
 * Who hangs on whom: trees of parts, fathers that are none, later, the part itself or counted with
 * other blocks, chunks of the keyframer too many, missing or misplaced, a chain of several hundred
 * parts and the most that a file can have. All answers are written down here by hand, from the
 * rules.
 */
#include "parts_cases.h"

#include <stdlib.h>
#include <string.h>

#include "answers.h"
#include "slices.h"
#include "tds.h"

/* A figure of an empty 3D3D and a B000 with these bytes in it; they begin at 18. */
#define FIGURE(length) CHUNK(0x4D4D, 18 + (length)), CHUNK(0x3D3D, 6), CHUNK(0xB000, 6 + (length))

/* A part named p, 20 bytes; its B010 begins 6 bytes behind it. */
#define HEAD(father) CHUNK(0xB010, 14), 'p', 0, 1, 2, 3, 4, (father) % 256, (father) / 256
#define PART(father) CHUNK(0xB002, 20), HEAD(father)
#define NONE 65535

/* AMPLE: room for more than any case has, so that a refusal has something to spoil. */
enum { MOST_PARTS = 5, PART_LENGTH = 19, AMPLE = (MOST_PARTS + 1) * TDS_PART_BYTES };

static struct arena file_arena, parts_arena;

static const struct {
    const char *what;
    uint8_t file[160];
    size_t length;
    uint64_t checked; /* what tds_check answers; where that is no refusal the rest counts */
    size_t parts;
    uint32_t right[MOST_PARTS][2]; /* father and depth */
} cases[] = {
    {"no keyframer", {CHUNK(0x4D4D, 12), CHUNK(0x3D3D, 6)}, 12, 2, 0, {{0}}},
    {"an empty keyframer", {FIGURE(0)}, 18, 3, 0, {{0}}},
    {"one part", {FIGURE(20), PART(NONE)}, 38, 5, 1, {{NONE, 0}}},
    {"a tree",
     {FIGURE(100), PART(NONE), PART(0), PART(1), PART(0), PART(NONE)},
     118,
     13,
     5,
     {{NONE, 0}, {0, 1}, {1, 2}, {0, 1}, {NONE, 0}}},
    {"frames, other blocks, and other chunks around a head",
     {FIGURE(80), CHUNK(0xB001, 6), PART(NONE), CHUNK(0xB008, 14), 1, 2, 3, 4, 5, 6, 7, 8,
      CHUNK(0xB003, 8), 0xB0, 0x10, CHUNK(0xB002, 32), CHUNK(0xB009, 6), HEAD(0), CHUNK(0xB020, 6)},
     98,
     8,
     2,
     {{NONE, 0}, {0, 1}}},
    {"an empty name",
     {FIGURE(19), CHUNK(0xB002, 19), CHUNK(0xB010, 13), 0, 0, 0, 0, 0, 255, 255},
     37,
     5,
     1,
     {{NONE, 0}}},
    {"a part on itself", {FIGURE(20), PART(0)}, 38, REFUSAL(23, 24), 0, {{0}}},
    {"a later part", {FIGURE(40), PART(1), PART(NONE)}, 58, REFUSAL(23, 24), 0, {{0}}},
    {"the second part on itself", {FIGURE(40), PART(NONE), PART(1)}, 58, REFUSAL(23, 44), 0, {{0}}},
    {"a father 65534", {FIGURE(20), PART(65534)}, 38, REFUSAL(23, 24), 0, {{0}}},
    {"a number that counts another block",
     {FIGURE(46), PART(NONE), CHUNK(0xB001, 6), PART(1)},
     64,
     REFUSAL(23, 50),
     0,
     {{0}}},
    {"a number that counts the frames",
     {FIGURE(54), CHUNK(0xB008, 14), 0, 0, 0, 0, 0, 0, 0, 0, PART(NONE), PART(1)},
     72,
     REFUSAL(23, 58),
     0,
     {{0}}},
    {"a part without its head",
     {FIGURE(26), PART(NONE), CHUNK(0xB002, 6)},
     44,
     REFUSAL(14, 38),
     0,
     {{0}}},
    {"a part with two heads",
     {FIGURE(34), CHUNK(0xB002, 34), HEAD(NONE), HEAD(NONE)},
     52,
     REFUSAL(8, 38),
     0,
     {{0}}},
    {"frames twice",
     {FIGURE(20), CHUNK(0xB008, 14), 0, 0, 0, 0, 0, 0, 0, 0, CHUNK(0xB008, 6)},
     38,
     REFUSAL(8, 32),
     0,
     {{0}}},
    {"frames of seven bytes",
     {FIGURE(13), CHUNK(0xB008, 13), 0, 0, 0, 0, 0, 0, 0},
     31,
     REFUSAL(10, 18),
     0,
     {{0}}},
    {"a second keyframer",
     {CHUNK(0x4D4D, 24), CHUNK(0x3D3D, 6), CHUNK(0xB000, 6), CHUNK(0xB000, 6)},
     24,
     REFUSAL(8, 18),
     0,
     {{0}}},
    {"a part in 3D3D",
     {CHUNK(0x4D4D, 32), CHUNK(0x3D3D, 26), PART(NONE)},
     32,
     REFUSAL(7, 12),
     0,
     {{0}}},
    {"a head in the keyframer", {FIGURE(14), HEAD(NONE)}, 32, REFUSAL(7, 18), 0, {{0}}},
    {"a head without a zero",
     {FIGURE(12), CHUNK(0xB002, 12), CHUNK(0xB010, 6)},
     30,
     REFUSAL(9, 24),
     0,
     {{0}}},
    {"a head with a byte too many, and a bad father",
     {FIGURE(21), CHUNK(0xB002, 21), CHUNK(0xB010, 15), 'p', 0, 0, 0, 0, 0, 0, 0, 0},
     39,
     REFUSAL(10, 24),
     0,
     {{0}}},
    {"a head with a byte too few",
     {FIGURE(19), CHUNK(0xB002, 19), CHUNK(0xB010, 13), 'p', 0, 0, 0, 0, 0, 255},
     37,
     REFUSAL(10, 24),
     0,
     {{0}}},
    {"a name that no label takes",
     {FIGURE(20), CHUNK(0xB002, 20), CHUNK(0xB010, 14), 31, 0, 0, 0, 0, 0, 0, 0},
     38,
     REFUSAL(24, 24),
     0,
     {{0}}},
};

static void try_room(size_t number, const uint8_t *file, size_t room, enum where where) {
    uint64_t right = TDS_REFUSED(cases[number].checked) ? cases[number].checked
                     : room / TDS_PART_BYTES < cases[number].parts
                         ? REFUSAL(15, cases[number].parts)
                         : cases[number].parts;
    size_t filled = TDS_REFUSED(right) ? 0 : cases[number].parts;
    uint8_t *parts = arena_lend(&parts_arena, room, where);
    trying("tds_parts of %s into %zu bytes (%d)", cases[number].what, room, (int)where);
    judge_answer(tds_parts(file, cases[number].length, room == 0 ? NULL : parts, room), right);
    for (size_t i = 0; i < filled; i++) {
        expect(tds_get_part(parts, i, TDS_PART_FATHER) == cases[number].right[i][0] &&
                   tds_get_part(parts, i, TDS_PART_DEPTH) == cases[number].right[i][1],
               "part %zu differs", i);
    }
    expect(arena_alive(&parts_arena, parts, filled * TDS_PART_BYTES), "something else was changed");
}

static void try_one(size_t number, enum where where) {
    size_t all = cases[number].parts * TDS_PART_BYTES;
    const size_t rooms[] = {all, all - (all > 0), all + 7, 0, AMPLE};
    const uint8_t *file = arena_hold(&file_arena, cases[number].file, cases[number].length, where);
    trying("tds_check of %s", cases[number].what);
    judge_answer(tds_check(file, cases[number].length), cases[number].checked);
    EACH(i, rooms) {
        try_room(number, file, rooms[i], where);
    }
}

/* A chain of so many parts with empty names: each hangs on the one before it. */
static uint8_t *chain(size_t count) {
    static const uint8_t front[] = {FIGURE(0)};
    static const uint8_t part[] = {CHUNK(0xB002, PART_LENGTH), CHUNK(0xB010, 13), 0, 0, 0, 0, 0};
    uint8_t *file = need_bytes(sizeof front + PART_LENGTH * count);
    memcpy(file, front, sizeof front);
    set_length(file, sizeof front + PART_LENGTH * count);
    set_length(file + 12, 6 + PART_LENGTH * count);
    for (size_t i = 0; i < count; i++) {
        uint8_t *at = file + sizeof front + PART_LENGTH * i;
        size_t father = i == 0 ? NONE : i - 1;
        memcpy(at, part, sizeof part);
        at[PART_LENGTH - 2] = (uint8_t)father;
        at[PART_LENGTH - 1] = (uint8_t)(father / 256);
    }
    return file;
}

static void try_chain(size_t count) {
    size_t length = 18 + PART_LENGTH * count, all = TDS_PART_BYTES * count;
    struct arena arena = arena_make(all + 2);
    uint8_t *file = chain(count), *parts = arena_lend(&arena, all - 1, AT_END);
    trying("a chain of %zu parts", count);
    judge_answer(tds_check(file, length), 3 + 2 * count);
    judge_answer(tds_parts(file, length, parts, all - 1), REFUSAL(15, count));
    expect(arena_alive(&arena, parts, 0), "a refusal changed something");
    parts = arena_lend(&arena, all, AT_END);
    judge_answer(tds_parts(file, length, parts, all), count);
    for (size_t i = 0; i < count; i++) {
        if (tds_get_part(parts, i, TDS_PART_FATHER) != (i == 0 ? NONE : i - 1) ||
            tds_get_part(parts, i, TDS_PART_DEPTH) != i) {
            expect(0, "part %zu differs", i);
        }
    }
    file[length - 2] = (uint8_t)(count - 1); /* the last on itself */
    file[length - 1] = (uint8_t)((count - 1) / 256);
    parts = arena_lend(&arena, all, AT_END);
    judge_answer(tds_parts(file, length, parts, all), REFUSAL(23, length - 13));
    expect(arena_alive(&arena, parts, 0), "a refusal changed something");
    free(file);
}

void try_parts(void) {
    file_arena = arena_make(4096);
    parts_arena = arena_make(4096);
    EACH(i, cases) {
        for (int where = AT_START; where < WHERES; where++) {
            try_one(i, (enum where)where);
        }
    }
    try_chain(700);
    try_chain((TDS_LONGEST_FILE - 18) / PART_LENGTH);
}
