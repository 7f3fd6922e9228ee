/*
 * The rescue of damaged figures: what is cut and why, what is beyond it, rooms that are too small,
 * and the most cuts that a file can have. All answers are written down here by hand, from the
 * rules.
 */
#include "rescue_cases.h"

#include <stdlib.h>
#include <string.h>

#include "answers.h"
#include "slices.h"
#include "tds.h"

/* A figure whose 3D3D has so many bytes in it, which begin at 12, and so many behind it. */
#define FIGURE(inside, behind) CHUNK(0x4D4D, 12 + (inside) + (behind)), CHUNK(0x3D3D, 6 + (inside))

/* An object g with a mesh of one vertex, 34 bytes; the last number tells whether it is finite. */
#define TEN_ZEROS 0, 0, 0, 0, 0, 0, 0, 0, 0, 0
#define VERTEX(high, low) CHUNK(0x4110, 20), 1, 0, TEN_ZEROS, low, high
#define MESH(length) CHUNK(0x4000, 14 + (length)), 'g', 0, CHUNK(0x4100, 6 + (length))
#define GOOD MESH(20), VERTEX(0, 0)
#define INFINITE MESH(20), VERTEX(0x7F, 0x80)

/* One with a face whose third corner is given, 50 bytes; one with no pair for its vertex, 42. */
#define FACE(corner) MESH(36), VERTEX(0, 0), CHUNK(0x4120, 16), 1, 0, 0, 0, 0, 0, corner, 0, 0, 0
#define UNMAPPED MESH(28), CHUNK(0x4140, 8), 0, 0, VERTEX(0, 0)

/* An unlisted chunk, 8 bytes; the version of the file, 10 bytes. */
#define NOTE CHUNK(0x8123, 8), 1, 2
#define VERSION(number) CHUNK(0x0002, 10), number, 0, 0, 0

/* Room for more than any case has, so that a refusal has something to spoil. */
enum { MOST_CUTS = 3, AMPLE_CUTS = (MOST_CUTS + 1) * TDS_CUT_BYTES, AMPLE = 200 };

static struct arena file_arena, cuts_arena, out_arena;

static const struct {
    const char *what;
    uint8_t file[160];
    size_t length;
    uint64_t refusal; /* 0 if the file is to be mended; then the rest counts */
    size_t cuts;
    uint32_t cut[MOST_CUTS][TDS_CUT_NUMBERS];
    uint8_t mended[160];
    size_t size;
} cases[] = {
    {"an accepted figure",
     {FIGURE(42, 0), GOOD, NOTE},
     54,
     0,
     0,
     {{0}},
     {FIGURE(42, 0), GOOD, NOTE},
     54},
    {"three faults, around what is good and what is not known",
     {FIGURE(89, 0), INFINITE, GOOD, NOTE, CHUNK(0x1470, 7), 0, CHUNK(0x4100, 6)},
     101,
     0,
     3,
     {{12, 11, 34}, {88, 10, 7}, {95, 7, 6}},
     {FIGURE(42, 0), GOOD, NOTE},
     54},
    {"a corner that does not exist, found at the end of its mesh",
     {FIGURE(100, 0), FACE(1), FACE(0)},
     112,
     0,
     1,
     {{12, 12, 50}},
     {FIGURE(50, 0), FACE(0)},
     62},
    {"stray bytes",
     {FIGURE(37, 0), GOOD, 1, 2, 3},
     49,
     0,
     1,
     {{46, 6, 3}},
     {FIGURE(34, 0), GOOD},
     46},
    {"a length below 6: a good object behind it goes too",
     {FIGURE(74, 0), GOOD, CHUNK(0x8123, 5), GOOD},
     86,
     0,
     1,
     {{46, 4, 40}},
     {FIGURE(34, 0), GOOD},
     46},
    {"a length beyond the end of 3D3D, with something behind it",
     {FIGURE(40, 8), GOOD, CHUNK(0x8123, 7), NOTE},
     60,
     0,
     1,
     {{46, 5, 6}},
     {FIGURE(34, 8), GOOD, NOTE},
     54},
    {"a length below 6 deeper: only that object goes",
     {FIGURE(47, 0), CHUNK(0x4000, 13), 0, CHUNK(0x8123, 5), GOOD},
     59,
     0,
     1,
     {{12, 4, 13}},
     {FIGURE(34, 0), GOOD},
     46},
    {"too few pairs in a file whose version stands behind",
     {FIGURE(76, 10), UNMAPPED, GOOD, VERSION(3)},
     98,
     0,
     1,
     {{12, 13, 42}},
     {FIGURE(34, 10), GOOD, VERSION(3)},
     56},
    {"few pairs in an older file",
     {FIGURE(76, 10), UNMAPPED, GOOD, VERSION(2)},
     98,
     0,
     0,
     {{0}},
     {FIGURE(76, 10), UNMAPPED, GOOD, VERSION(2)},
     98},
    {"nothing is left", {FIGURE(34, 0), INFINITE}, 46, 0, 1, {{12, 11, 34}}, {FIGURE(0, 0)}, 12},
    {"a fault before 3D3D",
     {CHUNK(0x4D4D, 52), CHUNK(0x0002, 6), CHUNK(0x3D3D, 40), INFINITE},
     52,
     REFUSAL(10, 6),
     0,
     {{0}},
     {0},
     0},
    {"a fault behind 3D3D, and one in it",
     {FIGURE(34, 6), INFINITE, CHUNK(0x0002, 6)},
     52,
     REFUSAL(10, 46),
     0,
     {{0}},
     {0},
     0},
    {"a second 3D3D",
     {FIGURE(34, 6), INFINITE, CHUNK(0x3D3D, 6)},
     52,
     REFUSAL(8, 46),
     0,
     {{0}},
     {0},
     0},
    {"stray bytes behind 3D3D",
     {FIGURE(34, 2), INFINITE, 1, 2},
     48,
     REFUSAL(6, 46),
     0,
     {{0}},
     {0},
     0},
    {"a 3D3D that is too long",
     {CHUNK(0x4D4D, 46), CHUNK(0x3D3D, 41), INFINITE},
     46,
     REFUSAL(5, 6),
     0,
     {{0}},
     {0},
     0},
    {"no 3D3D", {CHUNK(0x4D4D, 16), VERSION(3)}, 16, REFUSAL(14, 0), 0, {{0}}, {0}, 0},
    {"bytes behind the figure", {FIGURE(0, 0), 1}, 13, REFUSAL(3, 12), 0, {{0}}, {0}, 0},
    {"nothing", {0}, 0, REFUSAL(2, 0), 0, {{0}}, {0}, 0},
};

static uint64_t right_answer(size_t number, size_t cuts_room, size_t out_room) {
    if (cases[number].refusal != 0) {
        return cases[number].refusal;
    }
    if (cuts_room / TDS_CUT_BYTES < cases[number].cuts) {
        return REFUSAL(15, cases[number].cuts);
    }
    return out_room < cases[number].size ? REFUSAL(15, cases[number].size) : cases[number].cuts;
}

static void try_rooms(size_t number, const uint8_t *file, size_t cuts_room, size_t out_room,
                      enum where where) {
    uint64_t right = right_answer(number, cuts_room, out_room);
    size_t cuts_filled = TDS_REFUSED(right) ? 0 : cases[number].cuts;
    size_t out_filled = TDS_REFUSED(right) ? 0 : cases[number].size;
    uint8_t *cuts = arena_lend(&cuts_arena, cuts_room, where);
    uint8_t *out = arena_lend(&out_arena, out_room, where);
    trying("tds_rescue of %s into %zu and %zu bytes (%d)", cases[number].what, cuts_room, out_room,
           (int)where);
    judge_answer(tds_rescue(file, cases[number].length, cuts_room == 0 ? NULL : cuts, cuts_room,
                            out_room == 0 ? NULL : out, out_room),
                 right);
    for (size_t i = 0; i < cuts_filled; i++) {
        for (int n = 0; n < TDS_CUT_NUMBERS; n++) {
            expect(tds_get_cut(cuts, i, (enum tds_cut)n) == cases[number].cut[i][n],
                   "cut %zu differs in its number %d", i, n);
        }
    }
    expect(memcmp(out, cases[number].mended, out_filled) == 0, "the mended figure differs");
    expect(arena_alive(&cuts_arena, cuts, cuts_filled * TDS_CUT_BYTES) &&
               arena_alive(&out_arena, out, out_filled),
           "something else was changed");
}

static void try_one(size_t number, enum where where) {
    size_t all = cases[number].cuts * TDS_CUT_BYTES, size = cases[number].size;
    const size_t rooms[] = {all, all - (all > 0), all + TDS_CUT_BYTES - 1, 0, AMPLE_CUTS};
    const size_t out_rooms[] = {size, size - (size > 0), size + 5, 0, AMPLE};
    const uint8_t *file = arena_hold(&file_arena, cases[number].file, cases[number].length, where);
    EACH(i, rooms) {
        EACH(j, out_rooms) {
            try_rooms(number, file, rooms[i], out_rooms[j], where);
        }
    }
    if (cases[number].refusal == 0) {
        trying("tds_check of %s, mended", cases[number].what);
        expect(!TDS_REFUSED(tds_check(cases[number].mended, size)), "it is not accepted");
    }
}

/* Whether a cut is this one, without counting each of very many. */
static void judge_cut(const uint8_t *cuts, size_t cut, uint32_t offset, int number,
                      uint32_t removed) {
    if (tds_get_cut(cuts, cut, TDS_CUT_OFFSET) != offset ||
        tds_get_cut(cuts, cut, TDS_CUT_NUMBER) != (uint32_t)number ||
        tds_get_cut(cuts, cut, TDS_CUT_REMOVED) != removed) {
        expect(0, "cut %zu differs", cut);
    }
}

enum { CHILD = 6, MOST = (TDS_LONGEST_FILE - 12) / CHILD, ALL = (MOST + 1) * TDS_CUT_BYTES };

/* A figure of the greatest length, all of whose children are misplaced, and four stray bytes. */
static uint8_t *misplaced(void) {
    static const uint8_t front[] = {FIGURE(0, 0)}, child[] = {CHUNK(0x4100, CHILD)};
    uint8_t *file = need_bytes(TDS_LONGEST_FILE);
    memset(file, 0, TDS_LONGEST_FILE);
    memcpy(file, front, sizeof front);
    set_length(file, TDS_LONGEST_FILE);
    set_length(file + 6, TDS_LONGEST_FILE - 6);
    for (size_t i = 0; i < MOST; i++) {
        memcpy(file + sizeof front + CHILD * i, child, sizeof child);
    }
    return file;
}

static void try_most(void) {
    static const uint8_t left[] = {FIGURE(0, 0)};
    struct arena arena = arena_make(ALL + 2);
    uint8_t *file = misplaced(), *cuts = arena_lend(&arena, ALL - 1, AT_END), out[sizeof left];
    trying("the most cuts");
    judge_answer(tds_rescue(file, TDS_LONGEST_FILE, cuts, ALL - 1, out, sizeof out),
                 REFUSAL(15, MOST + 1));
    expect(arena_alive(&arena, cuts, 0), "a refusal changed something");
    cuts = arena_lend(&arena, ALL, AT_END);
    judge_answer(tds_rescue(file, TDS_LONGEST_FILE, cuts, ALL, out, sizeof out), MOST + 1);
    expect(memcmp(out, left, sizeof left) == 0, "something is left");
    for (uint32_t i = 0; i < MOST; i++) {
        judge_cut(cuts, i, 12 + CHILD * i, TDS_MISPLACED, CHILD);
    }
    judge_cut(cuts, MOST, TDS_LONGEST_FILE - 4, TDS_STRAY, 4);
    free(file);
}

void try_rescue(void) {
    file_arena = arena_make(4096);
    cuts_arena = arena_make(4096);
    out_arena = arena_make(4096);
    EACH(i, cases) {
        for (int where = AT_START; where < WHERES; where++) {
            try_one(i, (enum where)where);
        }
    }
    try_most();
}
