/*
 * Mapping pairs: files of each version, told before and behind 3D3D, behind a 0002 of another
 * length and on either side of a bad header, with fewer, as many and more pairs than vertices. All
 * answers are written down here by hand, from the rules.
 */
#include "mapping_cases.h"

#include <string.h>

#include "answers.h"
#include "slices.h"
#include "tds.h"

enum { NONE = -1 };

static struct arena file_arena, mapping_arena;

/* A 0002 of length 10, and one of length 11. */
#define TOLD(version) "\2\0\x0A\0\0\0" version
#define ODD "\2\0\x0B\0\0\0\0\0\0\0\0"
#define BYTES(text) text, sizeof(text) - 1

/*
 * One mesh, named A, whose 4140 stands first: chunks before 3D3D and behind it; vertices and pairs,
 * or NONE where the list is not there.
 */
static const struct mapped {
    const char *what;
    const char *before;
    size_t before_length;
    const char *behind;
    size_t behind_length;
    int vertices, pairs;
    uint64_t refusal; /* 0 if the file is to be accepted */
} cases[] = {
    {"no version, no pair", BYTES(""), BYTES(""), 2, 0, 0},
    {"no version, too few pairs", BYTES(""), BYTES(""), 2, 1, 0},
    {"no version, all pairs", BYTES(""), BYTES(""), 2, 2, 0},
    {"no version, too many pairs", BYTES(""), BYTES(""), 2, 3, REFUSAL(13, 26)},
    {"no version, no list of pairs", BYTES(""), BYTES(""), 2, NONE, 0},
    {"no version, neither list", BYTES(""), BYTES(""), NONE, NONE, 0},
    {"no version, no vertices, no pair", BYTES(""), BYTES(""), NONE, 0, 0},
    {"no version, no vertices, a pair", BYTES(""), BYTES(""), NONE, 1, REFUSAL(13, 26)},
    {"version 0, too few", BYTES(TOLD("\0\0\0\0")), BYTES(""), 2, 1, 0},
    {"version 2, too few", BYTES(TOLD("\2\0\0\0")), BYTES(""), 2, 1, 0},
    {"version 2, too many", BYTES(TOLD("\2\0\0\0")), BYTES(""), 2, 3, REFUSAL(13, 36)},
    {"version 3, no pair", BYTES(TOLD("\3\0\0\0")), BYTES(""), 2, 0, REFUSAL(13, 36)},
    {"version 3, too few", BYTES(TOLD("\3\0\0\0")), BYTES(""), 2, 1, REFUSAL(13, 36)},
    {"version 3, all", BYTES(TOLD("\3\0\0\0")), BYTES(""), 2, 2, 0},
    {"version 3, too many", BYTES(TOLD("\3\0\0\0")), BYTES(""), 2, 3, REFUSAL(13, 36)},
    {"version 3, no list of pairs", BYTES(TOLD("\3\0\0\0")), BYTES(""), 2, NONE, 0},
    {"version 4, too few", BYTES(TOLD("\4\0\0\0")), BYTES(""), 2, 1, REFUSAL(13, 36)},
    {"version 256, too few", BYTES(TOLD("\0\1\0\0")), BYTES(""), 2, 1, REFUSAL(13, 36)},
    {"the highest version, too few", BYTES(TOLD("\xFF\xFF\xFF\xFF")), BYTES(""), 2, 1,
     REFUSAL(13, 36)},
    {"version 3 behind the mesh", BYTES(""), BYTES(TOLD("\3\0\0\0")), 2, 1, REFUSAL(13, 26)},
    {"version 2 behind the mesh", BYTES(""), BYTES(TOLD("\2\0\0\0")), 2, 1, 0},
    {"version 3 behind another length", BYTES(""), BYTES(ODD TOLD("\3\0\0\0")), 2, 1,
     REFUSAL(13, 26)},
    {"version 2 and then 3", BYTES(TOLD("\2\0\0\0")), BYTES(TOLD("\3\0\0\0")), 2, 1,
     REFUSAL(8, 84)},
    {"version 3 and then 2", BYTES(TOLD("\3\0\0\0")), BYTES(TOLD("\2\0\0\0")), 2, 1,
     REFUSAL(13, 36)},
    {"version 3 behind a length of 5", BYTES(""), BYTES("\x23\x81\5\0\0\0" TOLD("\3\0\0\0")), 2, 1,
     REFUSAL(4, 74)},
    {"version 3 before a length of 5", BYTES(""), BYTES(TOLD("\3\0\0\0") "\x23\x81\5\0\0\0"), 2, 1,
     REFUSAL(13, 26)},
    {"version 3 before an overrun", BYTES(""), BYTES(TOLD("\3\0\0\0") "\x23\x81\7\0\0\0"), 2, 1,
     REFUSAL(13, 26)},
    {"version 3 before a stray byte", BYTES(""), BYTES(TOLD("\3\0\0\0") "x"), 2, 1,
     REFUSAL(13, 26)},
    {"version 3 in an unknown chunk", BYTES("\x23\x81\x10\0\0\0" TOLD("\3\0\0\0")), BYTES(""), 2, 1,
     0},
};

/* A file, and where its next byte goes. */
struct made {
    uint8_t bytes[256];
    size_t length;
};

static void put(struct made *made, const void *bytes, size_t length) {
    memcpy(made->bytes + made->length, bytes, length);
    made->length += length;
}

static void put_number(struct made *made, size_t width, uint32_t number) {
    for (size_t i = 0; i < width; i++) {
        made->bytes[made->length++] = (uint8_t)(number >> 8 * i);
    }
}

static void put_header(struct made *made, uint32_t id, size_t length) {
    put_number(made, 2, id);
    put_number(made, 4, (uint32_t)length);
}

/* The bits of float i of the pairs that a file has. */
static uint32_t number_of(size_t i) {
    return 0x3F800000u + (uint32_t)i;
}

/* A list of so many elements; all floats of a vertex are 1, those of the pairs are told apart. */
static void put_list(struct made *made, uint32_t id, int count, size_t floats) {
    if (count == NONE) {
        return;
    }
    put_header(made, id, 8 + 4 * floats * (size_t)count);
    put_number(made, 2, (uint32_t)count);
    for (size_t i = 0; i < floats * (size_t)count; i++) {
        put_number(made, 4, number_of(floats == 2 ? i : 0));
    }
}

static struct made make(const struct mapped *this) {
    struct made lists = {.length = 0}, file = {.length = 0};
    put_list(&lists, 0x4140, this->pairs, 2);
    put_list(&lists, 0x4110, this->vertices, 3);
    put_header(&file, 0x4D4D, 26 + this->before_length + lists.length + this->behind_length);
    put(&file, this->before, this->before_length);
    put_header(&file, 0x3D3D, 20 + lists.length);
    put_header(&file, 0x4000, 14 + lists.length);
    put(&file, "A", 2);
    put_header(&file, 0x4100, 6 + lists.length);
    put(&file, lists.bytes, lists.length);
    put(&file, this->behind, this->behind_length);
    return file;
}

static void try_mapping(const struct mapped *this, const uint8_t *file, size_t length, size_t room,
                        enum where where) {
    size_t pairs = this->pairs == NONE || this->vertices == NONE ? 0 : (size_t)this->vertices;
    size_t given = this->pairs == NONE ? 0 : 2 * (size_t)this->pairs;
    uint8_t *mapping = arena_lend(&mapping_arena, room, where);
    uint64_t right = this->refusal != 0     ? this->refusal
                     : room / 4 < 2 * pairs ? REFUSAL(15, 2 * pairs)
                                            : 2 * pairs;
    size_t filled = TDS_REFUSED(right) ? 0 : 2 * pairs;
    trying("tds_mapping of %s into %zu bytes (%d)", this->what, room, where);
    judge_answer(tds_mapping(file, length, 0, mapping, room), right);
    for (size_t i = 0; i < filled; i++) {
        uint32_t number = tds_get4(mapping + 4 * i);
        expect(number == (i < given ? number_of(i) : 0), "number %zu is %lx", i,
               (unsigned long)number);
    }
    expect(arena_alive(&mapping_arena, mapping, 4 * filled), "something else was changed");
}

/* The rooms: none, a byte less than is needed, just that, and a few bytes more. */
static void try_case(const struct mapped *this, enum where where) {
    static const size_t rooms[] = {0, 15, 16, 19, 100};
    struct made made = make(this);
    const uint8_t *file = arena_hold(&file_arena, made.bytes, made.length, where);
    uint8_t *vertices;
    size_t vertex_count = this->vertices == NONE ? 0 : (size_t)this->vertices;
    EACH(i, rooms) {
        try_mapping(this, file, made.length, rooms[i], where);
    }
    trying("the other calls of %s (%d)", this->what, where);
    judge_answer(tds_mapping(file, made.length, 1, NULL, 0),
                 this->refusal != 0 ? this->refusal : REFUSAL(16, 1));
    vertices = arena_lend(&mapping_arena, 24, where);
    judge_answer(tds_tables(file, made.length, 0, vertices, 24, NULL, 0),
                 this->refusal != 0 ? this->refusal : vertex_count);
    expect(arena_alive(&mapping_arena, vertices, this->refusal != 0 ? 0 : 12 * vertex_count),
           "something else was changed");
    if (this->refusal != 0) {
        judge_answer(tds_check(file, made.length), this->refusal);
    }
}

void try_mappings(void) {
    file_arena = arena_make(4096);
    mapping_arena = arena_make(4096);
    EACH(i, cases) {
        for (int where = AT_START; where < WHERES; where++) {
            try_case(&cases[i], (enum where)where);
        }
    }
}
