/*
 * Cinema 4D figures: all nine combinations, each refusal with its place and what comes before what,
 * rooms below, at and above the need in both rows, every cut of a file, a file as long as it may
 * be; nothing else is touched.
 */
#include "c4d_cases.h"

#include <stdio.h>
#include <stdlib.h>
#include <string.h>
#include <sys/mman.h>

#include "answers.h"
#include "slices.h"
#include "tds.h"

static struct arena file_arena, objects_arena, materials_arena;

/* ---- files, from words */

enum sub_chunk { END = 0, OBJECT = 1, TEXTURE = 23 };

struct bytes {
    uint8_t at[2048];
    size_t length;
};

static void put(struct bytes *to, uint32_t number, int width) {
    while (width-- > 0) {
        to->at[to->length++] = (uint8_t)(number >> 8 * width);
    }
}

/* Sets the size that stands at `at` to what has been put behind it. */
static void put_size(struct bytes *to, size_t at, int width) {
    size_t end = to->length;
    to->length = at;
    put(to, (uint32_t)(end - at - (size_t)width), width);
    to->length = end;
}

/* A sub-chunk of OBJ5: its identifier alone, or a texture with its material. */
static void put_part(struct bytes *to, const char *word) {
    long number = strtol(word + (word[0] == 't' || word[0] == 's'), NULL, 10);
    if (word[0] == 't' || word[0] == 's') {
        uint32_t size = word[0] == 't' ? 64 : 63;
        put(to, (uint32_t)TEXTURE << 24 | size, 4);
        memset(to->at + to->length, 0xA5, size - 4);
        to->length += size - 4;
        put(to, (uint32_t)number, 4);
    } else {
        put(to, (uint32_t)number << 24, 4);
    }
}

/*
 * The file of some words: P, U, M and O begin the chunks PLTF, UMG4, MAT4 and OBJ5; in MAT4 a
 * number is a sub-chunk without data; in OBJ5 too, t and a number is a texture with that material,
 * s one that is a byte short; b is a byte, which belongs to what is open.
 */
static void make(struct bytes *file, const char *words) {
    char copy[256];
    size_t size_at = 0;
    int inside = 0;
    file->length = 0;
    put(file, 0x464F524D, 4);
    put(file, 0, 4);
    put(file, 0x4D433444, 4);
    strncpy(copy, words, sizeof copy - 1);
    copy[sizeof copy - 1] = '\0';
    for (char *word = strtok(copy, " "); word != NULL; word = strtok(NULL, " ")) {
        static const uint32_t names[] = {0x504C5446, 0x554D4734, 0x4D415434, 0x4F424A35};
        const char *kind = strchr("PUMO", word[0]);
        if (kind != NULL) {
            inside = word[0];
            put(file, names[kind - "PUMO"], 4);
            size_at = file->length;
            put(file, 0, 4);
        } else if (word[0] == 'b') {
            put(file, 0, 1);
        } else if (inside == 'M') {
            put(file, (uint32_t)strtol(word, NULL, 10) << 16, 4);
        } else {
            put_part(file, word);
        }
        if (size_at != 0) {
            put_size(file, size_at, 4);
        }
    }
    put_size(file, 4, 4);
}

/* ---- the cases */

struct c4d_case {
    const char *what;
    const char *words;
    uint64_t answer;
    uint32_t objects[12];
    size_t materials_count;
    uint32_t materials[4];
};

static const struct c4d_case c4d_cases[] = {
    {"no chunks", "", 0, {0}, 0, {0}},
    {"an empty OBJ5", "O", 0, {0}, 0, {0}},
    {"unknown sub-chunks only", "O 2 200 2", 0, {0}, 0, {0}},
    {"points", "O 1 16 0", 1, {20, 1, 0}, 0, {0}},
    {"points and edges", "O 1 16 19 0", 1, {20, 1, 0}, 0, {0}},
    {"triangles", "O 1 17 16 19 0", 1, {20, 1, 0}, 0, {0}},
    {"all faces", "O 1 16 17 18 19 0", 1, {20, 1, 0}, 0, {0}},
    {"a polygon", "O 1 20 0", 1, {20, 2, 0}, 0, {0}},
    {"a polygon with Hermite vectors and no points", "O 1 30 20 0", 1, {20, 2, 0}, 0, {0}},
    {"a polygon with points", "O 1 20 16 30 0", 1, {20, 2, 0}, 0, {0}},
    {"a light", "O 1 21 0", 1, {20, 3, 0}, 0, {0}},
    {"a camera", "O 1 22 0", 1, {20, 4, 0}, 0, {0}},
    {"a ground", "O 1 25 0", 1, {20, 5, 0}, 0, {0}},
    {"a sky", "O 1 26 0", 1, {20, 6, 0}, 0, {0}},
    {"a sphere", "O 1 27 16 0", 1, {20, 7, 0}, 0, {0}},
    {"an environment", "O 1 29 0", 1, {20, 8, 0}, 0, {0}},
    {"none of these", "O 1 24 28 31 32 0", 1, {20, 9, 0}, 0, {0}},
    {"unknown sub-chunks twice", "O 1 2 2 33 33 0", 1, {20, 9, 0}, 0, {0}},
    {"a texture without MAT4", "O 1 t-1 0", 1, {20, 9, 1}, 1, {0xFFFFFFFF}},
    {"materials up to the number of MAT_NEXTs",
     "M 65 1 0 O 1 t1 t0 0 1 t-1 21 0",
     2,
     {40, 9, 2, 184, 3, 1},
     3,
     {1, 0, 0xFFFFFFFF}},
    {"all chunks, and others between them",
     "P U M 0 U O 9 1 16 0 9 1 t0 0 U",
     2,
     {60, 1, 0, 76, 9, 1},
     1,
     {0}},
    {"a skipped chunk of two bytes", "U b b", 0, {0}, 0, {0}},
    {"a byte for a chunk", "b", REFUSAL(5, 12), {0}, 0, {0}},
    {"PLTF behind another", "U P", REFUSAL(26, 20), {0}, 0, {0}},
    {"PLTF twice", "P P", REFUSAL(26, 20), {0}, 0, {0}},
    {"MAT4 behind OBJ5", "O M 0", REFUSAL(26, 20), {0}, 0, {0}},
    {"MAT4 twice", "M 0 M 0", REFUSAL(26, 24), {0}, 0, {0}},
    {"OBJ5 twice", "O O", REFUSAL(26, 20), {0}, 0, {0}},
    {"an empty MAT4", "P M", REFUSAL(26, 20), {0}, 0, {0}},
    {"no MAT_END", "M 65 1", REFUSAL(26, 12), {0}, 0, {0}},
    {"behind MAT_END", "M 0 1", REFUSAL(26, 24), {0}, 0, {0}},
    {"three bytes behind MAT_END", "M 0 b b b", REFUSAL(5, 24), {0}, 0, {0}},
    {"a byte in OBJ5", "O b", REFUSAL(5, 20), {0}, 0, {0}},
    {"a texture too short, between objects", "O s0", REFUSAL(10, 20), {0}, 0, {0}},
    {"a texture too short", "O 1 s0 0", REFUSAL(10, 24), {0}, 0, {0}},
    {"a texture between objects", "O t-1", REFUSAL(26, 20), {0}, 0, {0}},
    {"T_END between objects", "O 0", REFUSAL(26, 20), {0}, 0, {0}},
    {"T_ROOT between objects", "O 32", REFUSAL(26, 20), {0}, 0, {0}},
    {"T_OBJECT in an object", "O 1 1 0", REFUSAL(26, 24), {0}, 0, {0}},
    {"no T_END", "P O 1 0 1 16", REFUSAL(26, 20), {0}, 0, {0}},
    {"a material without MAT4", "O 1 t0 0", REFUSAL(28, 24), {0}, 0, {0}},
    {"a material above", "M 65 0 O 1 t2 0", REFUSAL(28, 40), {0}, 0, {0}},
    {"material -2", "M 65 0 O 1 t-2 0", REFUSAL(28, 40), {0}, 0, {0}},
    {"a material before the combination", "O 1 27 t0 0", REFUSAL(28, 28), {0}, 0, {0}},
    {"a sphere without points", "O 1 27 0", REFUSAL(27, 28), {0}, 0, {0}},
    {"faces without edges", "O 1 16 17 0", REFUSAL(27, 32), {0}, 0, {0}},
    {"Hermite vectors without a polygon", "O 1 16 30 0", REFUSAL(27, 32), {0}, 0, {0}},
    {"edges without points", "O 1 19 0", REFUSAL(27, 28), {0}, 0, {0}},
    {"a light and a camera", "O 1 21 22 0", REFUSAL(27, 32), {0}, 0, {0}},
    {"T_PHONG twice", "O 1 24 24 0", REFUSAL(27, 32), {0}, 0, {0}},
    {"points twice", "O 1 16 16 0", REFUSAL(27, 32), {0}, 0, {0}},
};

/* ---- trying them */

/* The answer where these rooms are lent: objects before materials. */
static uint64_t right_list(const struct c4d_case *this, size_t objects, size_t materials) {
    if (TDS_REFUSED(this->answer)) {
        return this->answer;
    }
    if (objects / TDS_OBJECT_BYTES < this->answer) {
        return REFUSAL(15, this->answer);
    }
    return materials / 4 < this->materials_count ? REFUSAL(15, this->materials_count)
                                                 : this->answer;
}

static void judge_numbers(const uint8_t *at, const uint32_t *right, size_t count) {
    for (size_t i = 0; i < count; i++) {
        expect(tds_get4(at + 4 * i) == right[i], "number %zu is %lu", i,
               (unsigned long)tds_get4(at + 4 * i));
    }
}

static void try_rooms(const struct c4d_case *this, const uint8_t *file, size_t length,
                      size_t objects_room, size_t materials_room, enum where where) {
    uint64_t right = right_list(this, objects_room, materials_room);
    size_t objects_filled = TDS_REFUSED(right) ? 0 : TDS_OBJECT_BYTES * (size_t)right;
    size_t materials_filled = TDS_REFUSED(right) ? 0 : 4 * this->materials_count;
    uint8_t *objects = arena_lend(&objects_arena, objects_room, where);
    uint8_t *materials = arena_lend(&materials_arena, materials_room, where);
    judge_answer(tds_c4d_list(file, length, objects, objects_room, materials, materials_room),
                 right);
    expect(arena_alive(&objects_arena, objects, objects_filled), "something else was changed");
    expect(arena_alive(&materials_arena, materials, materials_filled),
           "something else was changed");
    judge_numbers(objects, this->objects, objects_filled / 4);
    judge_numbers(materials, this->materials, materials_filled / 4);
}

static void try_case(const struct c4d_case *this, enum where where) {
    struct bytes made;
    const uint8_t *file;
    size_t need = TDS_REFUSED(this->answer) ? 24 : TDS_OBJECT_BYTES * (size_t)this->answer;
    size_t numbers = TDS_REFUSED(this->answer) ? 16 : 4 * this->materials_count;
    size_t objects_rooms[] = {0, need > 0 ? need - 1 : 0, need, need + 7};
    size_t materials_rooms[] = {0, numbers > 0 ? numbers - 1 : 0, numbers, numbers + 3};
    make(&made, this->words);
    file = arena_hold(&file_arena, made.at, made.length, where);
    trying("%s", this->what);
    judge_answer(tds_c4d_check(file, made.length), this->answer);
    EACH(i, objects_rooms) {
        EACH(j, materials_rooms) {
            try_rooms(this, file, made.length, objects_rooms[i], materials_rooms[j], where);
        }
    }
}

/* A file cut off anywhere, or with a byte behind it, is no longer what its header says. */
static void try_cuts(void) {
    struct bytes made;
    make(&made, "P M 65 0 O 1 16 t1 0");
    for (size_t length = 0; length <= made.length + 1; length++) {
        const uint8_t *file = arena_hold(&file_arena, made.at, length, AT_END);
        trying("cut off at %zu", length);
        judge_answer(tds_c4d_check(file, length), length == made.length ? 1 : REFUSAL(25, 0));
    }
    trying("nothing");
    judge_answer(tds_c4d_check(NULL, 0), REFUSAL(25, 0));
    judge_answer(tds_c4d_list(NULL, 0, NULL, 0, NULL, 0), REFUSAL(25, 0));
    trying("no room at all");
    judge_answer(tds_c4d_list(made.at, made.length, NULL, 0, NULL, 0), REFUSAL(15, 1));
    made.at[8] = 'm';
    judge_answer(tds_c4d_check(made.at, made.length), REFUSAL(25, 0));
}

/* The samples: each has the answer that is written down for it. */
static void try_samples(void) {
    FILE *list = fopen("samples/c4d/expected.txt", "r");
    char name[100], path[140];
    unsigned number, place, count = 0;
    expect(list != NULL, "samples/c4d/expected.txt cannot be read");
    while (list != NULL && fscanf(list, "%99s %u %u", name, &number, &place) == 3) {
        uint8_t bytes[2048];
        FILE *file;
        size_t length;
        snprintf(path, sizeof path, "samples/c4d/%s", name);
        trying("%s", path);
        file = fopen(path, "rb");
        length = file == NULL ? 0 : fread(bytes, 1, sizeof bytes, file);
        judge_answer(tds_c4d_check(bytes, length), number == 0 ? place : REFUSAL(number, place));
        if (file != NULL) {
            fclose(file);
        }
        count++;
    }
    expect(count == 9, "%u samples", count);
    if (list != NULL) {
        fclose(list);
    }
}

/* One OBJ5 of empty objects, as long as a file may be, and one byte more. */
static void try_longest(void) {
    size_t longest = TDS_LONGEST_FILE, count = (longest - 20) / 8;
    uint8_t *file = calloc(longest + 1, 1);
    uint8_t *rows = malloc(TDS_OBJECT_BYTES * count);
    struct bytes head = {{0}, 0};
    if (file == NULL || rows == NULL) {
        abort();
    }
    put(&head, 0x464F524D, 4);
    put(&head, (uint32_t)longest - 8, 4);
    put(&head, 0x4D433444, 4);
    put(&head, 0x4F424A35, 4);
    put(&head, (uint32_t)longest - 20, 4);
    memcpy(file, head.at, head.length);
    for (size_t i = 0; i < count; i++) {
        file[20 + 8 * i] = OBJECT;
    }
    /* the last four bytes are an unknown sub-chunk */
    file[longest - 4] = 7;
    trying("the longest file");
    judge_answer(tds_c4d_check(file, longest), count);
    judge_answer(tds_c4d_list(file, longest, rows, TDS_OBJECT_BYTES * count, NULL, 0), count);
    expect(tds_get_object(rows, count - 1, TDS_OBJECT_OFFSET) == 20 + 8 * (count - 1) &&
               tds_get_object(rows, count - 1, TDS_OBJECT_COMBINATION) == 9 &&
               tds_get_object(rows, count - 1, TDS_OBJECT_TEXTURES) == 0,
           "the last object is another");
    judge_answer(tds_c4d_check(file, longest + 1), REFUSAL(1, 0));
    free(file);
    free(rows);
}

void try_c4ds(void) {
    file_arena = arena_make(4096);
    objects_arena = arena_make(4096);
    materials_arena = arena_make(4096);
    for (int where = 0; where < WHERES; where++) {
        EACH(i, c4d_cases) {
            try_case(&c4d_cases[i], (enum where)where);
        }
    }
    try_cuts();
    try_samples();
    try_longest();
}
