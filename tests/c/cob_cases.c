/*
 * Caligari figures: every sample with its refusal in all calls, the list and the tables of the good
 * ones number for number, rooms below, at and above the need, every bit of a small file turned, and
 * the longest chain of parents; nothing else is touched.
 */
#include "cob_cases.h"

#include <stdio.h>
#include <stdlib.h>
#include <string.h>
#include <time.h>

#include "answers.h"
#include "slices.h"
#include "tds.h"

/* No row that is lent is longer, and every byte of an arena is looked at after each call. */
enum { ROWS = 8192 };

static struct arena file_arena, row_arena, second_arena;

static void judge_call(const char *call, uint64_t answer, uint64_t right) {
    expect(answer == right, "%s answered %d, %lu instead of %d, %lu", call, TDS_REFUSAL(answer),
           (unsigned long)TDS_PLACE(answer), TDS_REFUSAL(right), (unsigned long)TDS_PLACE(right));
}

static void untouched(const char *call, const struct arena *arena, const uint8_t *row) {
    expect(arena_alive(arena, row, 0), "%s refused and changed a lent slice", call);
}

/* All calls refuse alike, and change nothing. */
static void try_refused(const uint8_t *file, size_t length, uint64_t right) {
    judge_call("tds_cob_check", tds_cob_check(file, length), right);
    uint8_t *row = arena_lend(&row_arena, 4096, IN_MIDDLE);
    uint8_t *second = arena_lend(&second_arena, 4096, IN_MIDDLE);
    judge_call("tds_cob_list", tds_cob_list(file, length, row, 4096), right);
    judge_call("tds_cob_sizes", tds_cob_sizes(file, length, 0, row, 4096), right);
    judge_call("tds_cob_tables", tds_cob_tables(file, length, 0, row, 4096, second, 4096), right);
    judge_call("tds_cob_meshes", tds_cob_meshes(file, length, row, 4096), right);
    untouched("a call", &row_arena, row);
    untouched("tds_cob_tables", &second_arena, second);
}

/* ---- the samples */

static size_t read_sample(const char *name, uint8_t *bytes, size_t room) {
    char path[300];
    snprintf(path, sizeof path, "samples/caligari/%s", name);
    FILE *stream = fopen(path, "rb");
    size_t length = stream == NULL ? 0 : fread(bytes, 1, room, stream);
    expect(stream != NULL && length > 0 && length < room, "%s cannot be read", path);
    if (stream != NULL) {
        fclose(stream);
    }
    return length;
}

static void try_samples(void) {
    static uint8_t bytes[65536];
    FILE *expected = fopen("samples/caligari/expected.txt", "r");
    char name[200];
    int number, lines = 0;
    unsigned long place;
    expect(expected != NULL, "samples/caligari/expected.txt cannot be read");
    while (expected != NULL && fscanf(expected, "%199s %d %lu", name, &number, &place) == 3) {
        trying("%s", name);
        size_t length = read_sample(name, bytes, sizeof bytes);
        const uint8_t *file = arena_hold(&file_arena, bytes, length, AT_END);
        if (number == 0) {
            expect(!TDS_REFUSED(tds_cob_check(file, length)), "%s is refused", name);
        } else {
            try_refused(file, length, REFUSAL(number, place));
        }
        lines++;
    }
    expect(lines == 13, "%d samples were tried", lines);
    if (expected != NULL) {
        fclose(expected);
    }
}

/* ---- the good ones, number for number */

static const uint32_t square_records[5][6] = {
    {TDS_COB_GROUP, 32, 130, 10, 0, 10},  {TDS_COB_MESH, 162, 288, 11, 10, 10},
    {TDS_COB_MESH, 450, 288, 12, 10, 10}, {TDS_COB_MATERIAL, 738, 86, 13, 12, 10},
    {TDS_COB_END, 824, 20, 0, 0, 0},
};

static void try_list(const uint8_t *file, size_t length, size_t room) {
    uint8_t *row = arena_lend(&row_arena, room, AT_END);
    uint64_t answer = tds_cob_list(file, length, row, room);
    if (room / TDS_COB_RECORD_BYTES < 5) {
        judge_call("tds_cob_list", answer, REFUSAL(15, 5));
        untouched("tds_cob_list", &row_arena, row);
        return;
    }
    judge_call("tds_cob_list", answer, 5);
    for (size_t record = 0; record < 5; record++) {
        for (int number = 0; number < 6; number++) {
            uint32_t found = tds_get_cob_record(row, record, (enum tds_cob_record)number);
            uint32_t right = square_records[record][number];
            expect(found == right, "record %zu has %lu for number %d and not %lu", record,
                   (unsigned long)found, number, (unsigned long)right);
        }
    }
    expect(arena_alive(&row_arena, row, 5 * TDS_COB_RECORD_BYTES), "the list writes elsewhere too");
}

/* The tables of a mesh of four vertices and these corners, with rooms in bytes. */
static void try_tables(const uint8_t *file, size_t length, uint32_t mesh, const uint32_t *corners,
                       size_t count, size_t vertex_room, size_t corner_room) {
    uint8_t *first = arena_lend(&row_arena, vertex_room, AT_END);
    uint8_t *second = arena_lend(&second_arena, corner_room, AT_START);
    uint64_t answer = tds_cob_tables(file, length, mesh, first, vertex_room, second, corner_room);
    uint64_t right = vertex_room / 4 < 12      ? REFUSAL(15, 12)
                     : corner_room / 4 < count ? REFUSAL(15, count)
                                               : 4;
    judge_call("tds_cob_tables", answer, right);
    if (TDS_REFUSED(right)) {
        untouched("tds_cob_tables", &row_arena, first);
        untouched("tds_cob_tables", &second_arena, second);
        return;
    }
    expect(tds_get_float(first) == 0 && tds_get_float(first + 12) > 0, "another vertex");
    for (size_t i = 0; i < count; i++) {
        expect(tds_get4(second + 4 * i) == corners[i], "corner %zu is another", i);
    }
    expect(arena_alive(&row_arena, first, 48), "the vertices are written elsewhere too");
    expect(arena_alive(&second_arena, second, 4 * count), "the corners are written elsewhere too");
}

static void try_sizes(const uint8_t *file, size_t length, uint32_t mesh, uint32_t faces) {
    for (size_t room = 0; room < 13; room++) {
        uint8_t *row = arena_lend(&row_arena, room, AT_END);
        uint64_t answer = tds_cob_sizes(file, length, mesh, row, room);
        if (room < 8) {
            judge_call("tds_cob_sizes", answer, REFUSAL(15, 2));
            untouched("tds_cob_sizes", &row_arena, row);
        } else {
            judge_call("tds_cob_sizes", answer, 2);
            expect(tds_get4(row) == 4 && tds_get4(row + 4) == faces, "other sizes");
            expect(arena_alive(&row_arena, row, 8), "the sizes are written elsewhere too");
        }
    }
}

/* All meshes, of which the numbers are written down here, and a quarter turn about z at each. */
static void try_meshes(const uint8_t *file, size_t length, const uint32_t (*right)[8], size_t count,
                       size_t room) {
    static const float position[] = {0, -1, 0, 2, 1, 0, 0, -0.5f, 0, 0, 1, 0.25f};
    uint8_t *row = arena_lend(&row_arena, room, AT_END);
    uint64_t answer = tds_cob_meshes(file, length, row, room);
    if (room / TDS_COB_MESH_BYTES < count) {
        judge_call("tds_cob_meshes", answer, REFUSAL(15, count));
        untouched("tds_cob_meshes", &row_arena, row);
        return;
    }
    judge_call("tds_cob_meshes", answer, count);
    for (size_t mesh = 0; mesh < count; mesh++) {
        for (int number = 0; number < TDS_COB_MESH_NUMBERS; number++) {
            uint32_t found = tds_get_cob_mesh(row, mesh, (enum tds_cob_mesh)number);
            expect(found == right[mesh][number], "mesh %zu has %lu for number %d and not %lu", mesh,
                   (unsigned long)found, number, (unsigned long)right[mesh][number]);
        }
        const uint8_t *matrix = file + tds_get_cob_mesh(row, mesh, TDS_COB_MESH_POSITION);
        for (size_t i = 0; i < 12; i++) {
            expect(tds_get_float(matrix + 4 * i) == position[i], "another current position");
        }
    }
    expect(arena_alive(&row_arena, row, count * TDS_COB_MESH_BYTES), "it writes elsewhere too");
}

static void try_no_mesh(const uint8_t *file, size_t length, uint32_t mesh, uint32_t meshes) {
    uint8_t *row = arena_lend(&row_arena, 100, IN_MIDDLE);
    uint8_t *second = arena_lend(&second_arena, 0, AT_END);
    judge_call("tds_cob_sizes", tds_cob_sizes(file, length, mesh, row, 0), REFUSAL(16, meshes));
    judge_call("tds_cob_tables", tds_cob_tables(file, length, mesh, row, 100, second, 0),
               REFUSAL(16, meshes));
    untouched("a call", &row_arena, row);
}

/* A square has two triangles and a face of four corners, which the tables leave out. */
static void try_square(void) {
    static const uint32_t corners[] = {0, 1, 2, 0, 2, 3};
    static const uint32_t meshes[2][8] = {{186, 5, 239, 4, 291, 3, 2, 1},
                                          {474, 5, 527, 4, 579, 3, 2, 2}};
    static uint8_t bytes[65536];
    size_t length = read_sample("try-square.cob", bytes, sizeof bytes);
    const uint8_t *file = arena_hold(&file_arena, bytes, length, AT_START);
    trying("the try square");
    judge_call("tds_cob_check", tds_cob_check(file, length), 5);
    for (size_t room = 0; room < 6 * TDS_COB_RECORD_BYTES; room++) {
        try_list(file, length, room);
    }
    for (uint32_t mesh = 0; mesh < 2; mesh++) {
        try_sizes(file, length, mesh, 2);
        for (size_t room = 0; room < 60; room += 3) {
            try_tables(file, length, mesh, corners, 6, room, 24);
            try_tables(file, length, mesh, corners, 6, 48, room);
        }
    }
    for (size_t room = 0; room < 3 * TDS_COB_MESH_BYTES; room++) {
        try_meshes(file, length, meshes, 2, room);
    }
    expect(memcmp(file + meshes[0][TDS_COB_MESH_NAME], "blade", 5) == 0, "another name");
    try_no_mesh(file, length, 2, 2);
    try_no_mesh(file, length, 0xFFFFFFFFu, 2);
}

/* The face with the hole is not in the table. */
static void try_gauge(void) {
    static const uint32_t corners[] = {0, 2, 3}, meshes[1][8] = {{89, 13, 150, 4, 202, 2, 1, 0}};
    static uint8_t bytes[65536];
    size_t length = read_sample("marking-gauge.cob", bytes, sizeof bytes);
    const uint8_t *file = arena_hold(&file_arena, bytes, length, AT_END);
    trying("the marking gauge");
    uint8_t *row = arena_lend(&row_arena, 2 * TDS_COB_RECORD_BYTES, AT_START);
    judge_call("tds_cob_list", tds_cob_list(file, length, row, 2 * TDS_COB_RECORD_BYTES), 2);
    expect(tds_get_cob_record(row, 0, TDS_COB_OFFSET) == 65, "the mesh stands elsewhere");
    expect(tds_get_cob_record(row, 0, TDS_COB_OWNER) == 7, "a private chunk owns the mesh");
    try_sizes(file, length, 0, 1);
    try_tables(file, length, 0, corners, 3, 48, 12);
    try_meshes(file, length, meshes, 1, TDS_COB_MESH_BYTES);
    try_no_mesh(file, length, 1, 1);
}

/* ---- any bytes */

/* Every bit of the gauge turned, and the gauge cut off everywhere: there is an answer. */
static void try_turned(void) {
    static uint8_t bytes[65536];
    size_t length = read_sample("marking-gauge.cob", bytes, sizeof bytes), refused = 0;
    for (size_t bit = 0; bit < 8 * length; bit++) {
        bytes[bit / 8] ^= (uint8_t)(1u << bit % 8);
        const uint8_t *file = arena_hold(&file_arena, bytes, length, AT_END);
        trying("the gauge with bit %zu turned", bit);
        uint64_t answer = tds_cob_check(file, length);
        if (TDS_REFUSED(answer)) {
            try_refused(file, length, answer);
            refused++;
        }
        bytes[bit / 8] ^= (uint8_t)(1u << bit % 8);
    }
    expect(refused > 256 && refused < 8 * length, "%zu turned bits are refused", refused);
    for (size_t cut = 0; cut < length; cut++) {
        const uint8_t *file = arena_hold(&file_arena, bytes, cut, AT_END);
        trying("the gauge cut off at %zu", cut);
        expect(TDS_REFUSED(tds_cob_check(file, cut)), "a part is accepted");
    }
    judge_call("tds_cob_check", tds_cob_check(NULL, 0), REFUSAL(20, 0));
}

/* ---- the longest chain: each chunk names the one before it as parent */

static void put4(uint8_t *at, uint32_t number) {
    for (int i = 0; i < 4; i++) {
        at[i] = (uint8_t)(number >> 8 * i);
    }
}

/* Identifiers that agree in their low bits, which the search looks at first. */
static uint32_t chain_identifier(uint32_t number, uint32_t step) {
    return (number + 1) * step;
}

static size_t make_chain(uint8_t *bytes, uint32_t step) {
    size_t at = 32;
    memcpy(bytes, "Caligari V00.01BLH             \n", 32);
    for (uint32_t i = 0; at + 40 <= TDS_LONGEST_FILE; i++, at += 20) {
        memcpy(bytes + at, "BitM\0\0\1\0", 8);
        put4(bytes + at + 8, chain_identifier(i, step));
        put4(bytes + at + 12, i == 0 ? 0 : chain_identifier(i - 1, step));
        put4(bytes + at + 16, 0);
    }
    memcpy(bytes + at, "END \1\0\0\0", 8);
    memset(bytes + at + 8, 0, 12);
    return at + 20;
}

static void try_chain(uint32_t step) {
    uint8_t *bytes = malloc(TDS_LONGEST_FILE);
    if (bytes == NULL) {
        expect(0, "no memory");
        return;
    }
    size_t length = make_chain(bytes, step);
    const uint8_t *file = arena_hold(&file_arena, bytes, length, AT_END);
    trying("a chain of parents, by %lu", (unsigned long)step);
    uint8_t *row = arena_lend(&row_arena, 100, AT_END);
    clock_t start = clock();
    judge_call("tds_cob_check", tds_cob_check(file, length), 1);
    judge_call("tds_cob_list", tds_cob_list(file, length, row, 100), 1);
    double seconds = (double)(clock() - start) / CLOCKS_PER_SEC;
    expect(seconds < 5, "the longest chain took %.1f seconds", seconds);
    /* the last chunk but one twice */
    put4(bytes + length - 40 + 8, chain_identifier(0, step));
    file = arena_hold(&file_arena, bytes, length, AT_END);
    judge_call("tds_cob_check", tds_cob_check(file, length), REFUSAL(21, length - 40));
    free(bytes);
}

void try_cobs(void) {
    file_arena = arena_make(TDS_LONGEST_FILE + 2);
    row_arena = arena_make(ROWS);
    second_arena = arena_make(ROWS);
    try_samples();
    try_square();
    try_gauge();
    try_turned();
    try_chain(1);
    try_chain(65536 / 2);
}
