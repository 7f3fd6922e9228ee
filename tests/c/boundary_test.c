/*
 * Calls every reading export with every case, with slices of many lengths, aligned and not, empty
 * and (NULL, 0), between forbidden pages and among canaries: the answer is right, what is filled is
 * right, and nothing else is touched, on acceptance and on each refusal.
 */
#include <stdio.h>
#include <string.h>
#include <sys/mman.h>

#include "all_meshes_cases.h"
#include "answers.h"
#include "c4d_cases.h"
#include "cases.h"
#include "cob_cases.h"
#include "mapping_cases.h"
#include "mesh_cases.h"
#include "figure_cases.h"
#include "parts_cases.h"
#include "rescue_cases.h"
#include "slices.h"
#include "slip_cases.h"
#include "tds.h"
#include "writer_cases.h"

static struct arena file_arena, big_file_arena, first_arena, second_arena;

/* A file that is being tried, as it is held in memory. */
struct held {
    const struct file_case *file;
    const uint8_t *at;
    size_t length;
};

/* A slice that is lent, and how much of it is to be filled, with what. */
struct lent {
    const struct arena *arena;
    uint8_t *at;
    size_t length;
    uint8_t right[8192]; /* what it should begin with afterwards */
    size_t filled;
};

static void lend(struct lent *lent, const struct arena *arena, size_t length, enum where where) {
    lent->arena = arena;
    lent->at = arena_lend(arena, length, where);
    lent->length = length;
    lent->filled = 0;
}

static void should_hold(struct lent *lent, uint32_t number) {
    for (int i = 0; i < 4; i++) {
        lent->right[lent->filled++] = (uint8_t)(number >> 8 * i);
    }
}

/* Judges a slice after a call; a refusal fills nothing. */
static void judge_slice(struct lent *lent, uint64_t right_answer) {
    size_t filled = TDS_REFUSED(right_answer) ? 0 : lent->filled;
    expect(arena_alive(lent->arena, lent->at, filled), "something outside was changed");
    expect(memcmp(lent->at, lent->right, filled) == 0, "filled wrongly");
}

static void try_version(void) {
    trying("tds_version");
    expect(tds_version() == TDS_VERSION, "the header has %lx, the library %lx",
           (unsigned long)TDS_VERSION, (unsigned long)tds_version());
}

static void try_check(const struct held *held) {
    uint64_t right = held->file->refusal != 0 ? held->file->refusal : held->file->records;
    trying("tds_check of %s", held->file->what);
    judge_answer(tds_check(held->at, held->length), right);
    judge_answer(tds_check(held->at, held->length), right);
}

static void try_list(const struct held *held, size_t room, enum where where) {
    const struct file_case *file = held->file;
    uint64_t right = file->refusal != 0                        ? file->refusal
                     : room / TDS_RECORD_BYTES < file->records ? REFUSAL(15, file->records)
                                                               : file->records;
    static struct lent records;
    lend(&records, &first_arena, room, where);
    for (size_t i = 0; i < file->records * TDS_RECORD_NUMBERS; i++) {
        should_hold(&records, file->list[i / TDS_RECORD_NUMBERS][i % TDS_RECORD_NUMBERS]);
    }
    trying("tds_list of %s into %zu bytes (%d)", file->what, room, where);
    judge_answer(tds_list(held->at, held->length, records.at, room), right);
    judge_slice(&records, right);
    if (room == 0) {
        trying("tds_list of %s into (NULL, 0)", file->what);
        judge_answer(tds_list(held->at, held->length, NULL, 0), right);
    }
}

/* Lends numbers, or structs of them: aligned also in the middle. */
static void *lend_numbers(struct lent *lent, const struct arena *arena, size_t bytes,
                          enum where where) {
    lend(lent, arena, bytes, where);
    lent->at -= (uintptr_t)lent->at % sizeof(uint32_t);
    return lent->at;
}

/* What the row and the table should begin with: the machine's own numbers. */
static void hold_records(struct lent *row, struct lent *table, const struct file_case *file) {
    for (size_t i = 0; i < file->records; i++) {
        const uint32_t *n = file->list[i];
        const struct tds_chunk chunk = {
            n[TDS_RECORD_ID],     n[TDS_RECORD_OFFSET], n[TDS_RECORD_LENGTH], n[TDS_RECORD_DEPTH],
            n[TDS_RECORD_PARENT], n[TDS_RECORD_OWN],    n[TDS_RECORD_NEXT]};
        memcpy(row->right + row->filled, n, sizeof file->list[i]);
        memcpy(table->right + table->filled, &chunk, sizeof chunk);
        row->filled += sizeof file->list[i];
        table->filled += sizeof chunk;
    }
}

/* The rooms are in numbers and in structs. */
static void try_records(const struct held *held, size_t row_room, size_t table_room,
                        enum where where) {
    static struct lent row, table;
    const struct file_case *file = held->file;
    size_t row_records = row_room / TDS_RECORD_NUMBERS;
    size_t room = row_records < table_room ? row_records : table_room;
    uint64_t right = file->refusal != 0     ? file->refusal
                     : room < file->records ? REFUSAL(15, file->records)
                                            : file->records;
    uint32_t *numbers = lend_numbers(&row, &first_arena, 4 * row_room, where);
    struct tds_chunk *chunks =
        lend_numbers(&table, &second_arena, sizeof(struct tds_chunk) * table_room, where);
    hold_records(&row, &table, file);
    trying("tds_records of %s into %zu numbers and %zu structs (%d)", file->what, row_room,
           table_room, where);
    judge_answer(tds_records(held->at, held->length, numbers, row_room, chunks, table_room), right);
    judge_slice(&row, right);
    judge_slice(&table, right);
    if (row_room == 0 || table_room == 0) {
        trying("tds_records of %s into %zu numbers and %zu structs, (NULL, 0) for none (%d)",
               file->what, row_room, table_room, where);
        judge_answer(tds_records(held->at, held->length, row_room == 0 ? NULL : numbers, row_room,
                                 table_room == 0 ? NULL : chunks, table_room),
                     right);
        judge_slice(&row, right);
        judge_slice(&table, right);
    }
}

/* The row's room and the table's, each below, at and above what is needed. */
static void try_all_records(const struct held *held, enum where where) {
    size_t needed = held->file->records, numbers = needed * TDS_RECORD_NUMBERS;
    const size_t row_rooms[] = {
        0,       1,           6,           7,           numbers - (numbers > 0),
        numbers, numbers + 1, numbers + 6, numbers + 7, numbers + 40};
    const size_t table_rooms[] = {0, 1, needed - (needed > 0), needed, needed + 1, needed + 9};
    EACH(i, row_rooms) {
        EACH(j, table_rooms) {
            try_records(held, row_rooms[i], table_rooms[j], where);
        }
    }
}

/* What a call about one mesh is to answer, before room is judged. */
static uint64_t mesh_refusal(const struct file_case *file, uint32_t mesh) {
    return file->refusal != 0     ? file->refusal
           : mesh >= file->meshes ? REFUSAL(16, file->meshes)
                                  : 0;
}

static void hold_tables(struct lent *vertices, struct lent *corners, const struct file_case *file,
                        const struct mesh_case *mesh) {
    vertices->filled = 12 * mesh->vertices;
    memcpy(vertices->right, file->bytes + mesh->vertices_at, vertices->filled);
    for (uint32_t i = 0; i < mesh->faces; i++) {
        memcpy(corners->right + 6 * i, file->bytes + mesh->faces_at + 8 * i, 6);
    }
    corners->filled = 6 * mesh->faces;
}

static void try_tables(const struct held *held, uint32_t number, size_t vertices_room,
                       size_t corners_room, enum where where) {
    static struct lent vertices, corners;
    const struct file_case *file = held->file;
    const struct mesh_case *mesh = &file->mesh[number < file->meshes ? number : 0];
    uint64_t right = mesh_refusal(file, number);
    if (right == 0) {
        right = vertices_room / 4 < 3 * mesh->vertices ? REFUSAL(15, 3 * mesh->vertices)
                : corners_room / 2 < 3 * mesh->faces   ? REFUSAL(15, 3 * mesh->faces)
                                                       : mesh->vertices + 65536ull * mesh->faces;
    }
    lend(&vertices, &first_arena, vertices_room, where);
    lend(&corners, &second_arena, corners_room, where);
    hold_tables(&vertices, &corners, file, mesh);
    trying("tds_tables of %s, mesh %lu, into %zu and %zu bytes (%d)", file->what,
           (unsigned long)number, vertices_room, corners_room, where);
    judge_answer(tds_tables(held->at, held->length, number, vertices_room == 0 ? NULL : vertices.at,
                            vertices_room, corners_room == 0 ? NULL : corners.at, corners_room),
                 right);
    judge_slice(&vertices, right);
    judge_slice(&corners, right);
}

static void try_counts(const struct held *held, size_t room, enum where where) {
    const struct file_case *file = held->file;
    uint64_t right = file->refusal != 0 ? file->refusal : room < 12 ? REFUSAL(15, 3) : 3;
    static struct lent counts;
    lend(&counts, &first_arena, room, where);
    for (int i = 0; i < 3; i++) {
        should_hold(&counts, file->counts[i]);
    }
    trying("tds_counts of %s into %zu bytes (%d)", file->what, room, where);
    judge_answer(tds_counts(held->at, held->length, room == 0 ? NULL : counts.at, room), right);
    judge_slice(&counts, right);
}

static void try_name(const struct held *held, uint32_t number, size_t room, enum where where) {
    const struct file_case *file = held->file;
    const struct mesh_case *mesh = &file->mesh[number < file->meshes ? number : 0];
    uint64_t right = mesh_refusal(file, number);
    static struct lent span;
    right = right != 0 ? right : room < 8 ? REFUSAL(15, 2) : 2;
    lend(&span, &first_arena, room, where);
    should_hold(&span, mesh->name_at);
    should_hold(&span, mesh->name_length);
    trying("tds_name of %s, mesh %lu, into %zu bytes (%d)", file->what, (unsigned long)number, room,
           where);
    judge_answer(tds_name(held->at, held->length, number, room == 0 ? NULL : span.at, room), right);
    judge_slice(&span, right);
}

static void try_box(const struct held *held, uint32_t number, size_t room, enum where where) {
    const struct file_case *file = held->file;
    const struct mesh_case *mesh = &file->mesh[number < file->meshes ? number : 0];
    uint64_t right = mesh_refusal(file, number);
    static struct lent box;
    right = right != 0            ? right
            : mesh->vertices == 0 ? REFUSAL(17, 0)
            : room < 36           ? REFUSAL(15, 9)
                                  : 9;
    lend(&box, &first_arena, room, where);
    for (int i = 0; i < 9; i++) {
        should_hold(&box, mesh->box[i]);
    }
    trying("tds_box of %s, mesh %lu, into %zu bytes (%d)", file->what, (unsigned long)number, room,
           where);
    judge_answer(tds_box(held->at, held->length, number, room == 0 ? NULL : box.at, room), right);
    judge_slice(&box, right);
}

/* All calls about one mesh number, with rooms below, at and above what is needed. */
static void try_mesh(const struct held *held, uint32_t number, enum where where) {
    const struct mesh_case *mesh = &held->file->mesh[number < held->file->meshes ? number : 0];
    size_t vertices = 12 * mesh->vertices, corners = 6 * mesh->faces;
    const size_t vertices_rooms[] = {0,
                                     1,
                                     vertices / 2,
                                     vertices - (vertices > 0),
                                     vertices,
                                     vertices + 1,
                                     vertices + 3,
                                     vertices + 40};
    const size_t corners_rooms[] = {0,       1,           corners - (corners > 0),
                                    corners, corners + 1, corners + 13};
    static const size_t span_rooms[] = {0, 1, 4, 7, 8, 9, 11, 12, 100};
    static const size_t box_rooms[] = {0, 3, 24, 35, 36, 37, 39, 40, 100};
    EACH(i, vertices_rooms) {
        EACH(j, corners_rooms) {
            try_tables(held, number, vertices_rooms[i], corners_rooms[j], where);
        }
    }
    EACH(i, span_rooms) {
        try_name(held, number, span_rooms[i], where);
    }
    EACH(i, box_rooms) {
        try_box(held, number, box_rooms[i], where);
    }
}

static void try_held(const struct held *held, enum where where) {
    size_t needed = held->file->records * TDS_RECORD_BYTES;
    const size_t list_rooms[] = {
        0,      1,          27,          28,          29,          needed - (needed > 0),
        needed, needed + 1, needed + 27, needed + 28, needed + 100};
    static const size_t counts_rooms[] = {0, 1, 4, 11, 12, 13, 15, 16, 100};
    static const uint32_t numbers[] = {0, 1, 2, 65536, 0x7FFFFFFF, 0x80000000, 0xFFFFFFFF};
    try_check(held);
    EACH(i, list_rooms) {
        try_list(held, list_rooms[i], where);
    }
    try_all_records(held, where);
    EACH(i, counts_rooms) {
        try_counts(held, counts_rooms[i], where);
    }
    EACH(i, numbers) {
        try_mesh(held, numbers[i], where);
    }
}

/* The file lies right before a forbidden page, right behind one, and at an odd address. */
static void try_case(const struct file_case *file) {
    const struct arena *arena = file->length > 4000 ? &big_file_arena : &file_arena;
    for (int where = AT_START; where < WHERES; where++) {
        struct held held = {file, NULL, file->length};
        held.at = arena_hold(arena, file->bytes, file->length, (enum where)where);
        try_held(&held, (enum where)where);
        if (file->length == 0) {
            held.at = NULL;
            try_held(&held, (enum where)where);
        }
    }
}

/* A length that passes 32 bits is not taken for a short one. */
static void try_huge_file(const struct file_case *file) {
    uint64_t length = (1ull << 32) + file->length;
    uint8_t *memory;
    if (sizeof(size_t) < 8 || file->refusal != 0) {
        return;
    }
    memory = mmap(NULL, (size_t)length, PROT_READ | PROT_WRITE,
                  MAP_PRIVATE | MAP_ANONYMOUS | MAP_NORESERVE, -1, 0);
    if (memory == MAP_FAILED) {
        printf("skipped: no address space for a file of more than 2^32 bytes\n");
        return;
    }
    memcpy(memory, file->bytes, file->length);
    trying("tds_check of %s with 2^32 bytes behind it", file->what);
    judge_answer(tds_check(memory, (size_t)length), REFUSAL(1, 0));
    munmap(memory, (size_t)length);
}

int main(void) {
    file_arena = arena_make(4096);
    big_file_arena = arena_make(1048576 + 8192);
    first_arena = arena_make(4096);
    second_arena = arena_make(4096);
    try_version();
    each_case(try_case);
    each_case(try_huge_file);
    try_meshes();
    try_mappings();
    try_all_meshes();
    try_parts();
    try_rescue();
    try_writer();
    try_figures();
    try_slips();
    try_cobs();
    try_c4ds();
    return finish("boundary_test");
}
