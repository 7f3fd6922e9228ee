/* The files that the boundary is tried with, and all that is to be answered about them. */
#ifndef TESTS_CASES_H
#define TESTS_CASES_H

#include <stddef.h>
#include <stdint.h>

#include "tds.h"

enum { MOST_RECORDS = 8, MOST_MESHES = 2 };

struct mesh_case {
    uint32_t name_at, name_length;
    uint32_t vertices_at, vertices; /* where in the file, how many */
    uint32_t faces_at, faces;
    uint32_t box[9]; /* bits of floats */
};

struct file_case {
    const char *what;
    uint8_t *bytes;
    size_t length;
    uint64_t refusal; /* 0 if the file is to be accepted; then the rest counts */
    size_t records;
    uint32_t list[MOST_RECORDS][TDS_RECORD_NUMBERS];
    uint32_t counts[3];
    size_t meshes;
    struct mesh_case mesh[MOST_MESHES];
};

/* Calls `use` with each case in turn. */
void each_case(void (*use)(const struct file_case *file));

#endif
