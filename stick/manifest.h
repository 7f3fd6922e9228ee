/* What should be on a stick: the files of a master, of an edition or of a slip. */
#ifndef STICK_MANIFEST_H
#define STICK_MANIFEST_H

#include <stddef.h>

#include "report.h"

/* A file that should be there; its length and sums are known from a slip only. */
struct expected {
    char *name; /* the path below the folder */
    uint32_t length;
    uint32_t sums;
};

struct manifest {
    struct expected *entries; /* sorted once manifest_sort was called */
    size_t count;
    size_t room;
};

void manifest_add(struct manifest *manifest, const char *name, size_t name_length, uint32_t length,
                  uint32_t sums);
void manifest_sort(struct manifest *manifest);
void manifest_free(struct manifest *manifest);

/* The first file of a sorted manifest whose name is there before, or NULL: on a stick two names
 * that differ only in their letters' case are one. */
const struct expected *manifest_twice(const struct manifest *manifest);

/* Whether any file of a sorted manifest stands below this folder. */
bool manifest_leads(const struct manifest *manifest, const char *folder);

/* All files below a folder, but for what other computers leave. Answers whether all could be read;
 * what cannot is reported. */
bool manifest_of_folder(struct manifest *manifest, const char *folder, struct report *report);

/* Which of the files in a manifest were met. */
struct presence {
    const struct manifest *manifest; /* NULL where nothing is expected */
    bool *met;
};

void presence_start(struct presence *presence, const struct manifest *manifest);
void presence_free(struct presence *presence);

/*
 * The file of this name, which counts as met; NULL if none is expected, or it was met before.
 * Letters of either case are the same, as FAT has it.
 */
const struct expected *presence_meet(struct presence *presence, const char *name);

#endif
