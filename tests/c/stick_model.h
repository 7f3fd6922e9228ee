/*
 * What stick(1) says of a stick, as a small model: written from that page, and not from the tool.
 */
#ifndef STICK_MODEL_H
#define STICK_MODEL_H

#include <stdbool.h>
#include <stddef.h>
#include <stdint.h>

enum kind { A_FILE, A_FOLDER, A_LINK };

/* One thing in a folder: where it is, what it is, and what is in it. */
struct thing {
    const char *path; /* below the folder, with '/' */
    enum kind kind;
    const uint8_t *bytes;
    size_t length;
};

enum { MOST_THINGS = 24 };
struct tree {
    struct thing things[MOST_THINGS];
    size_t count;
};

/* What is checked, and how. */
struct check {
    struct tree stick;
    const struct tree *master; /* NULL for none */
    bool structure;            /* --structure */
    bool fault;                /* something on the stick or in the master did not answer */
};

struct verdict {
    const char *word;
    int status;
};

struct verdict verdict_of(const struct check *check);

/* Of two folders that are checked together. */
struct verdict worst_of(struct verdict one, struct verdict other);

/* The thing of this path in a folder, letters of either case alike; NULL where there is none. */
const struct thing *thing_at(const struct tree *tree, const char *path);

#endif
