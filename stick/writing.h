/* Writing a new file, whole or not at all. */
#ifndef STICK_WRITING_H
#define STICK_WRITING_H

#include <stdbool.h>
#include <stddef.h>
#include <stdint.h>

#include "text.h"
#include "trouble.h"

/* What a file's name ends with until it is whole; a number may stand behind it. */
#define PART_ENDING ".part"

struct writing {
    int file;
    const char *path;
    struct text part; /* the name it has until it is whole */
};

/* Begins a new file that is to have this path in the end, where nothing may stand yet. */
bool writing_open(struct writing *writing, const char *path, struct trouble *trouble);

bool writing_add(struct writing *writing, const uint8_t *bytes, size_t length,
                 struct trouble *trouble);

/*
 * Ends it: written out to the medium and given its name if all is good so far, else taken away
 * again. Answers whether it now stands there.
 */
bool writing_close(struct writing *writing, bool good, struct trouble *trouble);

/* Writes out the folder in which something stands, so that its name is on the medium too. Answers 0
 * or the system's error. */
int write_out_name(const char *path);

#endif
