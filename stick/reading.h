/* Reading a file from the stick, once, block by block. */
#ifndef STICK_READING_H
#define STICK_READING_H

#include <stdbool.h>
#include <stddef.h>
#include <stdint.h>

#include "tds.h"
#include "trouble.h"

/* One byte over the longest figure shows the reader that a file is too long. */
enum { MOST_READ = TDS_LONGEST_FILE + 1 };

/* Where the bytes of a file come from. */
enum medium {
    MEDIUM_UNKNOWN,
    MEDIUM_STICK,
    MEDIUM_MEMORY, /* of this computer, or so it may be */
    MEDIUM_PROGRAM /* or of the program that is the file system */
};

struct reading {
    int file;
    unsigned long long size; /* when it was opened */
    unsigned long long read; /* so far */
    bool ended;              /* its end was met */
    enum medium medium;
};

/* Where a file is to be read from. A master may well be in memory; a stick's file may not. */
enum source { FROM_STICK, FROM_ANYWHERE };

/*
 * Opens a file, and sees to it that a stick's is read from the stick and not from memory. Answers
 * false and says why where it cannot be opened, or is a link or no file.
 */
bool reading_open(struct reading *reading, const char *path, enum source source,
                  struct trouble *trouble);

/* Reads the next bytes, fewer than there is room for only at the end. Answers false and says why.
 */
bool reading_block(struct reading *reading, uint8_t *block, size_t room, size_t *length,
                   struct trouble *trouble);

/*
 * Ends the reading. Answers false where the file has changed its length meanwhile: what was read
 * would be no file at all.
 */
bool reading_close(struct reading *reading, struct trouble *trouble);

#endif
