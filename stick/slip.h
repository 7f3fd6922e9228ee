/* The slip of a stick: one small file that says which files are on it, with lengths and sums. */
#ifndef STICK_SLIP_H
#define STICK_SLIP_H

#include "manifest.h"
#include "reading.h"

/* Its name at the top of a stick; letters of either case are the same. */
#define SLIP_NAME "stick.slip"

enum slip_state {
    SLIP_NONE,
    SLIP_GOOD,
    SLIP_BROKEN,    /* it breaks the rules of slips, or names itself or a file twice */
    SLIP_UNREADABLE /* the stick did not hand it out, or there are two */
};

struct slip {
    enum slip_state state;
    char *path;
    uint8_t *bytes; /* by which the stick is judged */
    size_t length;
    struct manifest manifest; /* of a good one: its entries, and itself */
    uint64_t answer;          /* the refusal of a broken one, if the library refuses it */
    struct trouble trouble;   /* why it is unreadable */
    enum medium medium;       /* where it was read from */
};

/* Looks for the slip of a folder and reads it, from the stick. */
void slip_read(struct slip *slip, const char *folder);
void slip_free(struct slip *slip);

/* Whether this path below a folder is its slip. */
bool is_slip(const char *below);

/*
 * Lays these files out as a slip, in memory of its own; NULL where no slip takes them, and then
 * `unfit` is the first file at fault, or NULL where there are too many.
 */
uint8_t *slip_make(const struct manifest *manifest, size_t *length, const struct expected **unfit);

/*
 * Writes a new slip for a folder in which these files are. Answers whether it stands there; else it
 * was reported why not, and nothing has changed.
 */
bool slip_write(const char *folder, const struct manifest *manifest, struct report *report);

#endif
