/* The check of one stick. */
#ifndef STICK_CHECK_H
#define STICK_CHECK_H

#include "manifest.h"
#include "remedies.h"
#include "report.h"

/* What a stick is compared with. */
struct against {
    const char *folder;              /* the master's, or NULL */
    const struct manifest *manifest; /* what is in it */
    const struct remedies *remedies; /* what to do about a file that is not as it should be */
};

/*
 * Checks every figure below this folder, or this file whatever its name; links are not followed.
 * All that cannot be looked at is reported, and the rest still checked. A slip in the folder is
 * used. If `files` is not NULL, it gets every file with its length and sums, for a slip.
 */
void check_stick(const char *root, const struct against *against, struct manifest *files,
                 struct report *report);

#endif
