/* The state of one check, for what is met on the walk and for what only its end tells. */
#ifndef STICK_CHECKING_H
#define STICK_CHECKING_H

#include "check.h"
#include "judging.h"
#include "misfits.h"
#include "tell.h"
#include "walk.h"

struct check {
    const char *root;
    const struct against *against;
    struct report *report;
    struct checker checker;
    struct walk walk;
    struct slip slip;
    struct presence in_master;
    struct presence on_slip;
    struct evidence evidence;
    size_t item;              /* of what was met last */
    struct manifest compared; /* the master's files that were found the same, as they were read */
    struct misfits misfits;   /* what is not as the slip says */
    struct manifest *files;   /* gets all files, if not NULL */
    struct manifest unread;   /* the folders in which nothing could be looked at */
    bool in_folder;           /* the root is a folder, not one file */
    bool readable;            /* its names could be read */
    bool given_up;
    unsigned in_a_row;     /* how often the stick failed to answer */
    unsigned long figures; /* met so far, checked or not */
    unsigned long met;     /* files but for the slip */
};

/* Something could not be looked at; where the stick itself is gone, nothing more is tried. */
void could_not(struct check *check, const char *path, struct trouble *trouble);
void could_not_for_words(struct check *check, const char *path, const char *words,
                         const char *remedy);

/* The walk has ended, however it did: says what only its end tells, and asks the library. */
void check_at_end(struct check *check);

#endif
