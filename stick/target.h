/* The folder that an edition is copied to. */
#ifndef STICK_TARGET_H
#define STICK_TARGET_H

#include <stdbool.h>
#include <sys/types.h>

#include "trouble.h"

struct target {
    const char *folder;
    int file; /* the open folder, which is locked as long */
    dev_t device;
    ino_t number;
};

/*
 * Takes hold of a folder for one copy at a time. Answers false and says why where it is none, lies
 * in the edition or around it, is on no stick (unless any folder will do), or is held by another
 * copy. Nothing is left behind by a copy that is killed.
 */
bool target_open(struct target *target, const char *folder, const char *edition, bool any_folder,
                 struct trouble *trouble);

/* Whether what is at the path is still this folder; else the trouble says so. */
bool target_stands(const struct target *target, struct trouble *trouble);

void target_close(struct target *target);

#endif
