/* The place at which the sticks of a batch are put in, one after another. */
#ifndef STICK_PLACE_H
#define STICK_PLACE_H

#include <stdbool.h>
#include <sys/types.h>

#include "text.h"

struct place {
    const char *folder;
    const char *edition; /* or NULL */
    bool any_folder;     /* what is there need not be a stick */
    bool mounted_before; /* then an empty place is no stick, whatever is in the folder */
    /* what is in: */
    dev_t device;
    ino_t number;
    struct text name; /* of its file system; empty where it has none that is known */
};

/* Whether a stick is in; it is then known to the place. */
bool place_look(struct place *place);

/* Whether the same one is still in. */
bool place_holds(const struct place *place);

/* Whether a folder is there that has something in it, and is no stick. */
bool place_misleads(const struct place *place);

void place_free(struct place *place);

#endif
