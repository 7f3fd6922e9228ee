/* A count of things with the first few of their names, for the last lines. */
#ifndef STICK_NAMES_H
#define STICK_NAMES_H

#include <stdbool.h>

#include "text.h"

struct names {
    unsigned long count;
    unsigned long named;
    struct text list; /* "a, b, c", fit to be printed */
};

/* Counts one more; it is named too unless enough are and `all` is not wanted. */
void names_add(struct names *names, const char *name, bool all);

/* Takes in all that is in others. */
void names_join(struct names *names, const struct names *others);

/* The list, with "and N more" where not all are named. */
void names_say(const struct names *names, struct text *line);

void names_free(struct names *names);

#endif
