/* The refusals at length, for --explain, and what to do about each. */
#ifndef STICK_REFUSALS_H
#define STICK_REFUSALS_H

#include <stdio.h>

struct refusal {
    int number;
    const char *explanation; /* lines of at most 80 bytes */
    const char *remedy;      /* what to do, short */
    const char *advice;      /* what to do, long */
};

/* The refusal of this number, or NULL if there is none. */
const struct refusal *refusal_of(int number);

/* The refusal of this name, in letters of either case, or NULL if there is none. */
const struct refusal *refusal_named(const char *name);

/* The refusal at length, as --explain prints it. */
void refusal_explain(FILE *out, const struct refusal *refusal);

#endif
