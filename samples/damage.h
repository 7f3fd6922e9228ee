/* The damaged samples: good figures with one thing wrong in each. */
#ifndef SAMPLES_DAMAGE_H
#define SAMPLES_DAMAGE_H

#include "compose.h"

struct damage {
    const char *file;                        /* its name says what is wrong */
    int refusal;                             /* the number it must be refused with */
    void (*make)(struct figure *figure);     /* the good figure */
    size_t (*damage)(struct figure *figure); /* answers the place of the refusal */
};

/* All that are kept, ended by one without a file name. */
extern const struct damage damages[];

/* The one that is too long to be kept. */
extern const struct damage too_long;

#endif
