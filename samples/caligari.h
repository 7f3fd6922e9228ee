/* The Caligari samples (.cob): two tools, and the same with one thing wrong in each. */
#ifndef SAMPLES_CALIGARI_H
#define SAMPLES_CALIGARI_H

#include "compose.h"

struct caligari {
    const char *file;
    int refusal;                         /* 0 for a good one */
    void (*make)(struct figure *figure); /* the good figure */
    size_t (*damage)(
        struct figure *figure); /* answers the place of the refusal; NULL for a good one */
};

/* All of them, ended by one without a file name. */
extern const struct caligari caligaris[];

#endif
