/* What the terminal shows while the work goes on: a line for each stick. */
#ifndef STICK_PROGRESS_H
#define STICK_PROGRESS_H

#include <stdbool.h>
#include <stddef.h>
#include <time.h>

#include "decide.h"

enum working { WAITING, CHECKING, COPYING, DONE };

/* So many bytes of so many; of 0 where that is not known. */
struct share {
    unsigned long long done;
    unsigned long long of;
};

/* How far the work on one stick is. */
struct row {
    const char *name;
    enum working working;
    unsigned long file;    /* the one that is at hand, counted from 1 */
    unsigned long files;   /* in all; 0 where that is not known */
    struct share in_file;  /* of the one that is at hand */
    struct share in_all;   /* of all of them */
    unsigned long bad;     /* problems so far */
    struct timespec start; /* of this part of the work */
    enum verdict verdict;  /* once it is done */
};

struct progress {
    bool wanted;          /* there is someone to look at it */
    bool moves;           /* the terminal can go back to an earlier line */
    bool colour;          /* it has colours */
    size_t lines;         /* how many stand there now */
    size_t last_length;   /* bytes of the last of them */
    struct timespec last; /* when it was shown last */
    bool begun;
};

/* Seconds from one moment to another. */
double seconds_between(const struct timespec *from, const struct timespec *to);

/* Shown only on a terminal, and never when the check is to be quiet. */
void progress_start(struct progress *progress, bool quiet);

/* Shows the rows, at most ten times a second, none wider or more than the terminal takes. */
void progress_show(struct progress *progress, const struct row *rows, size_t count);

/* Takes it away, so that a line can be printed. */
void progress_clear(struct progress *progress);

#endif
