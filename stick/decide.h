/* The one place that decides: PASS, STRUCTURE ONLY or DO NOT SEAL. */
#ifndef STICK_DECIDE_H
#define STICK_DECIDE_H

#include <stdbool.h>
#include <stddef.h>

/* From bad to good, so that what nobody decided is not good. */
enum verdict { DO_NOT_SEAL, STRUCTURE_ONLY, PASS };

/* What was found of one thing. */
enum outcome {
    FOUND_NOTHING, /* it was not looked at */
    FOUND_OK,
    FOUND_REFUSED,
    FOUND_DIFFERENT, /* from the slip or the master */
    FOUND_MISSING,   /* on the slip or in the master, and not here */
    FOUND_EXTRA,     /* here, and not on the slip or in the master */
    FOUND_LEFT_BEHIND,
    FOUND_BROKEN_SLIP,
    FOUND_NEAR, /* almost named as a figure */
    FOUND_UNCHECKED,
    OUTCOMES
};

/* What a verdict rests on. Zero everywhere is: nothing was looked at. */
struct grounds {
    unsigned long count[OUTCOMES]; /* of all that was met */
    size_t figures;                /* things that are named as figures */
    size_t accepted;               /* figures that their readers accepted */
    unsigned long unread;          /* files that were perhaps not read from the stick itself */
    bool whole;                    /* all names were listed, and all that was listed was met */
    unsigned long manifests;       /* what must be there, by a slip or by a master */
    unsigned long agreed;          /* those by which the library judges the stick good */
    bool alone;                    /* a file was named, not a folder: no word on a stick */
    bool asked;                    /* to look at the structure only */
};

struct result {
    enum verdict verdict;
    int status; /* of the program: 0 good, 1 something is wrong, 2 something was not checked */
};

struct result decide(const struct grounds *grounds);

/* The worse of two verdicts, and of two statuses. */
struct result worse(struct result one, struct result other);

#endif
