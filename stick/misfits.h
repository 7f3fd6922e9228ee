/* What on a stick is not as its slip says, kept until all is known: it may be the slip. */
#ifndef STICK_MISFITS_H
#define STICK_MISFITS_H

#include "remedies.h"
#include "report.h"

struct misfits {
    struct misfit *list;
    size_t count;
    size_t room;
    unsigned long by_outcome[OUTCOMES];
};

/* Keeps one. Words and remedy stay where they are; the path is copied. */
void misfits_add(struct misfits *misfits, enum outcome outcome, const char *path, const char *words,
                 const char *remedy);

/* Says all of them; or, where two thirds of so many files on the stick do not fit, that it is
 * the slip or the wrong edition, in one line. */
void misfits_say(struct misfits *misfits, struct report *report, const char *slip,
                 unsigned long files, const struct remedies *remedies);

void misfits_free(struct misfits *misfits);

#endif
