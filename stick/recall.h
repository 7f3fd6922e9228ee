/* Going on with a batch that was broken off. */
#ifndef STICK_RECALL_H
#define STICK_RECALL_H

#include "tally.h"

/* What begins and ends the lines of a log that speak of the batch, or of one stick's verdict. */
#define BATCH_BEGINS "begins: "
#define BATCH_GOES_ON "goes on from "
#define STICK_ENDS " ends: "

/*
 * Takes from a log which sticks were judged in the last batch of this many, if it was of this kind:
 * what stands behind "begins: ". Another batch in the log is none of it.
 */
void recall(struct tally *tally, const char *log, unsigned long of, const char *kind);

#endif
