/* What is in a figure in memory that its reader accepted. */
#ifndef STICK_FIGURE_H
#define STICK_FIGURE_H

#include <stddef.h>

#include "formats.h"
#include "report.h"

/* The memory for checking, used for one figure after another. */
struct checker {
    struct report *report; /* that is told how far it is */
    uint8_t *block;        /* MOST_READ bytes */
    uint8_t *records;
    size_t records_room; /* in records */
};

void checker_start(struct checker *checker, struct report *report);
void checker_free(struct checker *checker);

/* Counts what is in the accepted figure in the block, for which its reader had this answer. */
void count_figure(struct checker *checker, const struct format *format, size_t length,
                  uint64_t answer, struct totals *totals);

#endif
