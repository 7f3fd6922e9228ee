/* Comparing a file, as it is read, with the master's. */
#ifndef STICK_COMPARE_H
#define STICK_COMPARE_H

#include "reading.h"

struct comparison {
    bool wanted;
    bool different;
    unsigned long long at; /* the first byte that differs, or where one of the two ends */
    uint64_t sum;          /* of the master's file so far, as tds_sum_add has it */
    struct reading master;
    uint8_t *block;
};

/* Begins to compare with the master's file at this path. Answers false and says why. */
bool comparison_start(struct comparison *comparison, const char *path, struct trouble *trouble);

/* The next bytes of the stick's file. Answers false and says why the master's cannot be read. */
bool comparison_add(struct comparison *comparison, const uint8_t *bytes, size_t length,
                    struct trouble *trouble);

/* The stick's file has ended: the master's must have ended too. */
bool comparison_end(struct comparison *comparison, struct trouble *trouble);

#endif
