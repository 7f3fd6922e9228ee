/* One file on a stick: read once, from the stick, and as it is read judged and compared. */
#ifndef STICK_SUBJECT_H
#define STICK_SUBJECT_H

#include "compare.h"
#include "figure.h"
#include "kinds.h"
#include "manifest.h"

struct subject {
    const char *path;
    const char *below; /* the path below the folder that is checked */
    enum kind kind;
    const struct format *format;      /* of a figure */
    const char *read_as;              /* the path by whose ending its reader is chosen */
    bool list;                        /* what is in a good figure is to be counted */
    const struct expected *in_master; /* the file that it is to be compared with, or NULL */
    const char *master;               /* the path of that */
    bool summed;                      /* all of it is to be summed, for a slip or against one */
    const struct expected *entry;     /* what the slip says of it, or NULL */
    /* what came of it: */
    uint8_t item[TDS_ITEM_BYTES]; /* the evidence, as the library made it; zero if there is none */
    struct totals totals;
    struct comparison comparison;
    uint64_t as_entry; /* the refusal where it is not as the slip says, else 0 */
    enum medium medium;
};

/* Reads it to its end, or as far as anyone wants to know of it. Answers false and says why not. */
bool subject_read(struct subject *subject, struct checker *checker, struct trouble *trouble);

/* One number of its evidence. */
uint64_t subject_number(const struct subject *subject, enum tds_item number);

#endif
