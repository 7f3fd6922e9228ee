/* What the command line asks for. */
#ifndef STICK_OPTIONS_H
#define STICK_OPTIONS_H

#include <stdbool.h>
#include <stddef.h>

#include "report.h"

struct refusal;

enum task { TASK_WORK, TASK_RESCUE, TASK_HELP, TASK_VERSION, TASK_EXPLAIN, TASK_MISTAKE };

struct options {
    enum task task;
    struct style style;
    const char *against;           /* the master to compare with, or NULL */
    const char *edition;           /* what is to be copied first, or NULL */
    bool write_slip;               /* for each folder in which all is well */
    bool structure;                /* that there is nothing to compare with is as it was meant */
    bool no_slip;                  /* an edition without a slip is copied too */
    bool any_folder;               /* what is written to need not be a stick, or may be one */
    unsigned long batch;           /* how many sticks one after another; 0 without --batch */
    unsigned long from;            /* the first of them; 0 without --from */
    bool no_bell;                  /* at the verdict on each of them */
    const char *rescue;            /* a damaged figure that is to be mended, or NULL */
    const char *log;               /* of the batch, or NULL for the usual name */
    const struct refusal *explain; /* for TASK_EXPLAIN */
    char **arguments;              /* folders and files */
    size_t count;
};

/* Reads the command line. A mistake in it has been said when this answers TASK_MISTAKE. */
struct options options_read(int argc, char **argv);

void print_help(void);

#endif
