/* What is found on one stick: a line for each problem, and the counts for the last line. */
#ifndef STICK_REPORT_H
#define STICK_REPORT_H

#include <stdbool.h>
#include <stdint.h>

#include "decide.h"
#include "names.h"
#include "reading.h"
#include "screen.h"
#include "trouble.h"

/* What to do about a file that is almost named as a figure. */
#define NEAR_REMEDY "copy the figure again, and delete this"

/* How much is said, and in which form. */
struct style {
    bool quiet;   /* problems only */
    bool list;    /* what is in each good figure */
    bool verbose; /* a line for each good file too */
    bool json;    /* one object a line, for programs */
};

/* What --list says of an accepted figure: how many there are of some things, as "3 meshes". */
enum { MOST_THINGS = 3 };
struct totals {
    struct thing {
        const char *one, *many; /* what it is called */
        unsigned long count;
    } things[MOST_THINGS];
    size_t kinds; /* of things */
};

/* What was found out about one file or folder. */
struct finding {
    enum outcome outcome;
    const char *path;
    const char *label; /* what is said in place of "not checked", or NULL */
    const char *words; /* what is wrong */
    const char *remedy;
    const char *detail;          /* the system's own words, or NULL */
    uint64_t answer;             /* the reader's refusal, or 0 */
    const struct totals *totals; /* of a good figure that is to be listed, or NULL */
};

struct report {
    const struct style *style;
    struct screen *screen;
    size_t job;
    struct grounds grounds;   /* of a sum: the counts only */
    struct result result;     /* once it has ended; of a sum: the worst */
    unsigned long figures;    /* those that the reader accepted or refused */
    struct names near;        /* files that are almost named as figures */
    struct names unknown;     /* files of no known kind that nothing was said about */
    unsigned long folders;    /* 1; the sum of several reports has more */
    unsigned long files;      /* of these, how many are files that were named one by one */
    unsigned long unwell;     /* of a sum: those in which not all is well */
    unsigned long bare;       /* folders with nothing to compare with: structure only */
    unsigned long uncompared; /* folders not compared with the master, which could not be read */
    unsigned long slips;      /* that were written */
    unsigned long slip_files; /* on them */
    unsigned long copied;     /* files that were copied, */
    unsigned long there;      /* and those that were there already */
    unsigned long kept;       /* slips that were to be written, and are there and good */
    unsigned long by_program; /* files that a program which is a file system may hold */
    bool unfinished;
};

void report_start(struct report *report, const struct style *style, struct screen *screen,
                  size_t job);
void report_free(struct report *report);

/* Counts a finding and says it, where it is to be said. */
void report_add(struct report *report, const struct finding *finding);

/* The same, for one that is but words. */
void report_found(struct report *report, enum outcome outcome, const char *path, const char *words,
                  const char *remedy);

/* Something was "not checked" or "not copied", and why. */
void report_trouble(struct report *report, const char *path, const char *label,
                    const struct trouble *trouble);

/* A file that is almost named as a figure, or of no known kind: named in the last lines. Half a
 * slip has a line of its own. */
void report_near(struct report *report, const char *path);
void report_unknown(struct report *report, const char *path);

/* All has been found out: the verdict is decided. */
void report_end(struct report *report);

/* A file was read, from the stick or perhaps from elsewhere. */
void report_medium(struct report *report, enum medium medium);

/* Adds what is in a report that has ended to another. */
void report_join(struct report *sum, const struct report *report);

/* How many things could not be checked. */
unsigned long report_unchecked(const struct report *report);

#endif
