/* The library's judgement of a stick: PASS needs it, beside what the tool itself finds. */
#ifndef STICK_JUDGING_H
#define STICK_JUDGING_H

#include "evidence.h"
#include "manifest.h"
#include "slip.h"

/* What was gathered on the walk of one folder. */
struct gathered {
    const char *root;
    const struct evidence *evidence;
    const struct manifest *master;   /* all that must be there, or NULL */
    const struct manifest *compared; /* the master's files, as they were read */
    const struct slip *slip;
    bool unlike_slip; /* the tool found a file that is not as the slip says */
};

/* Takes the judgement into the grounds of the report. Where the tool and the library disagree, that
 * is said. Comes behind all other findings. */
void judge_gathered(const struct gathered *gathered, struct report *report);

#endif
