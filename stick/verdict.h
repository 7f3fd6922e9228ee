/* The last lines: PASS, STRUCTURE ONLY or DO NOT SEAL, how many, and what was not covered. */
#ifndef STICK_VERDICT_H
#define STICK_VERDICT_H

#include "report.h"

/* The word itself; as it is added to a line it has its colour. Answers how many columns it takes.
 */
const char *verdict_word(enum verdict verdict);
size_t add_verdict_word(struct text *line, enum verdict verdict);

/* The verdict on one of several folders, as a line of its job. */
void verdict_of_folder(struct report *report, const char *folder);

/* The last lines of all. Answers the verdict and the exit status. */
struct result verdict_of_all(struct report *sum, double seconds);

/* Whether all lines went out; else that is said. */
bool output_is_whole(void);

#endif
