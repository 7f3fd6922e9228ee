/* Mistakes in the command line. */
#ifndef STICK_MISTAKES_H
#define STICK_MISTAKES_H

#include "options.h"

/* Says one that has to do with one word of it; the task is then TASK_MISTAKE. */
void mistake(struct options *options, const char *before, const char *word, const char *behind);

/* Looks for those that only the whole of it tells; it has so many words. */
void options_judge(struct options *options, int words);

#endif
