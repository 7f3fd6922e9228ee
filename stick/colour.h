/* The colours of verdicts, on terminals. */
#ifndef STICK_COLOUR_H
#define STICK_COLOUR_H

#include <stdbool.h>

#include "decide.h"

#define COLOUR_ENDS "\033[0m"

/* Whether an open file is a terminal that has colours, and they are wanted. */
bool in_colour(int file);

/* What turns the colour of a verdict on. */
const char *colour_of(enum verdict verdict);

#endif
