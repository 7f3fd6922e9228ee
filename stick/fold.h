/* Lines that fit on a terminal. */
#ifndef STICK_FOLD_H
#define STICK_FOLD_H

#include "text.h"

/*
 * Adds words to a line that has so many columns already, and ends it. What stands behind a
 * semicolon is a line of its own, set in by two; what would go beyond 80 columns goes on behind a
 * comma or a colon in the next line, set in by four.
 */
void add_folded(struct text *lines, size_t column, const char *words);

#endif
