/* Writing out names that come from a stick, which may hold any bytes. */
#ifndef STICK_ESCAPE_H
#define STICK_ESCAPE_H

#include "text.h"

/*
 * Adds a name that stays on one line, whatever is in it. Readable characters of UTF-8 stay as they
 * are; a backslash is doubled; all other bytes (control characters, characters that change the
 * direction of writing, end a line or cannot be seen, bytes that are no UTF-8) become \xHH. So two
 * names that look alike are alike. An empty name becomes '', so that it is seen.
 */
void text_escaped(struct text *text, const char *name);

#endif
