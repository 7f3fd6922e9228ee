/* One JSON object a line, for programs that read what was found. */
#ifndef STICK_JSON_H
#define STICK_JSON_H

#include "text.h"

void json_begin(struct text *line);
void json_end(struct text *line);

/* A key with a string; nothing where there is none (NULL or empty). */
void json_string(struct text *line, const char *key, const char *string);

/* A key with a path, escaped as in the plain lines, so that it is UTF-8 whatever is in it. */
void json_path(struct text *line, const char *key, const char *path);

void json_number(struct text *line, const char *key, unsigned long number);

#endif
