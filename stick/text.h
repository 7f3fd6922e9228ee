/* A text that grows as needed: paths have no longest length. */
#ifndef STICK_TEXT_H
#define STICK_TEXT_H

#include <stddef.h>

struct text {
    char *bytes; /* ends with a zero once something was added */
    size_t length;
    size_t room;
};

/* Memory of this size, the old contents kept; without memory the program ends with a clear line. */
void *need_memory(void *old, size_t size);

/* A copy of a string, in memory of its own. */
char *need_copy(const char *string);

void text_add(struct text *text, const char *more);
void text_add_bytes(struct text *text, const char *more, size_t length);
/* Makes it the path of a name in a folder, whether or not the folder's own ends with a slash. */
void text_path(struct text *text, const char *folder, const char *name);

void text_cut(struct text *text, size_t length);
void text_free(struct text *text);

/* As printf, at the end of the text. */
#ifdef __GNUC__
__attribute__((format(printf, 2, 3)))
#endif
void text_format(struct text *text, const char *format, ...);

#endif
