/* The names in a folder, in a fixed order. */
#ifndef STICK_FOLDER_H
#define STICK_FOLDER_H

#include <stdbool.h>
#include <stddef.h>

struct folder {
    char **names; /* without . and .., in the order of their bytes */
    size_t count;
    size_t room;
};

/*
 * Reads the names; answers 0 or the system's error, and then has those that could be read. A link
 * to a folder is an error unless it may be followed.
 */
int folder_read(struct folder *folder, const char *path, bool follow_link);
void folder_free(struct folder *folder);

#endif
