/* The names in a folder, sorted, so that two checks of one stick say the same in the same order. */
#include "folder.h"

#include <dirent.h>
#include <errno.h>
#include <fcntl.h>
#include <stdlib.h>
#include <string.h>
#include <unistd.h>

#include "longpath.h"
#include "text.h"

static void add_name(struct folder *folder, const char *name) {
    if (strcmp(name, ".") == 0 || strcmp(name, "..") == 0) {
        return;
    }
    if (folder->count == folder->room) {
        folder->room = 2 * folder->room + 16;
        folder->names = need_memory(folder->names, folder->room * sizeof *folder->names);
    }
    folder->names[folder->count] = need_copy(name);
    folder->count++;
}

static int by_bytes(const void *left, const void *right) {
    return strcmp(*(char *const *)left, *(char *const *)right);
}

/* Answers 0, or the error that kept it from the rest of the names. */
static int read_names(struct folder *folder, DIR *stream) {
    for (;;) {
        struct dirent *entry;
        errno = 0;
        entry = readdir(stream);
        if (entry == NULL) {
            return errno;
        }
        add_name(folder, entry->d_name);
    }
}

int folder_read(struct folder *folder, const char *path, bool follow_link) {
    int follow = follow_link ? 0 : O_NOFOLLOW;
    int file = long_open(path, O_RDONLY | O_DIRECTORY | O_CLOEXEC | follow);
    DIR *stream = file < 0 ? NULL : fdopendir(file);
    int error = errno;
    *folder = (struct folder){0};
    if (stream == NULL) {
        if (file >= 0) {
            close(file);
        }
        return error;
    }
    error = read_names(folder, stream);
    closedir(stream);
    if (folder->count > 0) {
        qsort(folder->names, folder->count, sizeof *folder->names, by_bytes);
    }
    return error;
}

void folder_free(struct folder *folder) {
    for (size_t i = 0; i < folder->count; i++) {
        free(folder->names[i]);
    }
    free(folder->names);
    *folder = (struct folder){0};
}
