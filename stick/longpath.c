/* The system takes only paths up to some length at once; longer ones are walked piece by piece. */
#define _GNU_SOURCE /* renameat2 */
#include "longpath.h"

#include <errno.h>
#include <fcntl.h>
#include <stdbool.h>
#include <stdio.h> /* renameat, renameat2 */
#include <string.h>
#include <unistd.h>

#include "text.h"

enum { PIECE = 1000 }; /* every system takes this much; no single name in a path is so long */

static void close_quietly(int folder) {
    int error = errno;
    if (folder >= 0) { /* AT_FDCWD is below 0 */
        close(folder);
    }
    errno = error;
}

/* Opens the folder that the next piece of a path leads to, and closes the one it starts from. */
static int next_folder(int folder, const char *path, size_t length) {
    char piece[PIECE + 1];
    int next;
    memcpy(piece, path, length);
    piece[length] = '\0';
    next = openat(folder, piece, O_RDONLY | O_DIRECTORY | O_CLOEXEC);
    close_quietly(folder);
    return next;
}

/* The length of the longest piece of a path that ends with a slash; 0 if there is none. */
static size_t piece_of(const char *path) {
    size_t length = PIECE;
    while (length > 0 && path[length - 1] != '/') {
        length--;
    }
    return length;
}

/*
 * Opens the folder from which the last piece of a path is to be looked up, and moves the path on to
 * that piece. Answers AT_FDCWD for a short path, and -1 if a folder on the way cannot be opened.
 */
static int folder_of(const char **path) {
    int folder = AT_FDCWD;
    while (strlen(*path) > PIECE) {
        size_t length = piece_of(*path);
        if (length == 0) {
            break; /* a single name too long for any system, which will say so itself */
        }
        folder = next_folder(folder, *path, length);
        if (folder < 0) {
            return -1;
        }
        *path += length + strspn(*path + length, "/");
    }
    return folder;
}

/* What is left of a long path may be nothing, when it ended with slashes: then the folder is meant.
 */
static const char *last_piece(int folder, const char *path) {
    return folder != AT_FDCWD && *path == '\0' ? "." : path;
}

/* The last piece of a path, and the folder that it is to be looked up in. */
struct place {
    int folder;
    const char *name;
};

/* Answers whether the place could be found; then it is to be left again. */
static bool find_place(struct place *place, const char *path) {
    place->folder = folder_of(&path);
    place->name = last_piece(place->folder, path);
    return place->folder != -1;
}

static int leave_place(struct place *place, int result) {
    close_quietly(place->folder);
    return result;
}

int long_open(const char *path, int flags) {
    struct place at;
    return find_place(&at, path) ? leave_place(&at, openat(at.folder, at.name, flags)) : -1;
}

int long_create(const char *path) {
    const int flags = O_WRONLY | O_CREAT | O_EXCL | O_NOFOLLOW | O_CLOEXEC;
    struct place at;
    return find_place(&at, path) ? leave_place(&at, openat(at.folder, at.name, flags, 0666)) : -1;
}

int long_stat(const char *path, int link, struct stat *status) {
    const int flags = link ? AT_SYMLINK_NOFOLLOW : 0;
    struct place at;
    return find_place(&at, path) ? leave_place(&at, fstatat(at.folder, at.name, status, flags))
                                 : -1;
}

static bool same(const struct stat *one, const struct stat *other) {
    return one->st_dev == other->st_dev && one->st_ino == other->st_ino;
}

bool long_same_folder(const char *one, const char *other) {
    struct stat first, second;
    return long_stat(one, 0, &first) == 0 && long_stat(other, 0, &second) == 0 &&
           S_ISDIR(first.st_mode) && same(&first, &second);
}

bool long_lies_in(const char *inner, const char *outer) {
    struct stat wanted, at = {0}, before = {0};
    struct text path = {0};
    bool found = false, top = long_stat(outer, 0, &wanted) != 0;
    text_add(&path, inner);
    while (!found && !top) { /* above the topmost folder is that folder again */
        top = long_stat(path.bytes, 0, &at) != 0 || same(&at, &before);
        found = !top && same(&at, &wanted);
        before = at;
        text_add(&path, "/..");
    }
    text_free(&path);
    return found;
}

int long_mkdir(const char *path) {
    struct place at;
    return find_place(&at, path) ? leave_place(&at, mkdirat(at.folder, at.name, 0777)) : -1;
}

int long_unlink(const char *path) {
    struct place at;
    return find_place(&at, path) ? leave_place(&at, unlinkat(at.folder, at.name, 0)) : -1;
}

/* What stands at the new place already is not taken away, where the file system can promise that.
 */
static int rename_at(const struct place *old, const struct place *new) {
    int result = renameat2(old->folder, old->name, new->folder, new->name, RENAME_NOREPLACE);
    return result == 0 || (errno != EINVAL && errno != ENOSYS)
               ? result
               : renameat(old->folder, old->name, new->folder, new->name);
}

int long_rename(const char *from, const char *to) {
    struct place old, new;
    int result;
    if (!find_place(&old, from)) {
        return -1;
    }
    result = find_place(&new, to) ? leave_place(&new, rename_at(&old, &new)) : -1;
    return leave_place(&old, result);
}
