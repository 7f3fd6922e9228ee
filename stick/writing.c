/*
 * Writing a new file, whole or not at all: under the name x.part first, which nobody takes for a
 * figure, should the stick be drawn out meanwhile.
 */
#include "writing.h"

#include <errno.h>
#include <fcntl.h>
#include <string.h>
#include <unistd.h>

#include "longpath.h"

enum {
    MOST_PARTS = 100, /* parts of earlier tries that may be there; they are left alone */
    CUT = 8           /* characters: room for the ending, and a number behind it */
};

/* A name without its first characters, none of which is cut in two. */
static const char *without_start(const char *name) {
    int begun = 0;
    for (; *name != '\0'; name++) {
        begun += ((unsigned char)*name & 0xC0) != 0x80;
        if (begun > CUT) {
            break;
        }
    }
    return name;
}

/* Sets the name of a part. Where a name is so long that it takes no ending, it loses its start: the
 * end tells what it is. */
static void set_part(struct writing *writing, bool cut, int number) {
    const char *slash = strrchr(writing->path, '/');
    const char *name = slash == NULL ? writing->path : slash + 1;
    text_cut(&writing->part, 0);
    text_add_bytes(&writing->part, writing->path, (size_t)(name - writing->path));
    text_add(&writing->part, cut ? without_start(name) : name);
    text_add(&writing->part, PART_ENDING);
    if (number > 0) {
        text_format(&writing->part, "%d", number);
    }
}

/* Begins a part of the first name that is free; errno says why there is none. */
static void begin(struct writing *writing, bool cut) {
    errno = EEXIST;
    for (int i = 0; i < MOST_PARTS && writing->file < 0 && errno == EEXIST; i++) {
        set_part(writing, cut, i);
        writing->file = long_create(writing->part.bytes);
    }
}

bool writing_open(struct writing *writing, const char *path, struct trouble *trouble) {
    *writing = (struct writing){.file = -1, .path = path};
    begin(writing, false);
    if (writing->file < 0 && errno == ENAMETOOLONG) {
        begin(writing, true);
    }
    if (writing->file < 0) {
        trouble_of_system(trouble, errno);
        text_free(&writing->part);
    }
    return writing->file >= 0;
}

bool writing_add(struct writing *writing, const uint8_t *bytes, size_t length,
                 struct trouble *trouble) {
    size_t done = 0;
    while (done < length) {
        ssize_t more = write(writing->file, bytes + done, length - done);
        if (more > 0) {
            done += (size_t)more;
        } else if (more == 0 || errno != EINTR) {
            trouble_of_system(trouble, more == 0 ? ENOSPC : errno);
            return false;
        }
    }
    return true;
}

int write_out_name(const char *path) {
    struct text folder = {0};
    const char *slash = strrchr(path, '/');
    int error = 0, file;
    text_add_bytes(&folder, slash == NULL ? "." : path,
                   slash == NULL ? 1 : (size_t)(slash - path) + 1);
    file = long_open(folder.bytes, O_RDONLY | O_DIRECTORY | O_CLOEXEC);
    if (file < 0 || (fsync(file) != 0 && errno != EINVAL)) {
        error = errno;
    }
    if (file >= 0) {
        close(file);
    }
    text_free(&folder);
    return error;
}

/* Gives the whole file its name. Answers 0 or the system's error. */
static int give_name(struct writing *writing) {
    struct stat status;
    int error;
    if (long_stat(writing->path, 1, &status) == 0) {
        return EEXIST; /* renaming would take away what stands there */
    }
    if (long_rename(writing->part.bytes, writing->path) != 0) {
        return errno;
    }
    error = write_out_name(writing->path);
    if (error != 0) {
        long_unlink(writing->path); /* our own, and it may not be there on another computer */
    }
    return error;
}

bool writing_close(struct writing *writing, bool good, struct trouble *trouble) {
    int error = good && fdatasync(writing->file) != 0 ? errno : 0;
    if (close(writing->file) != 0 && error == 0) {
        error = errno;
    }
    if (good && error == 0) {
        error = give_name(writing);
    }
    if (good && error != 0) {
        trouble_of_system(trouble, error);
    }
    if (!good || error != 0) {
        long_unlink(writing->part.bytes); /* our own, and not whole */
    }
    text_free(&writing->part);
    return good && error == 0;
}
