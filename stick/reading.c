/* Reading a file from the stick, once, block by block. */
#include "reading.h"

#include <errno.h>
#include <fcntl.h>
#include <sys/stat.h>
#include <sys/types.h>
#include <unistd.h>

#include "longpath.h"
#include "settle.h"

/* Asked for at a time: faster than all at once, as measured (docs/BENCH.md). */
enum { AT_ONCE = 128 * 1024 };

/* Takes an open file into account. Answers false and says why where it cannot be read. */
static bool begin(struct reading *reading, enum source source, struct trouble *trouble) {
    struct stat status;
    int error;
    if (fstat(reading->file, &status) != 0) {
        trouble_of_system(trouble, errno);
        return false;
    }
    if (!S_ISREG(status.st_mode)) {
        trouble_of_words(trouble, "it is not a file", "see what stands there, and check again");
        return false;
    }
    error = source == FROM_STICK ? settle(reading->file, &status) : 0;
    if (error == EIO || error == ENODEV) {
        trouble_of_system(trouble, error);
        return false;
    }
    reading->medium = error != 0                          ? MEDIUM_MEMORY
                      : source == FROM_ANYWHERE           ? MEDIUM_UNKNOWN
                      : is_held_by_program(reading->file) ? MEDIUM_PROGRAM
                                                          : MEDIUM_STICK;
    reading->size = (unsigned long long)status.st_size;
    return true;
}

bool reading_open(struct reading *reading, const char *path, enum source source,
                  struct trouble *trouble) {
    /* O_NONBLOCK: should a pipe have taken the file's place, opening it must not wait for ever. */
    *reading = (struct reading){
        .file = long_open(path, O_RDONLY | O_NOFOLLOW | O_CLOEXEC | O_NOCTTY | O_NONBLOCK)};
    if (reading->file < 0) {
        trouble_of_system(trouble, errno);
        return false;
    }
    if (!begin(reading, source, trouble)) {
        close(reading->file);
        return false;
    }
    return true;
}

bool reading_block(struct reading *reading, uint8_t *block, size_t room, size_t *length,
                   struct trouble *trouble) {
    *length = 0;
    while (*length < room) {
        size_t left = room - *length;
        ssize_t more = read(reading->file, block + *length, left < AT_ONCE ? left : AT_ONCE);
        if (more > 0) {
            *length += (size_t)more;
            reading->read += (size_t)more;
        } else if (more == 0) {
            reading->ended = true;
            break;
        } else if (errno != EINTR) {
            trouble_of_system(trouble, errno);
            return false;
        }
    }
    return true;
}

bool reading_close(struct reading *reading, struct trouble *trouble) {
    unsigned long long size = reading->size, read = reading->read;
    close(reading->file);
    /* A figure that is too long is read no further than to see that. */
    if (reading->ended ? read != size : read > size) {
        trouble_of_size(trouble, size, read);
        return false;
    }
    return true;
}
