/* Copying an edition to a stick: only what is not there, each file whole or not at all. */
#include "copy.h"

#include <errno.h>
#include <stdlib.h>
#include <string.h>
#include <strings.h>

#include "longpath.h"
#include "reading.h"
#include "slip.h"
#include "stop.h"
#include "target.h"
#include "writing.h"

struct copying {
    const struct edition *edition;
    const char *stick;
    struct report *report;
    struct target target;
    struct text from;
    struct text to;
    uint8_t *block;
    bool unread; /* it was the edition's file that failed */
};

/* Sets the paths of one file in the edition and on the stick. */
static void set_paths(struct copying *copying, const char *name) {
    text_path(&copying->from, copying->edition->folder, name);
    text_path(&copying->to, copying->stick, name);
}

/* Makes a folder, or finds one: a link there would lead the copy away from the stick. */
static bool make_folder(const char *path, struct trouble *trouble) {
    struct stat status;
    if (long_mkdir(path) == 0) {
        int error = write_out_name(path);
        trouble_of_system(trouble, error);
        return error == 0;
    }
    if (errno != EEXIST || long_stat(path, 1, &status) != 0) {
        trouble_of_system(trouble, errno);
        return false;
    }
    if (!S_ISDIR(status.st_mode)) {
        trouble_of_words(trouble,
                         S_ISLNK(status.st_mode)
                             ? "it is a link, and links are not followed"
                             : "it is no folder, and the edition has one of this name",
                         "take it off the stick, and copy again");
        return false;
    }
    return true;
}

/* Makes the folders on the way to a file; the path is cut at one that fails, and is said so. */
static bool make_folders(struct copying *copying, struct trouble *trouble) {
    char *path = copying->to.bytes;
    for (char *at = path + strlen(copying->stick) + 1; *at != '\0'; at++) {
        if (*at == '/') {
            *at = '\0';
            if (!make_folder(path, trouble)) {
                return false;
            }
            *at = '/';
        }
    }
    return true;
}

/* Carries the bytes over. Answers false and says why. */
static bool carry(struct copying *copying, struct reading *reading, struct writing *writing,
                  struct trouble *trouble) {
    size_t length;
    do {
        copying->unread = !reading_block(reading, copying->block, MOST_READ, &length, trouble);
        if (copying->unread || !writing_add(writing, copying->block, length, trouble)) {
            return false;
        }
        screen_share(copying->report->screen, copying->report->job,
                     (struct share){reading->read, reading->size});
        if (stopped()) {
            trouble_of_words(trouble, "stopped by hand", "copy again");
            return false;
        }
    } while (!reading->ended);
    return true;
}

static bool copy_file(struct copying *copying, struct trouble *trouble) {
    struct trouble later;
    struct reading reading;
    struct writing writing;
    bool good;
    if (!make_folders(copying, trouble)) {
        return false;
    }
    copying->unread = !reading_open(&reading, copying->from.bytes, FROM_ANYWHERE, trouble);
    if (copying->unread) {
        return false;
    }
    good = writing_open(&writing, copying->to.bytes, trouble);
    if (good) {
        good =
            carry(copying, &reading, &writing, trouble) && target_stands(&copying->target, trouble);
        good = writing_close(&writing, good, good ? trouble : &later) && good;
    }
    if (!reading_close(&reading, &later) && good) {
        *trouble = later;
        copying->unread = true;
        good = false;
    }
    return good;
}

/*
 * Whether two names of the edition, which stand side by side, are one file on the stick: FAT does
 * not tell letters of either case apart.
 */
static bool are_one(struct copying *copying, size_t file, const struct stat *there) {
    const struct expected *entries = copying->edition->manifest->entries;
    struct text other = {0};
    struct stat status;
    bool one = false;
    if (file > 0 && strcasecmp(entries[file - 1].name, entries[file].name) == 0) {
        text_path(&other, copying->stick, entries[file - 1].name);
        one = long_stat(other.bytes, 1, &status) == 0 && status.st_dev == there->st_dev &&
              status.st_ino == there->st_ino;
    }
    text_free(&other);
    return one;
}

/* What is on the stick already is left alone. */
static bool copy_or_leave(struct copying *copying, size_t file, struct trouble *trouble) {
    struct stat there;
    set_paths(copying, copying->edition->manifest->entries[file].name);
    screen_file(copying->report->screen, copying->report->job, 0);
    if (!target_stands(&copying->target, trouble)) {
        return false;
    }
    if (long_stat(copying->to.bytes, 1, &there) != 0) {
        bool good = copy_file(copying, trouble);
        copying->report->copied += good;
        return good;
    }
    if (are_one(copying, file, &there)) {
        trouble_of_words(trouble, "its name and another are one on this stick",
                         "rename one of them in the edition");
        return false;
    }
    copying->report->there++;
    return true;
}

/* The slip of the edition, or the number of its files where it has none. */
static size_t slip_of(const struct manifest *manifest) {
    size_t slip = 0;
    while (slip < manifest->count && !is_slip(manifest->entries[slip].name)) {
        slip++;
    }
    return slip;
}

/* The bytes that are to be copied, for someone who waits. */
static unsigned long long bytes_to_copy(struct copying *copying) {
    const struct manifest *manifest = copying->edition->manifest;
    unsigned long long bytes = 0;
    for (size_t i = 0; i < manifest->count; i++) {
        struct stat file, there;
        set_paths(copying, manifest->entries[i].name);
        if (long_stat(copying->to.bytes, 1, &there) != 0 &&
            long_stat(copying->from.bytes, 1, &file) == 0) {
            bytes += (unsigned long long)file.st_size;
        }
    }
    return bytes;
}

/* Tells how much there is to do, where anyone looks. */
static void say_how_much(struct copying *copying) {
    struct screen *screen = copying->report->screen;
    screen_begin(screen, copying->report->job, COPYING, copying->edition->manifest->count,
                 screen->progress.wanted ? bytes_to_copy(copying) : 0);
}

static bool copy_all(struct copying *copying, struct trouble *trouble) {
    const struct manifest *manifest = copying->edition->manifest;
    size_t slip = slip_of(manifest);
    bool good = slip == manifest->count || copy_or_leave(copying, slip, trouble);
    for (size_t i = 0; good && i < manifest->count; i++) {
        good = i == slip || copy_or_leave(copying, i, trouble);
    }
    return good;
}

/* Says what failed: a file of the edition, or one on the stick, if that is still there. */
static void say_not_copied(const struct copying *copying, struct trouble *trouble) {
    struct stat status;
    if (copying->unread) {
        trouble_elsewhere(trouble, "the edition's file cannot be read", "check the edition");
    } else if (!trouble->gone && long_stat(copying->stick, 0, &status) != 0 &&
               copying->from.length > 0) {
        trouble_of_stick(trouble);
    }
    copying->report->unfinished = true;
    report_trouble(copying->report, copying->unread ? copying->from.bytes : copying->to.bytes,
                   "not copied", trouble);
}

bool copy_edition(const struct edition *edition, const char *stick, struct report *report) {
    struct copying copying = {.edition = edition, .stick = stick, .report = report};
    struct trouble trouble;
    bool good;
    text_add(&copying.to, stick);
    good = target_open(&copying.target, stick, edition->folder, edition->any_folder, &trouble);
    if (good) {
        copying.block = need_memory(NULL, MOST_READ);
        say_how_much(&copying);
        good = copy_all(&copying, &trouble);
        target_close(&copying.target);
    }
    if (!good) {
        say_not_copied(&copying, &trouble);
    }
    text_free(&copying.from);
    text_free(&copying.to);
    free(copying.block);
    return good;
}
