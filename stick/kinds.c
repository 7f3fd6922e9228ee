/* What a name on a stick stands for: the one place that knows what other computers leave. */
#include "kinds.h"

#include <stddef.h>
#include <string.h>
#include <strings.h>

#include "formats.h"
#include "slip.h"
#include "writing.h"

/* Files and folders that other computers put on every stick they see. */
static const char *const left_behind[] = {
    ".DS_Store",
    ".Trashes",
    ".Spotlight-V100",
    ".fseventsd",
    ".apdisk",
    ".TemporaryItems",
    ".AppleDouble",
    ".DocumentRevisions-V100",
    ".VolumeIcon.icns",
    ".metadata_never_index",
    "Icon\r",
    "Thumbs.db",
    "ehthumbs.db",
    "desktop.ini",
    "autorun.inf",
    "$RECYCLE.BIN",
    "RECYCLER",
    "System Volume Information",
    "IndexerVolumeGuid",
    "LOST.DIR",
    ".android_secure",
    ".directory",
};
#define COUNT(row) (sizeof(row) / sizeof((row)[0]))

const char *last_name(const char *path) {
    const char *name = path;
    for (const char *at = path; *at != '\0'; at++) {
        if (at[0] == '/' && at[1] != '/' && at[1] != '\0') {
            name = at + 1;
        }
    }
    return name;
}

static bool is_left_behind(const char *name) {
    if (strncmp(name, "._", 2) == 0 || strncmp(name, ".Trash-", 7) == 0) {
        return true;
    }
    for (size_t i = 0; i < COUNT(left_behind); i++) {
        if (strcasecmp(name, left_behind[i]) == 0) {
            return true;
        }
    }
    return false;
}

bool is_half_slip(const char *path) {
    static const char part[] = SLIP_NAME PART_ENDING;
    const size_t length = sizeof part - 1;
    const char *name = last_name(path);
    return strncasecmp(name, part, length) == 0 &&
           name[length + strspn(name + length, "0123456789")] == '\0';
}

/* With a letter behind it, the ending would be part of another word. The last is what a stick
 * makes of the name where it keeps none of more than eight and three letters: STICK~1.SLI. */
bool is_near_slip(const char *path) {
    const char *name = last_name(path);
    size_t length = strlen(name);
    return name_holds(name, ".slip") || (length >= 4 && strcasecmp(name + length - 4, ".sli") == 0);
}

enum kind kind_of(const char *path) {
    const char *name = last_name(path);
    const struct format *format = format_of(name);
    if (is_left_behind(name)) {
        return KIND_LEFT_BEHIND;
    }
    if (format != NULL) {
        return KIND_FIGURE;
    }
    return format_near(name) != NULL || is_half_slip(path) ? KIND_NEAR_FIGURE : KIND_OTHER;
}
