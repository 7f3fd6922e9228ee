/* Where a file stands on its stick: the top of that has a slip, or is where it is mounted. */
#define _XOPEN_SOURCE 700 /* realpath */
#include "top.h"

#include <stdbool.h>
#include <stdlib.h>
#include <string.h>

#include "longpath.h"
#include "slip.h"

/* Whether a folder has a slip, or another device than the folder around it. */
static bool is_top(const char *folder) {
    struct text path = {0};
    struct stat slip, own, around;
    bool has_slip, mounted;
    text_path(&path, folder, SLIP_NAME);
    has_slip = long_stat(path.bytes, 1, &slip) == 0 && S_ISREG(slip.st_mode);
    text_path(&path, folder, "..");
    mounted = long_stat(folder, 0, &own) == 0 && long_stat(path.bytes, 0, &around) == 0 &&
              own.st_dev != around.st_dev;
    text_free(&path);
    return has_slip || mounted;
}

char *path_from_top(const char *path) {
    char *whole = realpath(path, NULL), *below = NULL;
    char *slash = whole == NULL ? NULL : strrchr(whole, '/');
    while (slash != NULL && slash != whole && below == NULL) {
        *slash = '\0';
        below = is_top(whole) ? need_copy(slash + 1) : NULL;
        char *up = strrchr(whole, '/');
        *slash = '/';
        slash = up;
    }
    free(whole);
    return below;
}
