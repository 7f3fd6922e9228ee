/* The place at which the sticks of a batch are put in: whether one is there, and which one. */
#include "place.h"

#include <string.h>
#include <sys/stat.h>

#include "folder.h"
#include "longpath.h"
#include "volume.h"

static bool is_empty(const char *path) {
    struct folder names;
    bool empty = folder_read(&names, path, true) == 0 && names.count == 0;
    folder_free(&names);
    return empty;
}

/* Whether a file system begins at the folder. */
static bool is_mounted(const char *folder, dev_t device) {
    struct text above = {0};
    struct stat around;
    bool mounted;
    text_format(&above, "%s/..", folder);
    mounted = long_stat(above.bytes, 0, &around) == 0 && around.st_dev != device;
    text_free(&above);
    return mounted;
}

static bool is_folder(const struct place *place, struct stat *status) {
    return long_stat(place->folder, 0, status) == 0 && S_ISDIR(status->st_mode);
}

/* The name of a file system, or of a folder that stands for a stick. */
static void set_name(struct place *place, bool mounted) {
    text_cut(&place->name, 0);
    if (mounted) {
        add_volume_name(&place->name, place->device, VOLUMES_BY_NAME);
    } else {
        text_format(&place->name, "folder %llu", (unsigned long long)place->number);
    }
}

bool place_look(struct place *place) {
    struct stat status;
    bool mounted, in;
    if (!is_folder(place, &status)) {
        return false;
    }
    if (place->any_folder) {
        mounted = is_mounted(place->folder, status.st_dev);
        in = mounted || (!place->mounted_before && !is_empty(place->folder));
    } else {
        mounted = volume_of(place->folder, place->edition) == VOLUME_STICK;
        in = mounted;
    }
    if (in) {
        place->device = status.st_dev;
        place->number = status.st_ino;
        place->mounted_before = place->mounted_before || mounted;
        set_name(place, mounted);
    }
    return in;
}

bool place_holds(const struct place *place) {
    struct place now = *place;
    bool holds;
    now.name = (struct text){0};
    holds = place_look(&now) && now.device == place->device && now.number == place->number &&
            strcmp(now.name.bytes, place->name.bytes) == 0;
    place_free(&now);
    return holds;
}

bool place_misleads(const struct place *place) {
    struct stat status;
    return is_folder(place, &status) && !is_empty(place->folder);
}

void place_free(struct place *place) {
    text_free(&place->name);
}
