/*
 * The file system that a folder stands on. Where no stick is mounted at a folder, the folder is
 * still there, on the disk of this computer: what is written to it is on no stick.
 */
#define _DEFAULT_SOURCE /* makedev */
#include "volume.h"

#include <stdbool.h>
#include <stdio.h>
#include <stdlib.h>
#include <sys/stat.h>
#include <sys/sysmacros.h>

#include "folder.h"
#include "longpath.h"

/* The number that stands in a file as 8:16; 0 where there is none. */
static dev_t number_in(const char *path) {
    unsigned high = 0, low = 0;
    FILE *file = fopen(path, "re");
    bool known = file != NULL && fscanf(file, "%u:%u", &high, &low) == 2;
    if (file != NULL) {
        fclose(file);
    }
    return known ? makedev(high, low) : 0;
}

dev_t disk_of(dev_t device, const char *disks) {
    struct text path = {0};
    struct stat status;
    dev_t whole = 0;
    text_format(&path, "%s/%u:%u", disks, major(device), minor(device));
    text_add(&path, "/partition");
    if (stat(path.bytes, &status) == 0) { /* the folder around it is the disk's */
        text_cut(&path, path.length - (sizeof "/partition" - 1));
        text_add(&path, "/../dev");
        whole = number_in(path.bytes);
    }
    text_free(&path);
    return whole == 0 ? device : whole;
}

static bool same_disk(dev_t device, const char *folder) {
    struct stat status;
    return folder != NULL && stat(folder, &status) == 0 &&
           disk_of(status.st_dev, DISKS_BY_NUMBER) == disk_of(device, DISKS_BY_NUMBER);
}

/* Whether a device is on a disk that the system, or whoever is at work, has their own files on. */
static bool is_of_computer(dev_t device) {
    static const char *const own[] = {"/", "/boot", "/home", "/tmp", "/usr", "/var"};
    bool same = same_disk(device, getenv("HOME"));
    for (size_t i = 0; i < sizeof own / sizeof own[0]; i++) {
        same = same || same_disk(device, own[i]);
    }
    return same;
}

enum volume volume_of(const char *folder, const char *edition) {
    struct stat status;
    if (long_stat(folder, 0, &status) != 0) {
        return VOLUME_UNKNOWN;
    }
    if (is_of_computer(status.st_dev)) {
        return VOLUME_OF_COMPUTER;
    }
    if (same_disk(status.st_dev, edition)) {
        return VOLUME_OF_EDITION;
    }
    return major(status.st_dev) == 0 ? VOLUME_NO_DISK : VOLUME_STICK;
}

void add_volume_name(struct text *name, dev_t device, const char *volumes) {
    struct text path = {0};
    struct folder links;
    bool found = false;
    folder_read(&links, volumes, true);
    for (size_t i = 0; i < links.count && !found; i++) {
        struct stat status;
        text_path(&path, volumes, links.names[i]);
        found =
            stat(path.bytes, &status) == 0 && S_ISBLK(status.st_mode) && status.st_rdev == device;
        if (found) {
            text_add(name, links.names[i]);
        }
    }
    text_free(&path);
    folder_free(&links);
}
