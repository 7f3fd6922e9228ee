/* The file system that a folder stands on: whether it can be a stick, and which one it is. */
#ifndef STICK_VOLUME_H
#define STICK_VOLUME_H

#include <sys/types.h>

#include "text.h"

/* Where this computer has its disks by their numbers, and its file systems by their names. */
#define DISKS_BY_NUMBER "/sys/dev/block"
#define VOLUMES_BY_NAME "/dev/disk/by-uuid"

enum volume {
    VOLUME_UNKNOWN,     /* the folder could not be looked at */
    VOLUME_STICK,       /* on a disk of its own */
    VOLUME_OF_COMPUTER, /* on the disk that this computer itself is on */
    VOLUME_OF_EDITION,  /* on the disk of the edition */
    VOLUME_NO_DISK      /* in memory, on a network or the like */
};

/* What a folder stands on; the edition may be NULL. */
enum volume volume_of(const char *folder, const char *edition);

/* The whole disk that a device is a part of, or the device itself, by the folder of disks. */
dev_t disk_of(dev_t device, const char *disks);

/* Adds the name of the file system on a device, by the folder of volumes; nothing if it has none.
 */
void add_volume_name(struct text *name, dev_t device, const char *volumes);

#endif
