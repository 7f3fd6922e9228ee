/*
 * Asks what the bench tool takes a device for, by folders that a test has made.
 *
 *     volume disk MAJOR MINOR FOLDER    prints the whole disk, as 8:16
 *     volume name MAJOR MINOR FOLDER    prints the name of the file system on it
 *     volume of FOLDER [EDITION]        prints the number of what the folder stands on
 */
#include "../../stick/volume.h"

#include <stdio.h>
#include <stdlib.h>
#include <string.h>
#include <sys/sysmacros.h>

static dev_t device_in(char **words) {
    return makedev((unsigned)atoi(words[0]), (unsigned)atoi(words[1]));
}

int main(int argc, char **argv) {
    struct text name = {0};
    if (argc == 5 && strcmp(argv[1], "disk") == 0) {
        dev_t disk = disk_of(device_in(argv + 2), argv[4]);
        printf("%u:%u\n", major(disk), minor(disk));
    } else if (argc == 5 && strcmp(argv[1], "name") == 0) {
        text_add(&name, "name: ");
        add_volume_name(&name, device_in(argv + 2), argv[4]);
        printf("%s\n", name.bytes);
    } else if ((argc == 3 || argc == 4) && strcmp(argv[1], "of") == 0) {
        printf("%d\n", volume_of(argv[2], argv[3]));
    } else {
        return 125;
    }
    text_free(&name);
    return 0;
}
