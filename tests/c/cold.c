/*
 * Takes a file out of this computer's memory, as if the stick had just been put in.
 *
 *     cold FILE
 *
 * The exit status is 0 where the system then says that none of it is in memory, and 125 where it
 * does not, or cannot be asked.
 */
#include <errno.h>
#include <fcntl.h>
#include <stdint.h>
#include <stdio.h>
#include <string.h>
#include <sys/stat.h>
#include <sys/sysmacros.h>
#include <unistd.h>

enum { CACHESTAT = 451 }; /* the number of the call: not all headers have it */

static int cannot(const char *why) {
    fprintf(stderr, "cold: %s\n", why);
    return 125;
}

int main(int argc, char **argv) {
    const uint64_t all_of_it[2] = {0, 0};
    uint64_t pages[5] = {0};
    struct stat status;
    int file = argc == 2 ? open(argv[1], O_RDONLY) : -1;
    if (file < 0 || fstat(file, &status) != 0 || fdatasync(file) != 0 ||
        posix_fadvise(file, 0, 0, POSIX_FADV_DONTNEED) != 0) {
        return cannot(strerror(errno));
    }
    if (major(status.st_dev) == 0) {
        return cannot("there is no device behind this folder");
    }
    if (syscall(CACHESTAT, file, all_of_it, pages, 0) != 0) {
        return cannot("the system does not tell what is in memory");
    }
    return pages[0] == 0 ? 0 : cannot("it is still in memory");
}
