/*
 * Holds a file in this computer's memory, as a program that shows it does.
 *
 *     hold FILE
 *
 * Says "held" when all of it is there, and keeps it until standard input ends.
 */
#include <fcntl.h>
#include <stdio.h>
#include <sys/mman.h>
#include <sys/stat.h>
#include <unistd.h>

int main(int argc, char **argv) {
    struct stat status;
    volatile unsigned char seen = 0;
    const unsigned char *bytes;
    int file = argc == 2 ? open(argv[1], O_RDONLY) : -1;
    if (file < 0 || fstat(file, &status) != 0) {
        perror("hold");
        return 125;
    }
    bytes = mmap(NULL, (size_t)status.st_size, PROT_READ, MAP_SHARED, file, 0);
    if (bytes == MAP_FAILED) {
        perror("hold");
        return 125;
    }
    for (off_t i = 0; i < status.st_size; i++) {
        seen ^= bytes[i];
    }
    puts("held");
    fflush(stdout);
    while (getchar() != EOF) {
    }
    return 0;
}
