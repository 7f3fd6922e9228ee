/*
 * Reading the medium, not the memory: just after copying, this computer has all figures in its own
 * memory, and a bit that was turned on the way to the stick would not be seen.
 */
#define _GNU_SOURCE /* mincore, syscall, SEEK_DATA */
#include "settle.h"

#include <errno.h>
#include <fcntl.h>
#include <stdbool.h>
#include <stddef.h>
#include <stdint.h>
#include <sys/mman.h>
#include <sys/statvfs.h>
#include <sys/syscall.h>
#include <sys/sysmacros.h>
#include <sys/vfs.h>
#include <time.h>
#include <unistd.h>

#ifndef SYS_cachestat
#define SYS_cachestat 451 /* Linux 6.5; older headers do not have it */
#endif

enum { PAGES = 4096 };      /* asked about at a time */
enum { MORE_TRIES = 9 };    /* one that only reads the file is soon done with it */
enum { FUSE = 0x65735546 }; /* the kind of a file system that is a program */

/*
 * The system tells of its memory only to the owner of a file, and to others that all of it is in
 * use. Behind no device there is no medium that could differ from it.
 */
static bool can_be_asked(const struct stat *status) {
    return major(status->st_dev) != 0 && (geteuid() == 0 || geteuid() == status->st_uid);
}

bool is_held_by_program(int file) {
    struct statfs system;
    return fstatfs(file, &system) != 0 ||
           (system.f_type == FUSE && (system.f_flags & ST_RDONLY) == 0);
}

/*
 * Whether the system says that no page of the file is in memory. What waits to be written is in
 * memory too: so then there is nothing to write out and nothing to drop.
 *
 * mincore cannot be asked this: it leaves out pages that are known in part, and of a file just
 * copied that is the last one, wherever blocks are smaller than pages; a small file has no other.
 * A file system that is a program may hold what waits where the file's pages do not show it.
 */
static bool none_is_held(int file, const struct stat *status) {
    const uint64_t all_of_it[2] = {0, 0};
    uint64_t pages[5] = {0}; /* in memory, to be written, being written, and two that were */
    struct statfs system;
    return major(status->st_dev) != 0 && fstatfs(file, &system) == 0 && system.f_type != FUSE &&
           syscall(SYS_cachestat, file, all_of_it, pages, 0) == 0 &&
           pages[0] + pages[1] + pages[2] == 0;
}

/* Whether any of these pages is in memory. (PROT_NONE: nothing is to be read by asking.) */
static bool piece_is_held(int file, off_t from, size_t length) {
    unsigned char pages[PAGES] = {0};
    void *piece = mmap(NULL, length, PROT_NONE, MAP_SHARED, file, from);
    bool held = false;
    if (piece == MAP_FAILED) {
        return false;
    }
    if (mincore(piece, length, pages) == 0) {
        for (size_t i = 0; i < PAGES; i++) {
            held = held || (pages[i] & 1) != 0;
        }
    }
    munmap(piece, length);
    return held;
}

/* Where the next bytes stand that are on the medium, at a page: a file may be almost all holes, and
 * so long that asking about each of them takes for ever. */
static off_t next_data(int file, off_t from) {
    off_t data = lseek(file, from, SEEK_DATA);
    return data < 0 ? (errno == ENXIO ? -1 : from) : data - data % sysconf(_SC_PAGESIZE);
}

/* What another program uses at the same time stays in memory, and dropping it is no error. */
static bool is_held(int file, const struct stat *status) {
    off_t most = (off_t)PAGES * sysconf(_SC_PAGESIZE), from;
    bool held = false;
    if (!can_be_asked(status)) {
        return false;
    }
    for (from = next_data(file, 0); from >= 0 && from < status->st_size && !held;
         from = next_data(file, from + most)) {
        off_t left = status->st_size - from;
        held = piece_is_held(file, from, (size_t)(left < most ? left : most));
    }
    return lseek(file, 0, SEEK_SET) != 0 || held;
}

/* What is not written out cannot be dropped. */
static int write_out(int file) {
    int error;
    do {
        error = fdatasync(file) == 0 ? 0 : errno;
    } while (error == EINTR);
    /* then nothing can be waiting to be written there */
    return error == EROFS || error == EINVAL ? 0 : error;
}

/* Answers 0, or the error for which it stays in memory. */
static int drop(int file, const struct stat *status) {
    int error = posix_fadvise(file, 0, 0, POSIX_FADV_DONTNEED);
    return error == 0 && is_held(file, status) ? EBUSY : error;
}

int settle(int file, const struct stat *status) {
    int error;
    if (none_is_held(file, status)) {
        return 0;
    }
    error = write_out(file);
    if (error == 0) {
        error = drop(file, status);
    }
    for (int i = 0; i < MORE_TRIES && error == EBUSY; i++) {
        const struct timespec pause = {.tv_nsec = 1000 * 1000};
        nanosleep(&pause, NULL);
        error = drop(file, status);
    }
    return error;
}
