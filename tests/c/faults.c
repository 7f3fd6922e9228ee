/*
 * Makes calls to the system fail, in a program that knows nothing of it (LD_PRELOAD).
 *
 *     FAULT=CALL:ERROR:PATH[:COUNT]
 *
 * CALL (create, open, stat, read, write, readdir, fdatasync, fsync, fadvise) fails with the error
 * of this number on every file whose path holds PATH, after COUNT calls that go well; where COUNT
 * is below 0, so many calls fail, and the others go well. So a stick can be drawn out, or be full,
 * at a moment that no luck is needed for. FAULT_TOLD names a file that is there once one failed.
 * For the CALL "come", and any number but 0, a file comes to stand there just before another is
 * given its name. For the CALL "stop" the program gets the signal of this number just before it
 * writes. For the CALL "fuse" the file lies on a file system that is a program, and that is mounted
 * read-only where the number is 2.
 */
#include <dirent.h>
#include <dlfcn.h>
#include <errno.h>
#include <fcntl.h>
#include <limits.h>
#include <signal.h>
#include <stdarg.h>
#include <stdatomic.h>
#include <stdio.h>
#include <stdlib.h>
#include <string.h>
#include <sys/stat.h>
#include <sys/statvfs.h>
#include <sys/syscall.h>
#include <sys/vfs.h>
#include <unistd.h>

static atomic_long calls;

/* The path of an open file; empty if it has none. */
static void path_of(int file, char *path, size_t size) {
    char link[64];
    ssize_t length;
    snprintf(link, sizeof link, "/proc/self/fd/%d", file);
    length = readlink(link, path, size - 1);
    path[length < 0 ? 0 : length] = '\0';
}

/* That a call failed, for whoever looks. */
static void tell(void) {
    const char *told = getenv("FAULT_TOLD");
    if (told != NULL) {
        syscall(SYS_mknodat, AT_FDCWD, told, S_IFREG | 0666, 0);
    }
}

/* The error that this call on a file of this path is to fail with, or 0. */
static int fault_at(const char *call, const char *path) {
    const char *wanted = getenv("FAULT");
    char name[20] = "", part[200] = "";
    long count = 0;
    int error = 0;
    if (wanted == NULL ||
        sscanf(wanted, "%19[a-z]:%d:%199[^:]:%ld", name, &error, part, &count) < 3 ||
        strcmp(name, call) != 0) {
        return 0;
    }
    if (strstr(path, part) == NULL) {
        return 0;
    }
    if ((count < 0) == (atomic_fetch_add(&calls, 1) >= labs(count))) {
        return 0;
    }
    tell();
    return error;
}

static int fault(const char *call, int file) {
    char path[PATH_MAX];
    path_of(file, path, sizeof path);
    return fault_at(call, path);
}

/* A function pointer and an object pointer need not be alike in C: they are copied. */
#define REAL(name, type)                                                                           \
    static type real;                                                                              \
    if (real == NULL) {                                                                            \
        void *found = dlsym(RTLD_NEXT, name);                                                      \
        memcpy(&real, &found, sizeof real);                                                        \
    }

int openat(int folder, const char *path, int flags, ...) {
    typedef int (*function)(int, const char *, int, ...);
    int error = fault_at((flags & O_CREAT) == 0 ? "open" : "create", path);
    mode_t mode = 0;
    REAL("openat64", function)
    if (error != 0) {
        errno = error;
        return -1;
    }
    if ((flags & O_CREAT) != 0) {
        va_list more;
        va_start(more, flags);
        mode = va_arg(more, mode_t);
        va_end(more);
    }
    return real(folder, path, flags, mode);
}

int fstatat(int folder, const char *path, struct stat *status, int flags) {
    typedef int (*function)(int, const char *, struct stat *, int);
    int error = fault_at("stat", path);
    REAL("fstatat64", function)
    if (error != 0) {
        errno = error;
        return -1;
    }
    return real(folder, path, status, flags);
}

int fstat(int file, struct stat *status) {
    typedef int (*function)(int, struct stat *);
    int error = fault("stat", file);
    REAL("fstat64", function)
    if (error != 0) {
        errno = error;
        return -1;
    }
    return real(file, status);
}

ssize_t read(int file, void *bytes, size_t size) {
    typedef ssize_t (*function)(int, void *, size_t);
    int error = fault("read", file);
    REAL("read", function)
    if (error != 0) {
        errno = error;
        return -1;
    }
    return real(file, bytes, size);
}

ssize_t write(int file, const void *bytes, size_t size) {
    typedef ssize_t (*function)(int, const void *, size_t);
    int error = fault("write", file), number = fault("stop", file);
    REAL("write", function)
    if (number != 0) {
        kill(getpid(), number);
    }
    if (error != 0) {
        errno = error;
        return -1;
    }
    return real(file, bytes, size);
}

struct dirent *readdir(DIR *stream) {
    typedef struct dirent *(*function)(DIR *);
    int error = fault("readdir", dirfd(stream));
    REAL("readdir64", function)
    if (error != 0) {
        errno = error;
        return NULL;
    }
    return real(stream);
}

/* A call on a file, and nothing else: it fails, or is the real one. */
static int failing(const char *call, int file, int (*real)(int)) {
    int error = fault(call, file);
    if (error != 0) {
        errno = error;
        return -1;
    }
    return real(file);
}

int fstatfs(int file, struct statfs *status) {
    typedef int (*function)(int, struct statfs *);
    int number = fault("fuse", file), answer;
    REAL("fstatfs64", function)
    answer = real(file, status);
    if (number != 0 && answer == 0) {
        status->f_type = 0x65735546;
        status->f_flags = number == 2 ? status->f_flags | ST_RDONLY : status->f_flags & ~ST_RDONLY;
    }
    return answer;
}

int fdatasync(int file) {
    typedef int (*function)(int);
    REAL("fdatasync", function)
    return failing("fdatasync", file, real);
}

int fsync(int file) {
    typedef int (*function)(int);
    REAL("fsync", function)
    return failing("fsync", file, real);
}

int posix_fadvise(int file, off_t from, off_t length, int advice) {
    typedef int (*function)(int, off_t, off_t, int);
    int error = fault("fadvise", file);
    REAL("posix_fadvise64", function)
    return error != 0 ? error : real(file, from, length, advice);
}

/* Another program is quicker, and puts a file there. */
static void come(int folder, const char *path) {
    int file = fault_at("come", path) == 0 ? -1 : openat(folder, path, O_WRONLY | O_CREAT, 0666);
    if (file >= 0) {
        close(file);
    }
}

int renameat(int old_folder, const char *old, int new_folder, const char *new) {
    typedef int (*function)(int, const char *, int, const char *);
    REAL("renameat", function)
    come(new_folder, new);
    return real(old_folder, old, new_folder, new);
}

int renameat2(int old_folder, const char *old, int new_folder, const char *new, unsigned flags) {
    typedef int (*function)(int, const char *, int, const char *, unsigned);
    REAL("renameat2", function)
    come(new_folder, new);
    return real(old_folder, old, new_folder, new, flags);
}
