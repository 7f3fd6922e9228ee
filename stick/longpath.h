/* Opening and looking at files by paths of any length. */
#ifndef STICK_LONGPATH_H
#define STICK_LONGPATH_H

#include <stdbool.h>
#include <sys/stat.h>

/* As open(2) with these flags, but the path may be longer than the system takes at once. */
int long_open(const char *path, int flags);

/* As open(2) for a file that is made anew: it is an error if something of this name is there. */
int long_create(const char *path);

/* As stat(2), and as lstat(2) if `link` is not 0, but for a path of any length. */
int long_stat(const char *path, int link, struct stat *status);

/* Whether two paths are of one folder, which is there. */
bool long_same_folder(const char *one, const char *other);

/* Whether a folder is another one, or lies in it at whatever depth; links on the way do not hide
 * that. */
bool long_lies_in(const char *inner, const char *outer);

/* As mkdir(2), unlink(2) and rename(2), for paths of any length. */
int long_mkdir(const char *path);
int long_unlink(const char *path);
int long_rename(const char *from, const char *to);

#endif
