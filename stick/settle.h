/* Reading the medium, not the memory. */
#ifndef STICK_SETTLE_H
#define STICK_SETTLE_H

#include <stdbool.h>
#include <sys/stat.h>

/*
 * Writes out what this computer still holds of an open file, and drops it, so that the next reading
 * comes from the stick. Answers 0; or the system's error, and then the memory may be what is read.
 */
int settle(int file, const struct stat *status);

/*
 * Whether an open file lies on a file system that is a program, and that may be written to: what
 * such a program holds in its own memory cannot be dropped.
 */
bool is_held_by_program(int file);

#endif
