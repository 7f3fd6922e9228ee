/* The log of a batch: dated lines, added to a file. */
#ifndef STICK_LOG_H
#define STICK_LOG_H

#include <stdbool.h>
#include <stdio.h>

#include "text.h"

/* Each line begins with a date of this length, as 2026-11-18 01:03:46 and a space. */
enum { DATE_LENGTH = 20 };

/* In place of the name of a stick's file system where it has none that is known. */
#define NO_NAME "no name"

struct log {
    struct text name;
    FILE *file;
    bool failed; /* some of it could not be written, which was said */
};

/* Sets its name: this path, or where it is NULL the log of this day. */
void log_start(struct log *log, const char *path);

/* Opens it. Answers false and says why not. */
bool log_open(struct log *log);

/* Adds lines, each with the date and what it speaks of. */
void log_add(struct log *log, const char *about, const char *lines);

/* Closes it, if it is open. */
void log_close(struct log *log);

#endif
