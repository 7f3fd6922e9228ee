/*
 * The log of a batch: dated lines, added to a file. One that cannot be written is said once, and
 * the batch goes on: the sticks can be checked all the same.
 */
#include "log.h"

#include <errno.h>
#include <string.h>
#include <sys/stat.h>
#include <time.h>

#include "escape.h"

static void fails(struct log *log) {
    int error = errno;
    struct text name = {0};
    if (!log->failed) {
        text_escaped(&name, log->name.bytes);
        fprintf(stderr,
                "stick: the log %s cannot be written: see that its folder is there and has room, "
                "or give another with --log (%s)\n",
                name.bytes, strerror(error));
        text_free(&name);
    }
    log->failed = true;
}

/* The date in the form that is given. */
static void add_date(struct text *text, const char *form) {
    char date[60];
    time_t now = time(NULL);
    struct tm local;
    localtime_r(&now, &local);
    strftime(date, sizeof date, form, &local);
    text_add(text, date);
}

/* To open one waits until somebody reads from it. */
static bool is_pipe(const char *path) {
    struct stat status;
    bool pipe = stat(path, &status) == 0 && S_ISFIFO(status.st_mode);
    errno = pipe ? ESPIPE : 0;
    return pipe;
}

void log_start(struct log *log, const char *path) {
    *log = (struct log){0};
    if (path != NULL) {
        text_add(&log->name, path);
    } else { /* in the folder from which the program was started */
        add_date(&log->name, "stick-batch-%Y-%m-%d.log");
    }
}

bool log_open(struct log *log) {
    log->file = is_pipe(log->name.bytes) ? NULL : fopen(log->name.bytes, "a");
    if (log->file == NULL) {
        fails(log);
    }
    return log->file != NULL;
}

/* Colours are for terminals only. */
static void add_plainly(struct text *text, const char *line, size_t length) {
    for (size_t i = 0; i < length; i++) {
        if (line[i] == '\033') {
            i += strcspn(line + i, "m");
        } else {
            text_add_bytes(text, line + i, 1);
        }
    }
}

void log_add(struct log *log, const char *about, const char *lines) {
    struct text text = {0};
    while (*lines != '\0') {
        size_t length = strcspn(lines, "\n");
        add_date(&text, "%Y-%m-%d %H:%M:%S ");
        text_add(&text, about);
        add_plainly(&text, lines, length);
        text_add(&text, "\n");
        lines += length + (lines[length] == '\n');
    }
    if (text.length > 0 && (fputs(text.bytes, log->file) == EOF || fflush(log->file) != 0)) {
        fails(log);
    }
    text_free(&text);
}

void log_close(struct log *log) {
    if (log->file != NULL && fclose(log->file) != 0) {
        fails(log);
    }
    text_free(&log->name);
}
