/* Progress goes to the terminal on standard error, so that what is kept of the output is clean. */
#include "progress.h"

#include <stdio.h>
#include <stdlib.h>
#include <string.h>
#include <sys/ioctl.h>
#include <unistd.h>

#include "colour.h"
#include "escape.h"

enum { USUAL_WIDTH = 80, USUAL_HEIGHT = 24, MOST_OF_NAME = 30 };
#define DONE_WORD "done"
enum { LONG_FILE = 1024 * 1024 }; /* from so many bytes on it is said how much of it is done */

struct size {
    size_t width;
    size_t height;
};

double seconds_between(const struct timespec *from, const struct timespec *to) {
    return (double)(to->tv_sec - from->tv_sec) + (double)(to->tv_nsec - from->tv_nsec) / 1e9;
}

void progress_start(struct progress *progress, bool quiet) {
    const char *terminal = getenv("TERM");
    *progress = (struct progress){.wanted = !quiet && isatty(STDERR_FILENO)};
    progress->moves = terminal != NULL && *terminal != '\0' && strcmp(terminal, "dumb") != 0;
    progress->colour = in_colour(STDERR_FILENO);
}

/* Asked each time: a window may be drawn smaller at any moment. */
static struct size size_of_terminal(void) {
    struct winsize size = {0};
    int known = ioctl(STDERR_FILENO, TIOCGWINSZ, &size) == 0;
    return (struct size){known && size.ws_col > 0 ? size.ws_col : USUAL_WIDTH,
                         known && size.ws_row > 0 ? size.ws_row : USUAL_HEIGHT};
}

/* The end of a name tells sticks apart, so a long one loses its start. */
static void add_name(struct text *line, const char *name) {
    struct text whole = {0};
    const char *from;
    text_escaped(&whole, name);
    from = whole.bytes;
    if (whole.length > MOST_OF_NAME) {
        from += whole.length - MOST_OF_NAME;
        while (((unsigned char)*from & 0xC0) == 0x80) {
            from++;
        }
        text_add(line, "...");
    }
    text_add(line, from);
    text_free(&whole);
}

static bool at_work(const struct row *row) {
    return row->working == CHECKING || row->working == COPYING;
}

/* How much of all the work is done, from 0 to 1; 0 where that is not known. */
static double done_of(const struct row *row) {
    if (row->in_all.of > 0) {
        return row->in_all.done < row->in_all.of ? (double)row->in_all.done / (double)row->in_all.of
                                                 : 1;
    }
    return row->files > 0 && row->file <= row->files ? (double)(row->file - 1) / (double)row->files
                                                     : 0;
}

/* Minutes and seconds, once a second has told how fast it goes. */
static void add_time_left(struct text *line, const struct row *row, const struct timespec *now) {
    double done = done_of(row), passed = seconds_between(&row->start, now);
    unsigned long left;
    if (done > 0 && passed >= 1) {
        left = (unsigned long)(passed * (1 - done) / done);
        text_format(line, ", %lu:%02lu left", left / 60, left % 60);
    }
}

static void add_file(struct text *line, const struct row *row) {
    text_format(line, " %lu", row->file);
    if (row->files >= row->file) {
        text_format(line, " of %lu", row->files);
    }
    if (row->in_file.of >= LONG_FILE && row->in_file.done <= row->in_file.of) {
        text_format(line, " (%u%% of it)", (unsigned)(row->in_file.done * 100 / row->in_file.of));
    }
}

/* Answers where the word begins that says what is done. */
static size_t add_row(struct text *line, const struct row *row, bool named,
                      const struct timespec *now) {
    static const char *const doing[] = {"waiting", "checking file", "copying file", DONE_WORD};
    size_t word;
    if (named) {
        add_name(line, row->name);
        text_add(line, ": ");
    }
    word = line->length;
    text_add(line, doing[row->working]);
    if (at_work(row)) {
        add_file(line, row);
        add_time_left(line, row, now);
    }
    if (row->working == CHECKING || row->bad > 0) {
        text_format(line, ", %lu refused so far", row->bad);
    }
    text_add(line, at_work(row) ? " ..." : "");
    return word;
}

/* A character takes no more columns than it has bytes, so bytes are counted; none is cut in two. */
static void fit(struct text *line, size_t width) {
    size_t length = width - 1;
    if (line->length <= length) {
        return;
    }
    while (length > 0 && ((unsigned char)line->bytes[length] & 0xC0) == 0x80) {
        length--;
    }
    text_cut(line, length);
}

/* One line; that a stick is done has the colour of its verdict. */
static void draw_row(const struct progress *progress, const struct row *row,
                     const struct text *line, size_t word) {
    size_t ends = word + strlen(DONE_WORD);
    if (progress->colour && row->working == DONE && ends <= line->length) {
        fprintf(stderr, "%.*s%s%s%s%s", (int)word, line->bytes, colour_of(row->verdict), DONE_WORD,
                COLOUR_ENDS, line->bytes + ends);
    } else {
        fputs(line->bytes, stderr);
    }
}

/* The rows that fit, without the end of the last line. */
static void draw(struct progress *progress, const struct row *rows, size_t count,
                 const struct size *size) {
    size_t most = size->height > 2 ? size->height - 2 : 1, word;
    struct text line = {0};
    progress->lines = 0;
    for (size_t i = 0; i < count && progress->lines < most; i++) {
        if (rows[i].working == DONE && count > most) {
            continue; /* there is no room for what has its verdict */
        }
        text_cut(&line, 0);
        word = add_row(&line, &rows[i], count > 1, &progress->last);
        fit(&line, size->width);
        fputs(progress->lines == 0 ? "" : "\r\n", stderr);
        draw_row(progress, &rows[i], &line, word);
        progress->lines++;
    }
    progress->last_length = line.length;
    text_free(&line);
    fflush(stderr);
}

/* Without a way back to earlier lines, only the first stick that is worked on is shown. */
static const struct row *first_at_work(const struct row *rows, size_t count) {
    for (size_t i = 0; i + 1 < count; i++) {
        if (at_work(&rows[i])) {
            return &rows[i];
        }
    }
    return &rows[count - 1];
}

void progress_show(struct progress *progress, const struct row *rows, size_t count) {
    struct size size;
    struct timespec now;
    if (!progress->wanted) {
        return;
    }
    clock_gettime(CLOCK_MONOTONIC, &now);
    if (progress->begun && seconds_between(&progress->last, &now) < 0.1) {
        return;
    }
    progress->begun = true;
    progress->last = now;
    progress_clear(progress);
    fflush(stdout);
    size = size_of_terminal();
    if (progress->moves) {
        draw(progress, rows, count, &size);
    } else {
        draw(progress, first_at_work(rows, count), 1, &size);
    }
}

void progress_clear(struct progress *progress) {
    if (progress->lines > 1) {
        fprintf(stderr, "\r\033[%zuA\033[J", progress->lines - 1);
    } else if (progress->lines == 1) {
        fprintf(stderr, "\r%*s\r", (int)progress->last_length, "");
    }
    fflush(stderr);
    progress->lines = 0;
}
