/* Where all lines and the progress of several readers come together, one at a time. */
#include "screen.h"

#include <stdio.h>
#include <stdlib.h>

/* A line that waits for its job's turn. */
struct kept {
    struct kept *next;
    enum stream stream;
    char *line;
};

struct outlet {
    struct kept *first;
    struct kept **end; /* where the next one is put */
    bool done;
};

void screen_start(struct screen *screen, char *const *names, size_t jobs, bool quiet) {
    *screen = (struct screen){.count = jobs};
    pthread_mutex_init(&screen->lock, NULL);
    progress_start(&screen->progress, quiet);
    screen->outlets = need_memory(NULL, jobs * sizeof *screen->outlets);
    screen->rows = need_memory(NULL, jobs * sizeof *screen->rows);
    for (size_t i = 0; i < jobs; i++) {
        screen->outlets[i] = (struct outlet){.end = &screen->outlets[i].first};
        screen->rows[i] = (struct row){.name = names[i], .working = WAITING};
    }
}

static void show(struct screen *screen, enum stream stream, const char *line) {
    progress_clear(&screen->progress);
    if (stream == TO_ERROR) {
        fflush(stdout); /* on a terminal both go to one place, in this order */
    }
    fputs(line, stream == TO_OUTPUT ? stdout : stderr);
    if (screen->log != NULL) {
        text_add(screen->log, line);
    }
}

static void keep(struct outlet *outlet, enum stream stream, const char *line) {
    struct kept *kept = need_memory(NULL, sizeof *kept);
    *kept = (struct kept){NULL, stream, need_copy(line)};
    *outlet->end = kept;
    outlet->end = &kept->next;
}

/* Shows all lines that were kept of the job whose turn it is. */
static void show_kept(struct screen *screen) {
    struct outlet *outlet = &screen->outlets[screen->turn];
    while (outlet->first != NULL) {
        struct kept *kept = outlet->first;
        outlet->first = kept->next;
        show(screen, kept->stream, kept->line);
        free(kept->line);
        free(kept);
    }
    outlet->end = &outlet->first;
}

void screen_begin(struct screen *screen, size_t job, enum working working, unsigned long files,
                  unsigned long long bytes) {
    struct row *row = &screen->rows[job];
    pthread_mutex_lock(&screen->lock);
    *row = (struct row){.name = row->name, .working = working, .files = files, .bad = row->bad};
    row->in_all.of = bytes;
    clock_gettime(CLOCK_MONOTONIC, &row->start);
    pthread_mutex_unlock(&screen->lock);
}

void screen_file(struct screen *screen, size_t job, unsigned long bad) {
    struct row *row = &screen->rows[job];
    pthread_mutex_lock(&screen->lock);
    row->file++;
    row->bad = bad;
    row->in_file = (struct share){0};
    progress_show(&screen->progress, screen->rows, screen->count);
    pthread_mutex_unlock(&screen->lock);
}

void screen_share(struct screen *screen, size_t job, struct share share) {
    struct row *row = &screen->rows[job];
    pthread_mutex_lock(&screen->lock);
    row->in_all.done += share.done - row->in_file.done;
    row->in_file = share;
    progress_show(&screen->progress, screen->rows, screen->count);
    pthread_mutex_unlock(&screen->lock);
}

void screen_line(struct screen *screen, size_t job, enum stream stream, const char *line) {
    pthread_mutex_lock(&screen->lock);
    if (job <= screen->turn) {
        show(screen, stream, line);
    } else {
        keep(&screen->outlets[job], stream, line);
    }
    pthread_mutex_unlock(&screen->lock);
}

void screen_done(struct screen *screen, size_t job, enum verdict verdict) {
    pthread_mutex_lock(&screen->lock);
    screen->rows[job].verdict = verdict;
    screen->outlets[job].done = true;
    screen->rows[job].working = DONE;
    while (screen->turn < screen->count && screen->outlets[screen->turn].done) {
        screen->turn++;
        if (screen->turn < screen->count) {
            show_kept(screen);
        }
    }
    pthread_mutex_unlock(&screen->lock);
}

void screen_end(struct screen *screen) {
    progress_clear(&screen->progress);
    free(screen->outlets);
    free(screen->rows);
    pthread_mutex_destroy(&screen->lock);
}
