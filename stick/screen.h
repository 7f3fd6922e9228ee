/* Where all lines and the progress of several readers come together. */
#ifndef STICK_SCREEN_H
#define STICK_SCREEN_H

#include <pthread.h>

#include "progress.h"
#include "text.h"

enum stream { TO_OUTPUT, TO_ERROR };

struct outlet;

/*
 * The lines of one job are never mixed with those of another: those of the first job that is not
 * done are shown at once, those of later ones are kept until it is their turn. So the output is the
 * same whoever is faster.
 */
struct screen {
    pthread_mutex_t lock;
    struct progress progress;
    struct outlet *outlets; /* one a job */
    struct row *rows;
    size_t count;
    size_t turn;
    struct text *log; /* gets every line too, if not NULL */
};

/* For this many jobs, with these names in the progress. */
void screen_start(struct screen *screen, char *const *names, size_t jobs, bool quiet);

/* A job begins with a part of its work: so many files, and bytes in all; 0 if that is not known. */
void screen_begin(struct screen *screen, size_t job, enum working working, unsigned long files,
                  unsigned long long bytes);

/* It begins with the next file; so many problems it has met so far. */
void screen_file(struct screen *screen, size_t job, unsigned long bad);

/* So much of that file is done. */
void screen_share(struct screen *screen, size_t job, struct share share);

/* A whole line of a job, with its end. */
void screen_line(struct screen *screen, size_t job, enum stream stream, const char *line);

/* There will be no more lines of this job, and this is its verdict. */
void screen_done(struct screen *screen, size_t job, enum verdict verdict);

/* Shows what is still kept, and takes the progress away. */
void screen_end(struct screen *screen);

#endif
