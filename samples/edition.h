/* The sample edition: hand tools. */
#ifndef SAMPLES_EDITION_H
#define SAMPLES_EDITION_H

#include "compose.h"

struct tool {
    const char *file;
    void (*make)(struct figure *figure);
};

/* All tools, ended by one without a file name; and those that are figures of older versions. */
extern const struct tool edition[], older[];

void make_adze(struct figure *figure);   /* two objects; private chunks */
void make_chisel(struct figure *figure); /* one object, as our writer makes it */
void make_mallet(struct figure *figure); /* two objects, nothing else */
void make_plane(struct figure *figure);  /* mapping coordinates; private chunks in all gaps */
void make_saw(struct figure *figure);    /* a vertex coordinate of 1, and no version chunk */
void make_vice(struct figure *figure);   /* materials, lamp, camera; parts that move */
void make_gouge(struct figure *figure);  /* version 2: mapping coordinates for not all vertices */

/* The length of the adze's handle: one bit, which the length of its head does not have. */
enum { ADZE_HANDLE_LENGTH = 2048 };

#endif
