/* What a name on a stick stands for. */
#ifndef STICK_KINDS_H
#define STICK_KINDS_H

#include <stdbool.h>

enum kind {
    KIND_FIGURE,      /* is read strictly, by the reader of its format */
    KIND_NEAR_FIGURE, /* adze.3ds.part, adze.3ds~: a figure that was perhaps not copied whole; or
                         half a slip */
    KIND_LEFT_BEHIND, /* what other computers leave on a stick: ._adze.3ds, Thumbs.db */
    KIND_OTHER        /* nothing that is known here */
};

/* The kind of a file or folder by the last name in its path; letters of either case are the same.
 */
enum kind kind_of(const char *path);

/* Whether a file may be a slip that lost its name or its place: rtick.slip, stick.slip~, a
 * stick.slip in a folder below. The slip itself is asked for before. */
bool is_near_slip(const char *path);

/* Whether a path is what the writing of a slip leaves when it is broken off: stick.slip.part. */
bool is_half_slip(const char *path);

/* The last name in a path. */
const char *last_name(const char *path);

#endif
