/* The formats of figures. */
#ifndef STICK_FORMATS_H
#define STICK_FORMATS_H

#include <stdbool.h>

struct format {
    const char *ending;     /* of names, in letters of either case */
    const char *one, *many; /* what its reader answers the count of */
};

/* The format of 3D Studio's figures: what is named as no figure is read as one if it must be. */
const struct format *studio_format(void);

/* The format that a name ends as, and the one whose ending stands elsewhere in it as a word of its
 * own; NULL if none. */
const struct format *format_of(const char *name);
const struct format *format_near(const char *name);

/* Whether an ending stands anywhere in a name as a word of its own, in letters of either case. */
bool name_holds(const char *name, const char *ending);

#endif
