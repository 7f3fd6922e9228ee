/* The samples of Cinema 4D figures: one of our own making, and what damage makes of it. */
#ifndef SAMPLES_CINEMA_H
#define SAMPLES_CINEMA_H

#include "damage.h"

/* The good one first, with refusal 0 and the count of its objects for a place. */
extern const struct damage cinema_samples[];

#endif
