/* Where a file stands on its stick. */
#ifndef STICK_TOP_H
#define STICK_TOP_H

/* The path of a file from the top of its stick, in memory of its own; NULL where that top cannot be
 * told: it has a slip, or something is mounted there. */
char *path_from_top(const char *path);

#endif
