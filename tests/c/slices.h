/* Slices to lend in tests: between pages that may not be touched, and among canaries. */
#ifndef TESTS_SLICES_H
#define TESTS_SLICES_H

#include <stddef.h>
#include <stdint.h>

/* Memory between two pages that end the test with a clear line when they are touched. */
struct arena {
    uint8_t *room;
    size_t size;
};

enum where { AT_START, AT_END, IN_MIDDLE, WHERES };

struct arena arena_make(size_t size);

/*
 * A slice to be filled. At the start it begins right behind a forbidden page, at the end it ends
 * right before one, in the middle it has an odd address. All of the arena, the slice too, is filled
 * with canaries: bytes that depend on where they are.
 */
uint8_t *arena_lend(const struct arena *arena, size_t length, enum where where);

/* A slice to be read, with these bytes; writing it, or around it, ends the test. */
const uint8_t *arena_hold(const struct arena *arena, const void *bytes, size_t length,
                          enum where where);

/* Whether every canary is alive but in the `filled` bytes from `at` on. */
int arena_alive(const struct arena *arena, const uint8_t *at, size_t filled);

/* Counts one check, and says what failed if it did. */
void expect(int well, const char *format, ...);

/* What is being tried, for the line that is printed when a forbidden page is touched. */
void trying(const char *format, ...);

/* The line of counts; answers the exit status. */
int finish(const char *test);

#endif
