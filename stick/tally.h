/* The sticks of a batch: which of them have their verdict. */
#ifndef STICK_TALLY_H
#define STICK_TALLY_H

#include <stddef.h>

#include "decide.h"
#include "text.h"

struct tally {
    struct judged {
        char *name; /* of its file system; empty where that is not known */
        struct result result;
    } * sticks; /* the first is stick 1 */
    size_t count;
    size_t room;
};

/* The number of the stick of this name; 0 if it was not judged before, or has no name. */
size_t tally_find(const struct tally *tally, const char *name);

/* The verdict on the stick of this number, the next one or an earlier one again. */
void tally_set(struct tally *tally, size_t number, const char *name, struct result result);

/* Forgets the stick of this number and all behind it. */
void tally_cut(struct tally *tally, size_t number);

size_t tally_passed(const struct tally *tally);

/* The worst of all. */
struct result tally_result(const struct tally *tally);

/* Adds the numbers of those that did not pass, as 3, 17; with their names as 3 (3F2A-91BC), 17. */
void add_not_passed(struct text *text, const struct tally *tally, bool named);

void tally_free(struct tally *tally);

#endif
