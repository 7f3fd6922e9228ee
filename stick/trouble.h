/* Why something could not be checked, in plain words, and what to do about it. */
#ifndef STICK_TROUBLE_H
#define STICK_TROUBLE_H

#include <stdbool.h>

struct trouble {
    char words[100];
    const char *remedy;
    char detail[100]; /* the system's own words, or none */
    bool gone;        /* the stick itself does not answer any more */
};

/* The system's error on looking at, opening, reading or writing something. */
void trouble_of_system(struct trouble *trouble, int error);

/* The stick is not there any more. */
void trouble_of_stick(struct trouble *trouble);

/* The file had this many bytes when it was opened, and another number of them was read. */
void trouble_of_size(struct trouble *trouble, unsigned long long before, unsigned long long after);

/* The trouble is another's: these words in place of the stick's, and the system's own kept. */
void trouble_elsewhere(struct trouble *trouble, const char *words, const char *remedy);

/* Any other words. */
void trouble_of_words(struct trouble *trouble, const char *words, const char *remedy);

#endif
