/* The colours of verdicts: green, yellow and red grounds, to be seen from two metres. */
#include "colour.h"

#include <stdlib.h>
#include <string.h>
#include <unistd.h>

bool in_colour(int file) {
    const char *refused = getenv("NO_COLOR"), *terminal = getenv("TERM");
    return isatty(file) && (refused == NULL || *refused == '\0') && terminal != NULL &&
           strcmp(terminal, "dumb") != 0;
}

const char *colour_of(enum verdict verdict) {
    switch (verdict) {
    case PASS:
        return "\033[1;97;42m";
    case STRUCTURE_ONLY:
        return "\033[1;30;43m";
    default:
        return "\033[1;97;41m";
    }
}
