/* A count of things with the first few of their names: a last line must stay a line. */
#include "names.h"

#include "escape.h"

enum { MOST_NAMED = 8 };

void names_add(struct names *names, const char *name, bool all) {
    names->count++;
    if (names->named >= MOST_NAMED && !all) {
        return;
    }
    if (names->named > 0) {
        text_add(&names->list, ", ");
    }
    text_escaped(&names->list, name);
    names->named++;
}

void names_join(struct names *names, const struct names *others) {
    if (others->named > 0) {
        if (names->named > 0) {
            text_add(&names->list, ", ");
        }
        text_add(&names->list, others->list.bytes);
    }
    names->count += others->count;
    names->named += others->named;
}

void names_say(const struct names *names, struct text *line) {
    if (names->named > 0) {
        text_add(line, names->list.bytes);
    }
    if (names->count > names->named) {
        text_format(line, " and %lu more", names->count - names->named);
    }
}

void names_free(struct names *names) {
    text_free(&names->list);
    *names = (struct names){0};
}
