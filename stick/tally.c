/* The sticks of a batch: each is counted once, by the name of its file system. */
#include "tally.h"

#include <stdlib.h>
#include <string.h>

size_t tally_find(const struct tally *tally, const char *name) {
    for (size_t i = 0; *name != '\0' && i < tally->count; i++) {
        if (strcmp(tally->sticks[i].name, name) == 0) {
            return i + 1;
        }
    }
    return 0;
}

void tally_set(struct tally *tally, size_t number, const char *name, struct result result) {
    if (number > tally->count) {
        if (tally->count == tally->room) {
            tally->room = 2 * tally->room + 16;
            tally->sticks = need_memory(tally->sticks, tally->room * sizeof *tally->sticks);
        }
        number = ++tally->count;
    } else {
        free(tally->sticks[number - 1].name);
    }
    tally->sticks[number - 1] = (struct judged){need_copy(name), result};
}

void tally_cut(struct tally *tally, size_t number) {
    while (tally->count >= number) {
        tally->count--;
        free(tally->sticks[tally->count].name);
    }
}

size_t tally_passed(const struct tally *tally) {
    size_t passed = 0;
    for (size_t i = 0; i < tally->count; i++) {
        passed += tally->sticks[i].result.verdict == PASS;
    }
    return passed;
}

struct result tally_result(const struct tally *tally) {
    struct result result = {DO_NOT_SEAL, 2};
    for (size_t i = 0; i < tally->count; i++) {
        result = i == 0 ? tally->sticks[i].result : worse(result, tally->sticks[i].result);
    }
    return result;
}

void add_not_passed(struct text *text, const struct tally *tally, bool named) {
    const char *between = "";
    for (size_t i = 0; i < tally->count; i++) {
        const struct judged *stick = &tally->sticks[i];
        if (stick->result.verdict != PASS) {
            text_format(text, "%s%zu", between, i + 1);
            if (named && *stick->name != '\0') {
                text_format(text, " (%s)", stick->name);
            }
            between = ", ";
        }
    }
}

void tally_free(struct tally *tally) {
    tally_cut(tally, 1);
    free(tally->sticks);
    *tally = (struct tally){0};
}
