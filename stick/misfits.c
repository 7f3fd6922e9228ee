/*
 * What on a stick is not as its slip says. A bit that turned in the slip makes good files look bad,
 * so nothing is said before all is known: where most does not fit, it is not the files.
 */
#include "misfits.h"

#include <stdlib.h>

enum { FEWEST = 3 }; /* fewer are said one by one */

struct misfit {
    enum outcome outcome;
    char *path;
    const char *words;
    const char *remedy;
};

void misfits_add(struct misfits *misfits, enum outcome outcome, const char *path, const char *words,
                 const char *remedy) {
    if (misfits->count == misfits->room) {
        misfits->room = 2 * misfits->room + 16;
        misfits->list = need_memory(misfits->list, misfits->room * sizeof *misfits->list);
    }
    misfits->list[misfits->count] = (struct misfit){outcome, need_copy(path), words, remedy};
    misfits->count++;
    misfits->by_outcome[outcome]++;
}

void misfits_free(struct misfits *misfits) {
    for (size_t i = 0; i < misfits->count; i++) {
        free(misfits->list[i].path);
    }
    free(misfits->list);
    *misfits = (struct misfits){0};
}

/* How many files are others than the slip says: one that is missing alone may not be copied yet,
 * but where one is more too it is perhaps that one. */
static unsigned long others(const struct misfits *misfits) {
    unsigned long missing = misfits->by_outcome[FOUND_MISSING];
    unsigned long extra = misfits->by_outcome[FOUND_EXTRA];
    return misfits->by_outcome[FOUND_DIFFERENT] + (missing < extra ? missing : extra);
}

/* A slip of which a name was damaged lacks a file that is there, and has one that is not: nothing
 * is to be deleted for that. */
static const char *remedy_of(const struct misfits *misfits, const struct misfit *misfit,
                             const struct remedies *remedies) {
    bool both = misfits->by_outcome[FOUND_MISSING] > 0 && misfits->by_outcome[FOUND_EXTRA] > 0;
    if (both && misfit->remedy == remedies->missing && misfit->outcome == FOUND_MISSING) {
        return remedies->missing_beside_more;
    }
    if (both && misfit->remedy == remedies->not_on_slip) {
        return remedies->more_beside_missing;
    }
    return misfit->remedy;
}

static void say_slip(const struct misfits *misfits, struct report *report, const char *slip,
                     unsigned long files) {
    struct text words = {0};
    text_format(&words,
                "%lu of %lu files are not as this slip says: it is the slip, or the wrong edition",
                others(misfits), files);
    report_found(report, FOUND_BROKEN_SLIP, slip, words.bytes,
                 "copy the slip again, and see that the edition is the right one");
    text_free(&words);
}

void misfits_say(struct misfits *misfits, struct report *report, const char *slip,
                 unsigned long files, const struct remedies *remedies) {
    bool most = others(misfits) >= FEWEST && 3 * others(misfits) >= 2 * files;
    if (most) {
        say_slip(misfits, report, slip, files);
    }
    for (size_t i = 0; i < misfits->count; i++) {
        const struct misfit *misfit = &misfits->list[i];
        if (most && !report->style->verbose) {
            report->grounds.count[misfit->outcome]++;
        } else {
            report_found(report, misfit->outcome, misfit->path, misfit->words,
                         remedy_of(misfits, misfit, remedies));
        }
    }
}
