/* The library's judgement of a stick. Where it and the tool disagree, nobody is believed. */
#include "judging.h"

#include <stdlib.h>

#include "tds_words.h"

/* The path that the library speaks of, or NULL. */
static char *path_at(const struct evidence *evidence, uint64_t answer) {
    int refusal = TDS_REFUSAL(answer);
    size_t item = TDS_PLACE(answer);
    struct text path = {0};
    if (refusal < TDS_UNCHECKED || refusal == TDS_ABSENT || item >= evidence->count) {
        return NULL;
    }
    evidence_path(evidence, item, &path);
    return path.bytes;
}

/* The path of something below the folder, or of that itself. */
static void add_whole(struct text *path, const char *root, const char *below) {
    if (below == NULL || *below == '\0') {
        text_add(path, root);
    } else {
        text_path(path, root, below);
    }
}

static void say_disagree(const struct gathered *gathered, uint64_t answer, struct report *report) {
    const char *name = tds_refusal_name(TDS_REFUSAL(answer));
    char *path = path_at(gathered->evidence, answer);
    struct text words = {0}, whole = {0};
    add_whole(&whole, gathered->root, path);
    if (answer == 0) {
        text_add(&words, "the tool and the library disagree: the tool finds nothing wrong, and the "
                         "library could not be asked");
    } else if (answer == 1) {
        text_add(&words, "the tool and the library disagree: the tool has found something wrong, "
                         "the library has not");
    } else {
        text_format(&words,
                    "the tool and the library disagree: the tool finds nothing wrong, the library "
                    "says %s (%d, place %lu)",
                    name, TDS_REFUSAL(answer), (unsigned long)TDS_PLACE(answer));
    }
    report_found(report, FOUND_UNCHECKED, whole.bytes, words.bytes,
                 "do not seal it, and tell whoever looks after this program");
    text_free(&words);
    text_free(&whole);
    free(path);
}

/* Whether the tool has found nothing but good things. */
static bool is_clean(const struct gathered *gathered, const struct report *report) {
    bool clean = report->grounds.whole && !gathered->unlike_slip;
    for (int i = 0; i < OUTCOMES; i++) {
        clean = clean && (i == FOUND_OK || report->grounds.count[i] == 0);
    }
    return clean;
}

static void take(const struct gathered *gathered, bool clean, bool contrary, uint64_t answer,
                 struct report *report) {
    report->grounds.agreed += answer == 1;
    if ((clean && answer != 1) || (contrary && answer == 1)) {
        say_disagree(gathered, answer, report);
    }
}

/* No slip takes the master's files, so the library cannot judge by them. */
static void say_unfit(const struct gathered *gathered, const struct expected *unfit,
                      struct report *report) {
    struct trouble trouble;
    struct text path = {0};
    add_whole(&path, gathered->root, unfit == NULL ? NULL : unfit->name);
    if (unfit == NULL) {
        trouble_of_words(&trouble, "no slip takes so many files (1,000), or such a long one (4 GB)",
                         "put fewer on the stick, and into the master");
    } else {
        trouble_of_words(&trouble, "no slip takes this path, or it is there twice",
                         "give it a path of at most 63 plain characters, and in the master too");
    }
    report_trouble(report, path.bytes, "not judged", &trouble);
    text_free(&path);
}

/* How many files of a master the library can judge: its slip it judges by itself. */
static size_t files_of(const struct manifest *master) {
    size_t count = 0;
    for (size_t i = 0; i < master->count; i++) {
        count += !is_slip(master->entries[i].name);
    }
    return count;
}

/* The master's files are laid out as a slip. Every one of them must have been compared. */
static void judge_by_master(const struct gathered *gathered, struct report *report) {
    size_t files = files_of(gathered->master);
    bool all = gathered->compared->count == files;
    const struct expected *unfit;
    size_t length;
    uint8_t *list;
    if (!is_clean(gathered, report)) {
        return;
    }
    list = slip_make(gathered->compared, &length, &unfit);
    if (list == NULL || !all) {
        say_unfit(gathered, unfit, report);
    } else {
        take(gathered, true, false,
             evidence_judge_by_list(gathered->evidence, list, length,
                                    files < gathered->master->count),
             report);
    }
    free(list);
}

void judge_gathered(const struct gathered *gathered, struct report *report) {
    const struct slip *slip = gathered->slip;
    const struct manifest *master = gathered->master;
    bool has_slip = slip->state == SLIP_GOOD, by_master = master != NULL;
    bool by_slip = has_slip || (by_master && files_of(master) < master->count);
    report->grounds.manifests = (unsigned long)by_slip + (unsigned long)by_master;
    if (by_slip) { /* also where the master alone has one: then there is nothing to judge by */
        take(gathered, is_clean(gathered, report),
             gathered->unlike_slip || report->grounds.count[FOUND_REFUSED] > 0,
             has_slip ? evidence_judge(gathered->evidence, slip->bytes, slip->length) : 0, report);
    }
    if (by_master) {
        judge_by_master(gathered, report);
    }
}
