/*
 * Mistakes that only the whole command line can tell: folders that are in each other's way, and
 * options that say two things or would do nothing.
 */
#include "mistakes.h"

#include <stdio.h>
#include <sys/stat.h>

#include "escape.h"
#include "kinds.h"
#include "longpath.h"
#include "volume.h"

void mistake(struct options *options, const char *before, const char *word, const char *behind) {
    struct text escaped = {0};
    text_escaped(&escaped, word);
    fprintf(stderr, "stick: %s%s%s\n", before, escaped.bytes, behind);
    text_free(&escaped);
    options->task = TASK_MISTAKE;
}

/* Whoever names a folder, too, may take the good end of the explaining for that of a check. */
static void judge_explain(struct options *options) {
    if (options->count > 0) {
        mistake(options, "nothing is checked while a refusal is explained: leave ",
                options->arguments[0], " away");
    }
}

static bool has_style(const struct style *style) {
    return style->quiet || style->verbose || style->list || style->json;
}

/* A rescue is of one figure, and nothing else is done with it. */
static void judge_rescue(struct options *options) {
    if (options->against != NULL || options->edition != NULL || options->write_slip ||
        options->structure || options->no_slip || options->any_folder || options->batch > 0 ||
        options->log != NULL || has_style(&options->style)) {
        mistake(options, "one figure is mended, and nothing else done: leave all but ", "--rescue",
                " away");
    } else if (options->count > 1) {
        mistake(options, "one figure is mended, into one new file: leave ", options->arguments[1],
                " away");
    } else if (options->count == 0 || *options->arguments[0] == '\0') {
        mistake(options, "which new file is what is left of ", options->rescue,
                " to go to? For example: stick --rescue adze.3ds what-is-left.3ds");
    } else {
        options->task = TASK_RESCUE;
    }
}

static bool are_nested(const char *one, const char *other) {
    return long_lies_in(one, other) || long_lies_in(other, one);
}

/* Two folders of one stick are not two sticks. */
static bool are_on_one_stick(const char *one, const char *other) {
    struct stat first, second;
    return long_stat(one, 0, &first) == 0 && long_stat(other, 0, &second) == 0 &&
           first.st_dev == second.st_dev && volume_of(one, NULL) == VOLUME_STICK;
}

typedef bool test_of_two(const char *one, const char *other);

/* Whether a folder and one that was named before it pass a test. */
static bool with_earlier(const struct options *options, size_t folder, test_of_two *test) {
    for (size_t i = 0; i < folder; i++) {
        if (test(options->arguments[i], options->arguments[folder])) {
            return true;
        }
    }
    return false;
}

/* The first such folder, or NULL. */
static const char *first_with_earlier(const struct options *options, test_of_two *test) {
    for (size_t i = 1; i < options->count; i++) {
        if (with_earlier(options, i, test)) {
            return options->arguments[i];
        }
    }
    return NULL;
}

/* A stick that is named twice would be counted as two. */
static void judge_reading(struct options *options) {
    const char *again = first_with_earlier(options, long_same_folder);
    if (again != NULL) {
        mistake(options, "each stick is checked once: leave the second ", again, " away");
    }
}

/* Two writers in one folder would be in each other's way, and one inside the other's too. */
static void judge_writing(struct options *options) {
    const char *again = first_with_earlier(options, long_same_folder);
    const char *nested = first_with_earlier(options, are_nested);
    if (again != NULL) {
        mistake(options, "each stick is written once: leave the second ", again, " away");
    } else if (nested != NULL) {
        mistake(options, "no stick that is written may lie inside another: leave ", nested,
                " away");
    } else if (options->edition != NULL && !options->any_folder) {
        const char *beside = first_with_earlier(options, are_on_one_stick);
        if (beside != NULL) {
            mistake(options, "one of the folders before it is on the same stick: leave ", beside,
                    " away");
        }
    }
}

/* The folder in which the log is to stand; without --log that from which the program is started. */
static void add_log_folder(const struct options *options, struct text *folder) {
    if (options->log != NULL) {
        text_add_bytes(folder, options->log, (size_t)(last_name(options->log) - options->log));
    }
    text_add(folder, ".");
}

/* A log in what is checked, compared with or copied would be there as one file more. */
static void judge_log(struct options *options) {
    const char *const folders[] = {options->arguments[0], options->edition, options->against};
    struct text log = {0};
    add_log_folder(options, &log);
    for (size_t i = 0; i < 3 && options->task == TASK_WORK; i++) {
        if (folders[i] != NULL && long_lies_in(log.bytes, folders[i])) {
            mistake(options, "the log would be written into ", folders[i],
                    ": give another place with --log");
        }
    }
    text_free(&log);
}

/* A batch waits until its folder is there; that must be able to come. */
static void judge_batch(struct options *options) {
    const char *folder = options->arguments[0];
    struct stat status;
    if (*folder == '\0') {
        mistake(options, "there is no folder ", folder, ": give one, for example /media/stick");
    } else if (options->from > options->batch) {
        mistake(options, "the batch has not so many sticks: give a smaller number to ", "--from",
                "");
    } else if (long_stat(folder, 0, &status) == 0 && !S_ISDIR(status.st_mode)) {
        mistake(options, "there is a file where the folder of the sticks should be, ", folder, "");
    } else {
        judge_log(options);
    }
}

/* An option that would do nothing was meant for something else. Answers whether there is none. */
static bool judge_idle(struct options *options) {
    if (options->no_slip && options->edition == NULL) {
        mistake(options, "only a copy can go without a slip: give --copy too, or leave ",
                "--no-slip", " away");
    } else if (options->any_folder && options->edition == NULL && !options->write_slip &&
               options->batch == 0) {
        mistake(options, "any folder can be checked: leave ", "--any-folder", " away");
    } else if (options->batch == 0 && options->log != NULL) {
        mistake(options, "only a batch is logged: give --batch N too, or leave ", "--log", " away");
    } else if (options->batch == 0 && (options->from > 0 || options->no_bell)) {
        mistake(options, "this is for a batch: give --batch N too, or leave ",
                options->from > 0 ? "--from" : "--no-bell", " away");
    }
    return options->task == TASK_WORK;
}

static void judge_work(struct options *options) {
    if (options->count == 0) {
        fprintf(stderr, "stick: which folder is to be checked? For example: stick /media/stick\n"
                        "Try 'stick --help'.\n");
        options->task = TASK_MISTAKE;
    } else if (options->against != NULL && options->edition != NULL) {
        mistake(options, "--copy compares with the edition already: leave ", "--against", " away");
    } else if (options->write_slip &&
               (options->against != NULL || options->edition != NULL || options->batch > 0)) {
        mistake(options, "a slip is written for the edition itself: leave ",
                options->edition != NULL   ? "--copy"
                : options->against != NULL ? "--against"
                                           : "--batch",
                " away");
    } else if (options->structure && (options->against != NULL || options->edition != NULL)) {
        mistake(options, "there is a master to compare with: leave ", "--structure", " away");
    } else if (options->batch > 0 && options->count > 1) {
        mistake(options, "a batch has one folder: leave ", options->arguments[1], " away");
    } else if (!judge_idle(options)) {
        return;
    } else if (options->batch > 0) {
        judge_batch(options);
    } else if (options->edition != NULL || options->write_slip) {
        judge_writing(options);
    } else {
        judge_reading(options);
    }
}

/* Whoever gives more than --help or --version may take their good end for that of a check. */
static void judge_alone(struct options *options, int words) {
    if (words > 1) {
        mistake(options, "nothing is checked with ", "--help or --version", ": give it alone");
    }
}

void options_judge(struct options *options, int words) {
    if (options->task == TASK_HELP || options->task == TASK_VERSION) {
        judge_alone(options, words);
    } else if (options->task == TASK_EXPLAIN) {
        judge_explain(options);
    } else if (options->task == TASK_WORK && options->rescue != NULL) {
        judge_rescue(options);
    } else if (options->task == TASK_WORK) {
        judge_work(options);
    }
}
