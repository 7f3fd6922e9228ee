/* One round of work: the folders that were named, at once, one reader for each. */
#include "session.h"

#include <fcntl.h>
#include <stdatomic.h>
#include <stdlib.h>
#include <sys/stat.h>
#include <unistd.h>

#include "copy.h"
#include "kinds.h"
#include "longpath.h"
#include "roomy.h"
#include "slip.h"
#include "stop.h"
#include "verdict.h"
#include "volume.h"

enum { MOST_READERS = 40 }; /* a batch */

/* What the readers of a round share. */
struct round {
    struct session *session;
    struct screen screen;
    char **folders;
    struct report *reports;
    size_t count;
    atomic_size_t next;
};

/* One round of one job, outside all threads: for the edition. */
static void single_start(struct screen *screen, struct report *report,
                         const struct options *options) {
    char *const names[] = {""};
    screen_start(screen, names, 1, options->style.quiet);
    report_start(report, &options->style, screen, 0);
}

/* After a check: what was to be done next is not, and why. */
static void say_not_done(struct report *report, const char *folder, const char *label,
                         const char *words, const char *remedy) {
    bool by_hand = report->unfinished && stopped();
    struct trouble trouble;
    trouble_of_words(&trouble, by_hand ? "stopped by hand" : words,
                     by_hand ? "start again" : remedy);
    report_trouble(report, folder, label, &trouble);
}

/* The edition must be well itself: its faults would be on every stick. */
static int check_edition(const struct options *options) {
    struct against nothing = {.remedies = &edition_remedies};
    struct report report;
    struct screen screen;
    enum verdict verdict;
    int status = 0;
    single_start(&screen, &report, options);
    check_stick(options->edition, &nothing, NULL, &report);
    report.grounds.unread = 0; /* it may well be in memory: the sticks are read back */
    verdict = decide(&report.grounds).verdict;
    if (verdict == DO_NOT_SEAL) {
        say_not_done(&report, options->edition, "not copied", "the edition itself is not well",
                     "see the other lines; nothing was copied");
    } else if (verdict != PASS && !options->no_slip) {
        say_not_done(&report, options->edition, "not copied",
                     "the edition has no slip, by which a copy that breaks off is told",
                     "write it with --write-slip, or copy with --no-slip");
    }
    if (verdict != PASS && !(verdict == STRUCTURE_ONLY && options->no_slip)) {
        report_end(&report);
        status = verdict_of_all(&report, 0).status;
    }
    screen_end(&screen);
    report_free(&report);
    return status;
}

/* What of the master could not be read is said here, once for all sticks. */
static void read_master(struct session *session, const char *folder) {
    struct report report;
    struct screen screen;
    single_start(&screen, &report, session->options);
    session->unread = !manifest_of_folder(&session->manifest, folder, &report);
    session->against =
        (struct against){session->unread ? NULL : folder, &session->manifest,
                         session->options->edition == NULL ? &stick_remedies : &copy_remedies};
    screen_end(&screen);
    report_free(&report);
}

int session_start(struct session *session, const struct options *options) {
    const char *folder = options->edition != NULL ? options->edition : options->against;
    int status = 0;
    *session = (struct session){.options = options, .against = {.remedies = &stick_remedies}};
    if (options->edition != NULL) {
        status = check_edition(options);
    }
    if (status == 0 && folder != NULL) {
        read_master(session, folder);
    }
    return status;
}

void session_end(struct session *session) {
    manifest_free(&session->manifest);
}

static bool is_file(const char *path) {
    struct stat status;
    return long_stat(path, 0, &status) == 0 && S_ISREG(status.st_mode);
}

/*
 * A slip is written only for a folder in which all is well, and that has none yet. On a stick a
 * copy may have broken off, and its slip would say that nothing is missing.
 */
static void check_and_write_slip(const struct session *session, const char *folder,
                                 struct report *report) {
    const struct against nothing = {.remedies = &edition_remedies};
    const char *label = "no slip was written";
    struct manifest files = {0};
    enum verdict verdict;
    if (!session->options->any_folder && volume_of(folder, NULL) == VOLUME_STICK) {
        say_not_done(report, folder, label,
                     "it is on a disk of its own, as a stick is, and a slip is for the edition",
                     "write it there, then copy (--any-folder writes it anywhere)");
        return;
    }
    check_stick(folder, &nothing, &files, report);
    manifest_sort(&files);
    verdict = decide(&report->grounds).verdict;
    if (verdict == DO_NOT_SEAL) {
        say_not_done(report, folder, label, "not all is well in it", "see the other lines");
    } else if (verdict == PASS) { /* a good one is there */
        report->kept = 1;
    } else if (slip_write(folder, &files, report)) {
        report->grounds.asked = true; /* there was nothing to compare with, as it must be */
        report->bare = 0;
        report->slips = 1;
        report->slip_files = files.count;
    }
    manifest_free(&files);
}

/* Whether a folder, or a file, is one of a master, which it would then be compared with. */
static bool is_of(const char *master, const char *path) {
    struct text folder = {0};
    bool inside;
    text_add_bytes(&folder, path, (size_t)(last_name(path) - path));
    text_add(&folder, ".");
    inside = long_lies_in(is_file(path) ? folder.bytes : path, master);
    text_free(&folder);
    return inside;
}

/* Whether nothing can be done with a folder, and why. */
static bool is_unfit(const struct round *round, size_t job, struct trouble *trouble) {
    const struct options *options = round->session->options;
    const char *folder = round->folders[job], *master = options->against;
    if (*folder == '\0') {
        trouble_of_words(trouble, "the name is empty", "give a folder, for example /media/stick");
    } else if (master != NULL && long_same_folder(master, folder)) { /* it would pass in any case */
        trouble_of_words(trouble, "it is the master itself", "give the folder of the stick");
    } else if (master != NULL && is_of(master, folder)) {
        trouble_of_words(trouble, "it lies inside the master", "give the folder of the stick");
    } else if (master != NULL && long_lies_in(master, folder)) { /* its files would be strange */
        trouble_of_words(trouble, "the master lies inside it", "put the master elsewhere");
    } else if (options->edition != NULL && round->session->unread) {
        trouble_of_words(trouble, "the edition could not be read whole, and nothing was copied",
                         "see above");
    } else {
        return false;
    }
    return true;
}

/* A stick that was checked by itself only does not pass. */
static void say_not_compared(const char *folder, struct report *report) {
    struct trouble trouble;
    trouble_of_words(&trouble, "the master could not be read whole",
                     "see above, and mend the master");
    report_trouble(report, folder, "not compared", &trouble);
    report->uncompared = 1;
}

/* All that is to be done with one folder. */
static void work_in(const struct session *session, const char *folder, struct report *report) {
    bool good = true;
    if (session->options->edition != NULL) {
        const struct edition edition = {session->options->edition, &session->manifest,
                                        session->options->any_folder};
        good = copy_edition(&edition, folder, report);
    }
    if (good && session->options->write_slip) {
        check_and_write_slip(session, folder, report);
    } else if (good) {
        check_stick(folder, &session->against, NULL, report);
    }
    if (good && session->unread) {
        say_not_compared(folder, report);
    }
}

/*
 * As long as its topmost folder is open, no stick that takes the place of this one has the same
 * device number: else one could be begun with, and another ended with.
 */
static void work_on(struct round *round, size_t job) {
    const char *folder = round->folders[job];
    struct report *report = &round->reports[job];
    int held = long_open(folder, O_RDONLY | O_DIRECTORY | O_CLOEXEC);
    struct trouble trouble;
    report->grounds.asked = round->session->options->structure;
    if (is_unfit(round, job, &trouble)) {
        report_trouble(report, folder, NULL, &trouble);
    } else {
        work_in(round->session, folder, report);
    }
    if (held >= 0) {
        close(held);
    }
    report_end(report);
    if (round->count > 1 && *folder != '\0' && !is_file(folder)) {
        verdict_of_folder(report, folder); /* also where it is not there any more */
    }
    screen_done(&round->screen, job, report->result.verdict);
}

static void *reader(void *shared) {
    struct round *round = shared;
    for (;;) {
        size_t job = atomic_fetch_add(&round->next, 1);
        if (job >= round->count) {
            return NULL;
        }
        work_on(round, job);
    }
}

/* Starts one reader less than there are folders, or as many as the system lets. */
static size_t start_readers(struct round *round, pthread_t threads[MOST_READERS]) {
    size_t started = 0;
    while (started + 1 < round->count && started + 1 < MOST_READERS &&
           roomy_start(&threads[started], reader, round)) {
        started++;
    }
    return started;
}

/* This thread is a reader too, so that one folder needs no other. */
static void read_all(struct round *round) {
    pthread_t threads[MOST_READERS];
    size_t started = start_readers(round, threads);
    reader(round);
    for (size_t i = 0; i < started; i++) {
        pthread_join(threads[i], NULL);
    }
}

/* Adds all reports up, and ends them. */
static void add_up(struct round *round, struct report *sum) {
    report_start(sum, &round->session->options->style, &round->screen, 0);
    sum->folders = 0;
    for (size_t i = 0; i < round->count; i++) {
        report_join(sum, &round->reports[i]);
        report_free(&round->reports[i]);
    }
}

struct result session_work(struct session *session, char **folders, size_t count,
                           struct text *log) {
    struct round round = {.session = session, .folders = folders, .count = count};
    struct timespec start, end;
    struct result result;
    struct report sum;
    clock_gettime(CLOCK_MONOTONIC, &start);
    screen_start(&round.screen, folders, count, session->options->style.quiet);
    round.screen.log = log;
    round.reports = need_memory(NULL, count * sizeof *round.reports);
    for (size_t i = 0; i < count; i++) {
        report_start(&round.reports[i], &session->options->style, &round.screen, i);
    }
    read_all(&round);
    add_up(&round, &sum);
    clock_gettime(CLOCK_MONOTONIC, &end);
    result = verdict_of_all(&sum, seconds_between(&start, &end));
    screen_end(&round.screen);
    report_free(&sum);
    free(round.reports);
    return result;
}
