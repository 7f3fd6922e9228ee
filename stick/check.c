/* The check of one stick: what is met on the walk, and what is said about it. */
#include "checking.h"

#include <errno.h>
#include <stdlib.h>
#include <string.h>

#include "stop.h"
#include "top.h"

enum { MOST_IN_A_ROW = 3 }; /* so often the stick may fail to answer before it is given up */

void could_not(struct check *check, const char *path, struct trouble *trouble) {
    bool stands = !check->walk.begun || walk_root_stands(&check->walk, check->root);
    if (!stands && check->in_folder) {
        trouble_of_stick(trouble);
    }
    check->in_a_row = trouble->gone ? check->in_a_row + 1 : 0;
    check->given_up = trouble->gone && (!stands || check->in_a_row >= MOST_IN_A_ROW);
    check->report->unfinished = check->report->unfinished || check->given_up;
    report_trouble(check->report, path, NULL, trouble);
}

void could_not_for_words(struct check *check, const char *path, const char *words,
                         const char *remedy) {
    struct trouble trouble;
    trouble_of_words(&trouble, words, remedy);
    could_not(check, path, &trouble);
}

/* Adds a file to a list for a slip; one that is too long for that is left out. */
static void list_file(struct manifest *list, const char *name, uint64_t sum) {
    if (sum >> 16 <= UINT32_MAX) {
        manifest_add(list, name, strlen(name), (uint32_t)(sum >> 16), (uint32_t)(sum & 0xFFFF));
    }
}

/* Takes what was found out about a file. */
static void take_evidence(struct check *check, const struct subject *subject) {
    const struct comparison *comparison = &subject->comparison;
    evidence_take(&check->evidence, check->item, subject->item);
    if (comparison->wanted && !comparison->different && !is_slip(subject->below)) {
        list_file(&check->compared, subject->in_master->name, comparison->sum);
    }
    if (check->files != NULL) {
        list_file(check->files, subject->below, subject_number(subject, TDS_ITEM_SUM));
    }
}

static void check_file(struct check *check, struct subject *subject) {
    struct trouble trouble;
    screen_file(check->report->screen, check->report->job,
                check->report->grounds.count[FOUND_REFUSED]);
    if (!subject_read(subject, &check->checker, &trouble)) {
        could_not(check, subject->path, &trouble);
        return;
    }
    check->in_a_row = 0;
    report_medium(check->report, subject->medium);
    if (stopped()) {
        return; /* it may not have been read to its end */
    }
    take_evidence(check, subject);
    tell_of(check->report, &check->misfits, subject, check->against->remedies);
}

/* Whether it is said of a file that the master has none of its name. */
static bool is_strange(struct check *check, const struct subject *subject) {
    if (check->in_master.manifest == NULL || subject->master != NULL) {
        return false;
    }
    report_found(check->report, FOUND_EXTRA, subject->path, "not in the master",
                 "delete it, or see that it is the right master");
    return true;
}

/* Whether it is said of a file that it does not belong on this stick. */
static bool is_extra(struct check *check, const struct subject *subject) {
    if (is_strange(check, subject)) {
        return true;
    }
    if (check->on_slip.manifest != NULL && subject->entry == NULL) {
        misfits_add(&check->misfits, FOUND_EXTRA, subject->path, "not on the slip",
                    subject->master == NULL
                        ? check->against->remedies->not_on_slip
                        : "the master has it, so the slip is wrong: copy the slip again");
        return true;
    }
    return false;
}

/* A file is read if it can be judged by itself or compared with another. What is almost a figure is
 * none, though a master or a slip may have it too. */
static void judge_file(struct check *check, struct subject *subject) {
    bool to_collect = check->files != NULL && subject->kind == KIND_OTHER;
    check->figures += subject->kind == KIND_FIGURE;
    if (is_extra(check, subject)) {
        return;
    }
    if (subject->kind == KIND_NEAR_FIGURE) {
        report_near(check->report, subject->path);
    }
    if (subject->kind == KIND_FIGURE || subject->master != NULL || subject->entry != NULL ||
        to_collect) {
        check_file(check, subject);
    } else if (subject->kind != KIND_NEAR_FIGURE) {
        report_unknown(check->report, subject->path);
    }
}

/* The slip is a file that is expected like any other, of the bytes that were read when the check
 * began. */
static void look_at_slip(struct check *check, struct subject *subject) {
    if (check->slip.state == SLIP_GOOD) {
        judge_file(check, subject);
    } else if (check->slip.state == SLIP_NONE) { /* a stick may fail to answer once, and go on */
        check->report->bare = 0;
        could_not_for_words(check, subject->path,
                            "this slip was not to be seen when the check began", "check again");
    } else if (check->slip.state == SLIP_BROKEN && !is_strange(check, subject) &&
               subject->master != NULL) {
        check_file(check, subject);
    }
}

/* A slip that lost its name or its place: what it says of the stick is not known. */
static void look_at_near_slip(struct check *check, const struct subject *subject) {
    bool exact = is_slip(last_name(subject->path));
    const char *remedy = exact ? "check the folder it stands in by itself, or delete it"
                               : "call it " SLIP_NAME " if it is the slip, else delete it";
    if (subject->master != NULL || subject->entry != NULL) {
        remedy = "give it another name, here and in the edition, and write its slip again";
    }
    could_not_for_words(check, subject->path,
                        exact ? "it is a slip, and stands below the top of the stick"
                              : "it is almost named as a slip",
                        remedy);
}

/* The file that is to stand in the master for one on the stick. */
static const struct expected *master_of(struct check *check, const char *name, struct text *path) {
    const struct expected *file = presence_meet(&check->in_master, name);
    if (file != NULL) {
        text_path(path, check->against->folder, file->name);
    }
    return file;
}

/* What is to be found out about a file. */
static struct subject subject_of(struct check *check, const struct entry *entry, const char *below,
                                 struct text *master) {
    struct subject subject = {.path = entry->path,
                              .below = below,
                              .kind = kind_of(entry->path),
                              .format = format_of(last_name(entry->path)),
                              .read_as = entry->path,
                              .list = check->report->style->list,
                              .in_master = master_of(check, below, master),
                              .entry = presence_meet(&check->on_slip, below)};
    subject.master = subject.in_master == NULL ? NULL : master->bytes;
    subject.summed = subject.entry != NULL || check->files != NULL;
    return subject;
}

static void look_at_file(struct check *check, const struct entry *entry) {
    struct text master = {0};
    struct subject subject = subject_of(check, entry, entry->below, &master);
    check->met += !is_slip(entry->below);
    if (subject.kind == KIND_LEFT_BEHIND) {
        report_found(check->report, FOUND_LEFT_BEHIND, entry->path, NULL, "delete it");
    } else if (is_slip(entry->below)) {
        look_at_slip(check, &subject);
    } else if (is_near_slip(entry->path) && !is_half_slip(entry->path)) {
        look_at_near_slip(check, &subject);
    } else {
        judge_file(check, &subject);
    }
    text_free(&master);
}

/* A file that was named alone: it was asked for, whatever its name. */
static void look_at_alone(struct check *check, const struct entry *entry) {
    bool compared = check->in_master.manifest != NULL;
    char *below = compared ? path_from_top(entry->path) : need_copy(last_name(entry->path));
    struct text master = {0};
    if (below == NULL) {
        could_not_for_words(check, entry->path,
                            "it cannot be told which file of the master this one is",
                            "give the folder of the stick");
        return;
    }
    struct subject subject = subject_of(check, entry, below, &master);
    if (subject.kind == KIND_LEFT_BEHIND) {
        report_found(check->report, FOUND_LEFT_BEHIND, entry->path, NULL, "delete it");
    } else {
        if (subject.format == NULL && !compared) {
            subject.kind = KIND_FIGURE;
            subject.format = studio_format();
            subject.read_as = subject.format->ending;
        }
        judge_file(check, &subject);
    }
    text_free(&master);
    free(below);
}

/* Whether a file of this name should be there; it is then not missing too. */
static bool is_expected(struct check *check, const char *below) {
    bool in_master = presence_meet(&check->in_master, below) != NULL;
    return presence_meet(&check->on_slip, below) != NULL || in_master;
}

static void look_at_folder(struct check *check, const struct entry *entry) {
    enum kind kind = kind_of(entry->path);
    if (*entry->below != '\0' && kind == KIND_LEFT_BEHIND) {
        walk_pass_over(&check->walk);
        report_found(check->report, FOUND_LEFT_BEHIND, entry->path, NULL, "delete it");
        return;
    }
    evidence_folder(&check->evidence, check->item);
    if (is_slip(entry->below) && check->slip.state == SLIP_UNREADABLE) {
        return; /* which was said */
    }
    if (is_expected(check, entry->below) || is_slip(entry->below)) {
        could_not_for_words(check, entry->path,
                            "it is a folder, and a file of this name belongs here",
                            "take it off the stick, and copy again");
    } else if (kind == KIND_FIGURE) {
        could_not_for_words(check, entry->path,
                            "it is a folder, though it is named as a figure (what is in it is "
                            "checked)",
                            "give the folder another name");
    }
}

/* What is neither a file nor a folder. One that a file should stand in place of is not missing too.
 */
static void look_at_other(struct check *check, const struct entry *entry) {
    struct trouble trouble;
    if (!is_slip(entry->below)) { /* beside a link of its name the slip itself may stand */
        is_expected(check, entry->below);
    }
    check->figures += kind_of(entry->path) == KIND_FIGURE;
    if (entry->kind == ENTRY_LINK) {
        trouble_of_system(&trouble, ELOOP);
        trouble.detail[0] = '\0';
        could_not(check, entry->path, &trouble);
    } else if (entry->kind == ENTRY_ERROR) {
        trouble_of_system(&trouble, entry->error);
        check->readable = check->readable && *entry->below != '\0';
        manifest_add(&check->unread, entry->below, strlen(entry->below), 0, 0);
        could_not(check, entry->path, &trouble);
    } else {
        could_not_for_words(check, entry->path,
                            "it is neither a file nor a folder, but a pipe, a device or the like",
                            "take it off the stick");
    }
}

/* Each thing has its item before anything is tried. */
static void look_at(struct check *check, const struct entry *entry) {
    if (!entry->known) {
        check->item = evidence_add(&check->evidence, entry->below);
    }
    switch (entry->kind) {
    case ENTRY_FILE:
        if (check->in_folder) {
            look_at_file(check, entry);
        } else {
            look_at_alone(check, entry);
        }
        break;
    case ENTRY_FOLDER:
        look_at_folder(check, entry);
        break;
    case ENTRY_LISTED:
        evidence_listed(&check->evidence, check->item, entry->names);
        break;
    default:
        look_at_other(check, entry);
        break;
    }
}

/* The slip of this stick, if it has one that can be used. */
static void take_slip(struct check *check) {
    struct slip *slip = &check->slip;
    slip_read(slip, check->root);
    if (slip->medium != MEDIUM_UNKNOWN) {
        report_medium(check->report, slip->medium);
    }
    if (slip->state == SLIP_UNREADABLE) {
        could_not(check, slip->path, &slip->trouble);
    } else if (slip->state == SLIP_BROKEN && !TDS_REFUSED(slip->answer)) {
        report_found(check->report, FOUND_BROKEN_SLIP, slip->path,
                     "the slip names itself, or a file twice",
                     "delete it, and copy the right slip");
    } else if (slip->state == SLIP_BROKEN) {
        struct text words = {0};
        text_format(&words, "the slip itself is broken (%d), at byte %lu",
                    TDS_REFUSAL(slip->answer), (unsigned long)TDS_PLACE(slip->answer));
        report_found(check->report, FOUND_BROKEN_SLIP, slip->path, words.bytes,
                     "copy the slip again");
        text_free(&words);
    }
    presence_start(&check->on_slip, slip->state == SLIP_GOOD ? &slip->manifest : NULL);
    check->report->bare = slip->state == SLIP_NONE && check->in_master.manifest == NULL;
}

/* What there is to do, for someone who waits, as far as a slip or a master tells. */
static void say_how_much(const struct check *check) {
    const struct manifest *manifest =
        check->in_master.manifest != NULL ? check->in_master.manifest : check->on_slip.manifest;
    unsigned long long bytes = 0;
    for (size_t i = 0; i < check->slip.manifest.count; i++) {
        bytes += check->slip.manifest.entries[i].length;
    }
    screen_begin(check->report->screen, check->report->job, CHECKING,
                 manifest == NULL ? 0 : manifest->count, bytes);
}

static void check_free(struct check *check) {
    walk_free(&check->walk);
    checker_free(&check->checker);
    presence_free(&check->in_master);
    presence_free(&check->on_slip);
    evidence_free(&check->evidence);
    manifest_free(&check->compared);
    misfits_free(&check->misfits);
    manifest_free(&check->unread);
    slip_free(&check->slip);
}

void check_stick(const char *root, const struct against *against, struct manifest *files,
                 struct report *report) {
    struct check check = {
        .root = root, .against = against, .report = report, .files = files, .readable = true};
    struct entry entry;
    presence_start(&check.in_master, against->folder == NULL ? NULL : against->manifest);
    take_slip(&check);
    say_how_much(&check);
    checker_start(&check.checker, report);
    walk_start(&check.walk, root);
    while (!stopped() && !check.given_up && walk_next(&check.walk, &entry)) {
        check.in_folder = check.in_folder || entry.kind == ENTRY_FOLDER;
        look_at(&check, &entry);
    }
    check_at_end(&check);
    check_free(&check);
}
