/* The end of a check: what is missing, which folders are more, and the library's judgement. */
#include <string.h>
#include <strings.h>

#include "checking.h"
#include "stop.h"

/* Whether nobody could see if a file is there. */
static bool is_unseen(const struct check *check, const char *name) {
    for (size_t i = 0; i < check->unread.count; i++) {
        const char *folder = check->unread.entries[i].name;
        size_t length = strlen(folder);
        if (strncasecmp(name, folder, length) == 0 && name[length] == '/') {
            return true;
        }
    }
    return false;
}

static void say_missing_of_master(struct check *check) {
    const struct presence *master = &check->in_master;
    struct text path = {0};
    for (size_t i = 0; master->manifest != NULL && i < master->manifest->count; i++) {
        const char *name = master->manifest->entries[i].name;
        if (!master->met[i] && !is_unseen(check, name)) {
            text_path(&path, check->root, name);
            report_found(check->report, FOUND_MISSING, path.bytes, NULL,
                         check->against->remedies->missing);
        }
    }
    text_free(&path);
}

/* After that of the master: meeting a name there now tells that it was said. */
static void say_missing_of_slip(struct check *check) {
    const struct presence *slip = &check->on_slip;
    bool alone = check->in_master.manifest == NULL;
    struct text path = {0};
    for (size_t i = 0; slip->manifest != NULL && i < slip->manifest->count; i++) {
        const char *name = slip->manifest->entries[i].name;
        if (!slip->met[i] && presence_meet(&check->in_master, name) == NULL &&
            !is_unseen(check, name)) {
            text_path(&path, check->root, name);
            misfits_add(&check->misfits, FOUND_MISSING, path.bytes,
                        alone ? NULL : "missing here and in the master, though it is on the slip",
                        alone ? check->against->remedies->missing
                              : "see that it is the right master, and the slip no old one");
        }
    }
    text_free(&path);
}

/* Whether some file that belongs on the stick stands in a folder, by all that tells of it. */
static bool leads(const struct check *check, const char *folder) {
    const struct manifest *slip = check->on_slip.manifest, *master = check->in_master.manifest;
    return (slip == NULL || manifest_leads(slip, folder)) &&
           (master == NULL || manifest_leads(master, folder));
}

/* An empty folder belongs to no edition: a slip has files only. */
static void say_empty_folder(struct check *check, const char *below) {
    struct text path = {0};
    text_path(&path, check->root, below);
    if (check->files != NULL && check->slip.state == SLIP_NONE) {
        could_not_for_words(check, path.bytes, "the folder is empty, and a slip has files only",
                            "delete it");
    } else if (!leads(check, below)) {
        report_found(check->report, FOUND_EXTRA, path.bytes,
                     "an empty folder, in which nothing belongs", "delete it");
    }
    text_free(&path);
}

/* Two folders whose names differ only in their letters' case are one on a stick. */
static void say_folder_twice(struct check *check, struct manifest *folders) {
    const struct expected *twice;
    struct text path = {0};
    manifest_sort(folders);
    twice = manifest_twice(folders);
    if (twice != NULL && (check->on_slip.manifest != NULL || check->in_master.manifest != NULL)) {
        text_path(&path, check->root, twice->name);
        report_found(check->report, FOUND_EXTRA, path.bytes,
                     "this folder's name and another are one on a stick", "put both into one");
    }
    text_free(&path);
}

/* What is wrong with folders, though all that is in them may be well. */
static void say_folders(struct check *check) {
    const struct evidence *evidence = &check->evidence;
    struct manifest folders = {0};
    struct text below = {0};
    for (size_t i = 1; i < evidence->count; i++) {
        if (tds_get_item(evidence->items, i, TDS_ITEM_KIND) == TDS_ITEM_FOLDER) {
            text_cut(&below, 0);
            evidence_path(evidence, i, &below);
            manifest_add(&folders, below.bytes, below.length, 0, 0);
            if (tds_get_item(evidence->items, i, TDS_ITEM_SIZE) == 1) {
                say_empty_folder(check, below.bytes);
            }
        }
    }
    say_folder_twice(check, &folders);
    manifest_free(&folders);
    text_free(&below);
}

/* What only the whole walk of a folder can tell. */
static void at_end_of_folder(struct check *check) {
    struct trouble trouble;
    if (!walk_root_stands(&check->walk, check->root)) {
        trouble_of_stick(&trouble);
        could_not(check, check->root, &trouble);
        return;
    }
    if (check->figures == 0) {
        could_not_for_words(check, check->root, "there is no figure in this folder",
                            "see that it is the right folder, and that the edition was copied");
    }
    say_missing_of_master(check);
    say_missing_of_slip(check);
    say_folders(check);
}

void check_at_end(struct check *check) {
    struct report *report = check->report;
    struct grounds *grounds = &report->grounds;
    report->unfinished = report->unfinished || stopped();
    grounds->alone = !check->in_folder;
    grounds->figures = evidence_figures(&check->evidence, &grounds->accepted);
    if (!report->unfinished && check->readable) {
        grounds->whole = evidence_is_whole(&check->evidence);
        if (check->in_folder) {
            at_end_of_folder(check);
        }
    }
    misfits_say(&check->misfits, report, check->slip.path, check->met, check->against->remedies);
    if (grounds->whole && check->in_folder) {
        judge_gathered(&(struct gathered){check->root, &check->evidence, check->in_master.manifest,
                                          &check->compared, &check->slip, check->misfits.count > 0},
                       report);
    }
}
