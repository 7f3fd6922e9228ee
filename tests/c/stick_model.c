/*
 * The model of stick(1): each function is a sentence of that page, its section in brackets.
 */
#include "stick_model.h"

#include <string.h>
#include <strings.h>

#include "tds.h"

static bool same(const char *one, const char *other) {
    return strcasecmp(one, other) == 0;
}

static const char *base_of(const char *path) {
    const char *slash = strrchr(path, '/');
    return slash == NULL ? path : slash + 1;
}

static bool ends(const char *path, const char *ending) {
    size_t length = strlen(path), end = strlen(ending);
    return length >= end && same(path + length - end, ending);
}

/* [DESCRIPTION] Every file whose name ends so, in capitals or not. */
static bool is_figure(const char *path) {
    return ends(path, ".3ds") || ends(path, ".cob") || ends(path, ".c4d");
}

/* Its reader accepts it. */
static bool is_accepted(const struct thing *file) {
    uint8_t item[TDS_ITEM_BYTES];
    tds_stick_file((const uint8_t *)file->path, strlen(file->path), 0, file->bytes, file->length,
                   item, sizeof item);
    return !TDS_REFUSED(tds_get_item(item, 0, TDS_ITEM_ANSWER));
}

/* [DESCRIPTION] What other computers leave on every stick they see. */
static bool is_left(const char *path) {
    const char *base = base_of(path);
    return strncmp(base, "._", 2) == 0 || same(base, ".Trashes") || same(base, ".DS_Store") ||
           same(base, "Thumbs.db");
}

/* [DESCRIPTION] Almost named as a figure, or half a slip; almost named as a slip. */
static bool is_almost(const char *path) {
    return ends(path, ".3ds.part") || ends(path, ".3ds~") || ends(path, "stick.slip.part");
}

static bool is_near_slip(const char *path) {
    return ends(path, ".slip~") || (ends(path, ".slip") && !same(path, "stick.slip"));
}

const struct thing *thing_at(const struct tree *tree, const char *path) {
    for (size_t i = 0; i < tree->count; i++) {
        if (same(tree->things[i].path, path)) {
            return &tree->things[i];
        }
    }
    return NULL;
}

/* How a file stands to what it is compared with: there is none of its name, another, or the same.
 */
enum match { NONE, OTHER, SAME };

static enum match by_master(const struct tree *master, const struct thing *file) {
    const struct thing *other = thing_at(master, file->path);
    if (other == NULL || other->kind != A_FILE) {
        return NONE;
    }
    return other->length == file->length && memcmp(other->bytes, file->bytes, file->length) == 0
               ? SAME
               : OTHER;
}

/* The entries of a slip; -1 where it is broken. */
static uint8_t entries[MOST_THINGS * TDS_ENTRY_BYTES];
static int read_slip(const struct thing *slip) {
    uint64_t count = tds_slip_read(slip->bytes, slip->length, entries, sizeof entries);
    return TDS_REFUSED(count) ? -1 : (int)count;
}

static uint32_t number_of(int entry, enum tds_entry number) {
    return tds_get_entry(entries, (size_t)entry, number);
}

static bool is_entry_of(const struct thing *slip, int entry, const char *path) {
    size_t length = number_of(entry, TDS_ENTRY_NAME_LENGTH);
    const uint8_t *name = slip->bytes + number_of(entry, TDS_ENTRY_NAME);
    return strlen(path) == length && strncasecmp(path, (const char *)name, length) == 0;
}

static enum match by_slip(const struct thing *slip, int count, const struct thing *file) {
    for (int entry = 0; entry < count; entry++) {
        if (is_entry_of(slip, entry, file->path)) {
            return tds_matches(file->bytes, file->length, number_of(entry, TDS_ENTRY_LENGTH),
                               number_of(entry, TDS_ENTRY_SUMS)) == 0
                       ? SAME
                       : OTHER;
        }
    }
    return NONE;
}

/* [VERDICTS] Of each thing that is met, the first of these counts. */
static int status_of(const struct check *check, const struct thing *slip, int count,
                     const struct thing *thing) {
    enum match master = check->master == NULL ? SAME : by_master(check->master, thing);
    enum match entry = count < 0 || thing == slip ? SAME : by_slip(slip, count, thing);
    if (is_left(thing->path)) {
        return 1;
    }
    if (thing->kind == A_LINK) {
        return 2;
    }
    if (thing->kind == A_FOLDER) { /* an empty one, in which no file belongs */
        return is_figure(thing->path) ? 2 : check->master != NULL || count >= 0;
    }
    if (is_near_slip(thing->path)) {
        return 2;
    }
    if (master == NONE || entry == NONE || thing_at(&check->stick, thing->path) != thing) {
        return 1;
    }
    if (is_almost(thing->path)) {
        return 2;
    }
    return !is_accepted(thing) || master == OTHER || entry == OTHER;
}

static int worse(int one, int other) {
    return one > other ? one : other;
}

/* [VERDICTS] Of the whole: a file that is missing is wrong; a link in the master is not checked. */
static int status_of_missing(const struct check *check, const struct thing *slip, int count) {
    int status = 0;
    for (int entry = 0; entry < count; entry++) {
        bool there = false;
        for (size_t i = 0; i < check->stick.count; i++) {
            const struct thing *file = &check->stick.things[i];
            there = there || (file != slip && is_entry_of(slip, entry, file->path));
        }
        status = worse(status, !there);
    }
    for (size_t i = 0; check->master != NULL && i < check->master->count; i++) {
        const struct thing *file = &check->master->things[i];
        bool wanted = file->kind == A_FILE && !is_left(file->path);
        bool there = thing_at(&check->stick, file->path) != NULL &&
                     thing_at(check->master, file->path) == file;
        status = worse(status, file->kind == A_LINK ? 2 : wanted && !there);
    }
    return status;
}

struct verdict verdict_of(const struct check *check) {
    const struct tree *stick = &check->stick;
    const struct thing *slip = thing_at(stick, "stick.slip");
    int status = check->fault ? 2 : 0, slips = 0, figures = 0, count;
    for (size_t i = 0; i < stick->count; i++) {
        const struct thing *thing = &stick->things[i];
        slips += same(thing->path, "stick.slip");
        figures += thing->kind == A_FILE && is_figure(thing->path) && !is_left(thing->path);
    }
    count = slips == 1 ? read_slip(slip) : -1;
    for (size_t i = 0; i < stick->count; i++) {
        status = worse(status, status_of(check, slip, count, &stick->things[i]));
    }
    status = worse(status, status_of_missing(check, slip, count));
    status = worse(status, slips > 1 || figures == 0 ? 2 : slips == 1 && count < 0);
    if (status == 0 && slips == 0 && check->master == NULL) {
        return (struct verdict){"STRUCTURE ONLY", check->structure ? 0 : 2};
    }
    return (struct verdict){status == 0 ? "PASS" : "DO NOT SEAL", status};
}

struct verdict worst_of(struct verdict one, struct verdict other) {
    static const char *const order[] = {"PASS", "STRUCTURE ONLY", "DO NOT SEAL"};
    int word = 0;
    for (int i = 0; i < 3; i++) {
        word = strcmp(one.word, order[i]) == 0 || strcmp(other.word, order[i]) == 0 ? i : word;
    }
    return (struct verdict){order[word], worse(one.status, other.status)};
}
