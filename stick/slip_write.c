/* Making the slip of a folder, and writing it: a new file, whole or not at all. */
#include <stdlib.h>
#include <string.h>

#include "slip.h"
#include "tds.h"
#include "writing.h"

enum { HEADER_BYTES = 7, BESIDE_NAME = 1 + 4 + 2 };

/* A slip that is being made. */
struct making {
    const struct manifest *manifest;
    struct text names;
    uint8_t *entries;
    uint8_t *slip;
    size_t size;
};

static void put_number(uint8_t *entry, enum tds_entry which, size_t number) {
    for (int i = 0; i < 4; i++) {
        entry[4 * which + i] = (uint8_t)(number >> 8 * i);
    }
}

/* The names in one row, and an entry for each. */
static void lay_out(struct making *making) {
    const struct manifest *manifest = making->manifest;
    making->entries = need_memory(NULL, manifest->count * TDS_ENTRY_BYTES);
    making->size = HEADER_BYTES;
    for (size_t i = 0; i < manifest->count; i++) {
        const struct expected *file = &manifest->entries[i];
        uint8_t *entry = making->entries + i * TDS_ENTRY_BYTES;
        put_number(entry, TDS_ENTRY_NAME, making->names.length);
        put_number(entry, TDS_ENTRY_NAME_LENGTH, strlen(file->name));
        put_number(entry, TDS_ENTRY_LENGTH, file->length);
        put_number(entry, TDS_ENTRY_SUMS, file->sums);
        text_add(&making->names, file->name);
        making->size += BESIDE_NAME + strlen(file->name);
    }
    making->slip = need_memory(NULL, making->size);
}

/* Whether a path is fit for a slip: tds_slip_write would not say which file is meant. */
static bool fits_slip(const char *name) {
    size_t length = strlen(name);
    for (size_t i = 0; i < length; i++) {
        if (name[i] < ' ' || name[i] > '~') {
            return false;
        }
    }
    return length >= 1 && length <= TDS_LONGEST_NAME;
}

/* The first file whose path is not fit, or NULL. */
static const struct expected *unfit(const struct manifest *manifest) {
    for (size_t i = 0; i < manifest->count; i++) {
        if (!fits_slip(manifest->entries[i].name)) {
            return &manifest->entries[i];
        }
    }
    return NULL;
}

static const struct expected *first_unfit(const struct manifest *manifest) {
    const struct expected *bad = unfit(manifest);
    return bad == NULL ? manifest_twice(manifest) : bad;
}

uint8_t *slip_make(const struct manifest *manifest, size_t *length, const struct expected **at) {
    struct making making = {.manifest = manifest};
    uint64_t answer;
    *at = first_unfit(manifest);
    if (*at != NULL || manifest->count > TDS_MOST_ENTRIES) {
        return NULL;
    }
    lay_out(&making);
    answer =
        tds_slip_write((const uint8_t *)making.names.bytes, making.names.length, making.entries,
                       manifest->count * TDS_ENTRY_BYTES, making.slip, making.size);
    text_free(&making.names);
    free(making.entries);
    if (answer != making.size) { /* what it refuses was asked above */
        free(making.slip);
        return NULL;
    }
    *length = making.size;
    return making.slip;
}

/* Says why no slip can be written, of a file below the folder or of the folder itself. */
static bool not_written(struct report *report, const char *folder, const char *name,
                        struct trouble *trouble) {
    struct text path = {0};
    text_add(&path, folder);
    if (name != NULL) {
        text_format(&path, "/%s", name);
    }
    report_trouble(report, path.bytes, "no slip was written", trouble);
    text_free(&path);
    return false;
}

/* All files whose paths are not fit, each with its line. */
static void say_unfit(const struct manifest *manifest, const char *folder, struct report *report) {
    struct trouble trouble;
    trouble_of_words(&trouble, "its path does not fit on the slip",
                     "give it a path of at most 63 plain characters, without accents");
    for (size_t i = 0; i < manifest->count; i++) {
        if (!fits_slip(manifest->entries[i].name)) {
            not_written(report, folder, manifest->entries[i].name, &trouble);
        }
    }
}

/* Why these files cannot stand on a slip. */
static bool cannot_be_listed(const struct manifest *manifest, const char *folder,
                             struct report *report) {
    const struct expected *again = manifest_twice(manifest);
    struct trouble trouble;
    if (unfit(manifest) != NULL) {
        say_unfit(manifest, folder, report);
        return false;
    }
    if (again != NULL) {
        trouble_of_words(&trouble, "its name and another are one on a stick", "rename one of them");
        return not_written(report, folder, again->name, &trouble);
    }
    if (manifest->count > TDS_MOST_ENTRIES) {
        trouble_of_words(&trouble, "there are more than 1,000 files, and a slip takes no more",
                         "put fewer files on the stick");
    } else {
        trouble_of_words(&trouble, "the library refuses it",
                         "tell whoever looks after this program");
    }
    return not_written(report, folder, NULL, &trouble);
}

static bool write_file(const uint8_t *slip, size_t size, const char *folder,
                       struct report *report) {
    struct writing writing;
    struct trouble trouble;
    struct text path = {0};
    bool good;
    text_path(&path, folder, SLIP_NAME);
    good = writing_open(&writing, path.bytes, &trouble);
    if (good) {
        bool added = writing_add(&writing, slip, size, &trouble);
        struct trouble later;
        good = writing_close(&writing, added, added ? &trouble : &later);
    }
    text_free(&path);
    return good || not_written(report, folder, SLIP_NAME, &trouble);
}

bool slip_write(const char *folder, const struct manifest *manifest, struct report *report) {
    const struct expected *at;
    size_t length;
    uint8_t *slip = slip_make(manifest, &length, &at);
    bool good = slip == NULL ? cannot_be_listed(manifest, folder, report)
                             : write_file(slip, length, folder, report);
    free(slip);
    return good;
}
