/* Finding and reading the slip of a stick; the library knows what is in it. */
#include "slip.h"

#include <stdlib.h>
#include <string.h>
#include <strings.h>

#include "folder.h"
#include "longpath.h"
#include "reading.h"
#include "tds.h"

bool is_slip(const char *below) {
    return strcasecmp(below, SLIP_NAME) == 0;
}

/* Of a link, a pipe or the like the walk says what it is. */
static bool is_file_or_folder(const char *path) {
    struct stat status;
    return long_stat(path, 1, &status) == 0 && (S_ISREG(status.st_mode) || S_ISDIR(status.st_mode));
}

/* A second slip is there: none is used. */
static void note_other(struct slip *slip, const char *name) {
    struct text words = {0};
    text_format(&words, "%s is there too, and which of these slips is right cannot be told", name);
    trouble_of_words(&slip->trouble, words.bytes, "delete one");
    slip->state = SLIP_UNREADABLE;
    text_free(&words);
}

/* Takes up something that has the name of a slip. */
static void take_up(struct slip *slip, const char *path, const char *name) {
    if (!is_file_or_folder(path)) {
        return;
    }
    if (slip->path == NULL) {
        slip->path = need_copy(path);
    } else {
        note_other(slip, name);
    }
}

/* Finds the slip in a folder. Where letters of either case are told apart, there can be two. */
static void find(struct slip *slip, const char *folder) {
    struct text path = {0};
    struct folder names;
    folder_read(&names, folder, true);
    for (size_t i = 0; i < names.count && slip->state == SLIP_NONE; i++) {
        if (is_slip(names.names[i])) {
            text_path(&path, folder, names.names[i]);
            take_up(slip, path.bytes, names.names[i]);
        }
    }
    folder_free(&names);
    text_free(&path);
}

/* Reads the file; one byte over the longest slip shows that it is none. */
static bool read_bytes(struct slip *slip) {
    struct reading reading;
    bool good;
    if (!reading_open(&reading, slip->path, FROM_STICK, &slip->trouble)) {
        return false;
    }
    slip->medium = reading.medium;
    slip->bytes = need_memory(NULL, TDS_LONGEST_SLIP + 1);
    good =
        reading_block(&reading, slip->bytes, TDS_LONGEST_SLIP + 1, &slip->length, &slip->trouble);
    return reading_close(&reading, &slip->trouble) && good;
}

/* Takes the entries over, and the slip itself: it is a file that must be there like any other, of
 * these very bytes. */
static void take_entries(struct slip *slip, const uint8_t *entries, size_t count) {
    uint64_t sum = tds_sum_add(0, slip->bytes, slip->length);
    for (size_t i = 0; i < count; i++) {
        uint32_t at = tds_get_entry(entries, i, TDS_ENTRY_NAME);
        uint32_t length = tds_get_entry(entries, i, TDS_ENTRY_NAME_LENGTH);
        manifest_add(&slip->manifest, (const char *)slip->bytes + at, length,
                     tds_get_entry(entries, i, TDS_ENTRY_LENGTH),
                     tds_get_entry(entries, i, TDS_ENTRY_SUMS));
    }
    manifest_add(&slip->manifest, SLIP_NAME, strlen(SLIP_NAME), (uint32_t)slip->length,
                 (uint32_t)(sum & 0xFFFF));
    manifest_sort(&slip->manifest);
}

void slip_read(struct slip *slip, const char *folder) {
    uint8_t *entries;
    *slip = (struct slip){0};
    find(slip, folder);
    if (slip->path == NULL || slip->state == SLIP_UNREADABLE) {
        return;
    }
    slip->state = SLIP_UNREADABLE;
    if (!read_bytes(slip)) {
        return;
    }
    entries = need_memory(NULL, TDS_MOST_ENTRIES * TDS_ENTRY_BYTES);
    slip->answer =
        tds_slip_read(slip->bytes, slip->length, entries, TDS_MOST_ENTRIES * TDS_ENTRY_BYTES);
    slip->state = SLIP_BROKEN;
    if (!TDS_REFUSED(slip->answer)) {
        take_entries(slip, entries, (size_t)slip->answer);
        slip->state = manifest_twice(&slip->manifest) == NULL ? SLIP_GOOD : SLIP_BROKEN;
    }
    free(entries);
}

void slip_free(struct slip *slip) {
    manifest_free(&slip->manifest);
    free(slip->bytes);
    free(slip->path);
    *slip = (struct slip){0};
}
