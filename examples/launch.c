/*
 * launch.c - what a viewer does at its first launch: is the stick as it left the house?
 *
 *     launch FOLDER
 *
 * It walks the stick's folder and gathers an item for each thing that it meets, with the evidence
 * that the library makes of it; the library judges. An item is zero at first and stays so where
 * anything fails, for what was not looked at is never good. Then it says that all is well, or which
 * files are not to be shown. Its memory is fixed: a stick of more than fits is not good.
 *
 * Exit status: 0 the stick is as it left the house, 1 it is not, 2 it could not be looked at.
 */
#include <dirent.h>
#include <errno.h>
#include <fcntl.h>
#include <stdint.h>
#include <stdio.h>
#include <string.h>
#include <strings.h>
#include <sys/stat.h>
#include <unistd.h>

#include "tds_words.h" /* and with it tds.h */

enum { MOST_ITEMS = 4096 };
static uint8_t items[MOST_ITEMS * TDS_ITEM_BYTES];
static char names[64 * MOST_ITEMS]; /* a zero behind each */
static uint8_t slip[TDS_LONGEST_SLIP + 1], entries[TDS_MOST_ENTRIES * TDS_ENTRY_BYTES];
static size_t item_count, names_len, slip_len, entry_count;
static uint8_t part[TDS_LONGEST_FILE + 1]; /* a whole figure, and a byte to see if there is more */

/* The item of a path, all else of it zero. Where none is left it is not met, which is not good. */
static size_t new_item(const char *path) {
    size_t size = strlen(path) + 1;
    if (item_count == MOST_ITEMS || size > sizeof names - names_len) {
        return MOST_ITEMS;
    }
    memcpy(names + names_len, path, size);
    tds_set_item(items, item_count, TDS_ITEM_NAME, names_len);
    tds_set_item(items, item_count, TDS_ITEM_NAME_LENGTH, size - 1);
    names_len += size;
    return item_count++;
}

/* As many bytes as `part` has room for, or all that are left; below 0 where they cannot be read. */
static ssize_t next_part(int file) {
    size_t filled = 0;
    ssize_t count;
    while ((count = read(file, part + filled, sizeof part - filled)) > 0) {
        filled += (size_t)count;
    }
    return count < 0 ? -1 : (ssize_t)filled;
}

/* Reads a file to its end, and only then fills its item. The slip is kept as it was read. */
static void gather_file(size_t item, const char *path, int file, uint64_t size) {
    uint8_t evidence[TDS_ITEM_BYTES] = {0};
    ssize_t count = next_part(file);
    if (count >= 0) {
        tds_stick_file((const uint8_t *)path, strlen(path), size, part, (size_t)count, evidence,
                       sizeof evidence);
    }
    if (count >= 0 && strcasecmp(path, "stick.slip") == 0) {
        slip_len = (size_t)count < sizeof slip ? (size_t)count : sizeof slip;
        memcpy(slip, part, slip_len);
    }
    while (count > 0) {
        count = next_part(file);
        tds_stick_more(part, count > 0 ? (size_t)count : 0, evidence, sizeof evidence);
    }
    if (count == 0) { /* all but where its path stands */
        memcpy(items + item * TDS_ITEM_BYTES + 16, evidence + 16, TDS_ITEM_BYTES - 16);
    }
}

static void gather(int around, const char *name, const char *path);

/* Counts the names in a folder and gathers each; its item is filled once all were listed. */
static void gather_folder(size_t item, const char *path, int file) {
    struct dirent *entry;
    char below[TDS_LONGEST_NAME + 1 + sizeof entry->d_name];
    uint64_t listed = 0;
    DIR *folder = fdopendir(file);
    if (folder == NULL) {
        close(file);
        return;
    }
    while (errno = 0, (entry = readdir(folder)) != NULL) {
        if (strcmp(entry->d_name, ".") != 0 && strcmp(entry->d_name, "..") != 0) {
            listed++;
            snprintf(below, sizeof below, "%s%s%s", path, *path ? "/" : "", entry->d_name);
            gather(dirfd(folder), entry->d_name, below);
        }
    }
    if (errno == 0) {
        tds_set_item(items, item, TDS_ITEM_KIND, TDS_ITEM_FOLDER);
        tds_set_item(items, item, TDS_ITEM_SIZE, 1 + listed);
    }
    closedir(folder);
}

/* A file, a folder, or neither. No name on a slip, and no file, is longer than is looked at. */
static void gather(int around, const char *name, const char *path) {
    size_t item = new_item(path);
    int skipped = item == MOST_ITEMS || strlen(path) > TDS_LONGEST_NAME;
    int file = skipped ? -1 : openat(around, name, O_RDONLY | O_NOFOLLOW | O_NONBLOCK | O_CLOEXEC);
    struct stat status = {0};
    if (file >= 0 && fstat(file, &status) == 0 && S_ISDIR(status.st_mode)) {
        gather_folder(item, path, file);
    } else if (file >= 0) {
        if (S_ISREG(status.st_mode) && status.st_size <= UINT32_MAX) {
            gather_file(item, path, file, (uint64_t)status.st_size);
        }
        close(file);
    }
}

static const char *path_of(size_t item) {
    return names + tds_get_item(items, item, TDS_ITEM_NAME);
}

static const char *name_of(size_t entry) {
    static char name[TDS_LONGEST_NAME + 1];
    snprintf(name, sizeof name, "%.*s", (int)tds_get_entry(entries, entry, TDS_ENTRY_NAME_LENGTH),
             (const char *)slip + tds_get_entry(entries, entry, TDS_ENTRY_NAME));
    return name;
}

/* Names come from strangers: what is not plain is a question mark. */
static void tell(const char *name, const char *words) {
    for (; *name != '\0'; name++) {
        putchar(*name >= 32 && *name <= 126 ? *name : '?');
    }
    printf(": %s\n", words);
}

/* What is wrong with a file of the slip; NULL where it is the very one that left the house. */
static const char *fault_of(size_t entry, size_t *figures) {
    const char *name = name_of(entry);
    size_t item = 0, met = 0;
    uint64_t answer;
    for (size_t i = 1; i < item_count; i++) {
        if (strcasecmp(path_of(i), name) == 0) {
            item = i;
            met++;
        }
    }
    if (met != 1 || tds_get_item(items, item, TDS_ITEM_KIND) != TDS_ITEM_FILE) {
        return met == 0 ? "it is not there" : met > 1 ? "it is there twice" : "it cannot be read";
    }
    answer = tds_sum_matches(tds_get_item(items, item, TDS_ITEM_SUM),
                             tds_get_entry(entries, entry, TDS_ENTRY_LENGTH),
                             tds_get_entry(entries, entry, TDS_ENTRY_SUMS));
    answer = TDS_REFUSED(answer) ? answer : tds_get_item(items, item, TDS_ITEM_ANSWER);
    *figures += !TDS_REFUSED(answer) && tds_get_item(items, item, TDS_ITEM_READER) != 0;
    return TDS_REFUSED(answer) ? tds_refusal_words(TDS_REFUSAL(answer)) : NULL;
}

/* Every file of the slip with a fault, and what is not on it; how many figures have none. */
static size_t tell_faults(void) {
    size_t figures = 0, i, k;
    for (i = 0; i < entry_count; i++) {
        const char *fault = fault_of(i, &figures);
        if (fault != NULL) {
            tell(name_of(i), fault);
        }
    }
    for (i = 1; i < item_count; i++) {
        int expected = tds_get_item(items, i, TDS_ITEM_KIND) == TDS_ITEM_FOLDER ||
                       strcasecmp(path_of(i), "stick.slip") == 0;
        for (k = 0; k < entry_count && !expected; k++) {
            expected = strcasecmp(path_of(i), name_of(k)) == 0;
        }
        if (!expected) {
            tell(path_of(i), "it is not on the slip");
        }
    }
    return figures;
}

int main(int argc, char **argv) {
    int folder = argc == 2 ? open(argv[1], O_RDONLY | O_DIRECTORY | O_CLOEXEC) : -1;
    uint64_t answer, count;
    if (folder < 0) {
        return fputs("launch FOLDER: the folder cannot be looked at\n", stderr), 2;
    }
    gather_folder(new_item(""), "", folder);
    answer = tds_stick_judge(slip, slip_len, (const uint8_t *)names, names_len, items,
                             item_count * TDS_ITEM_BYTES);
    if (answer == 1) { /* and nothing else */
        puts("This stick is as it left the house: every figure on it may be shown.");
        return fflush(stdout) != 0 ? 2 : 0;
    }
    count = tds_slip_read(slip, slip_len, entries, sizeof entries);
    entry_count = TDS_REFUSED(count) ? 0 : (size_t)count;
    printf("This stick is not as it left the house (%s). Not to be shown:\n",
           slip_len == 0 ? "there is no slip" : tds_refusal_words(TDS_REFUSAL(answer)));
    printf("Figures that may be shown: %lu\n", (unsigned long)tell_faults());
    return fflush(stdout) != 0 ? 2 : 1;
}
