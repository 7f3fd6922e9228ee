/* What should be on a stick: a sorted list of names, and which of them were met. */
#include "manifest.h"

#include <stdlib.h>
#include <string.h>
#include <strings.h>

#include "kinds.h"
#include "walk.h"

void manifest_add(struct manifest *manifest, const char *name, size_t name_length, uint32_t length,
                  uint32_t sums) {
    char *copy = need_memory(NULL, name_length + 1);
    memcpy(copy, name, name_length);
    copy[name_length] = '\0';
    if (manifest->count == manifest->room) {
        manifest->room = 2 * manifest->room + 16;
        manifest->entries =
            need_memory(manifest->entries, manifest->room * sizeof *manifest->entries);
    }
    manifest->entries[manifest->count] = (struct expected){copy, length, sums};
    manifest->count++;
}

static int by_letters(const void *left, const void *right) {
    return strcasecmp(((const struct expected *)left)->name,
                      ((const struct expected *)right)->name);
}

void manifest_sort(struct manifest *manifest) {
    if (manifest->count > 0) {
        qsort(manifest->entries, manifest->count, sizeof *manifest->entries, by_letters);
    }
}

void manifest_free(struct manifest *manifest) {
    for (size_t i = 0; i < manifest->count; i++) {
        free(manifest->entries[i].name);
    }
    free(manifest->entries);
    *manifest = (struct manifest){0};
}

/* Where names differ only in their letters' case, the very name is looked for. */
static size_t best_of(const struct manifest *manifest, size_t first, const char *name) {
    for (size_t i = first; i < manifest->count; i++) {
        if (strcasecmp(manifest->entries[i].name, name) != 0) {
            break;
        }
        if (strcmp(manifest->entries[i].name, name) == 0) {
            return i;
        }
    }
    return first;
}

/* The first place in the sorted list that a name does not stand before. */
static size_t place_of(const struct manifest *manifest, const char *name) {
    size_t low = 0, high = manifest->count;
    while (low < high) {
        size_t middle = low + (high - low) / 2;
        if (strcasecmp(manifest->entries[middle].name, name) < 0) {
            low = middle + 1;
        } else {
            high = middle;
        }
    }
    return low;
}

const struct expected *manifest_twice(const struct manifest *manifest) {
    for (size_t i = 1; i < manifest->count; i++) {
        if (strcasecmp(manifest->entries[i - 1].name, manifest->entries[i].name) == 0) {
            return &manifest->entries[i];
        }
    }
    return NULL;
}

bool manifest_leads(const struct manifest *manifest, const char *folder) {
    struct text below = {0};
    size_t place;
    bool leads;
    text_format(&below, "%s/", folder);
    place = place_of(manifest, below.bytes);
    leads = place < manifest->count &&
            strncasecmp(manifest->entries[place].name, below.bytes, below.length) == 0;
    text_free(&below);
    return leads;
}

void presence_start(struct presence *presence, const struct manifest *manifest) {
    size_t count = manifest == NULL ? 0 : manifest->count;
    *presence = (struct presence){manifest, need_memory(NULL, count * sizeof *presence->met)};
    for (size_t i = 0; i < count; i++) {
        presence->met[i] = false;
    }
}

void presence_free(struct presence *presence) {
    free(presence->met);
    *presence = (struct presence){0};
}

const struct expected *presence_meet(struct presence *presence, const char *name) {
    const struct manifest *manifest = presence->manifest;
    size_t place = manifest == NULL ? 0 : place_of(manifest, name);
    if (manifest == NULL || place == manifest->count ||
        strcasecmp(manifest->entries[place].name, name) != 0) {
        return NULL;
    }
    place = best_of(manifest, place, name);
    if (presence->met[place]) {
        return NULL; /* a second file for it, whose name has letters of another case */
    }
    presence->met[place] = true;
    return &manifest->entries[place];
}

/* What the walk met that is no file: all but folders is a problem. */
static bool is_folder(struct report *report, const struct entry *entry) {
    struct trouble trouble;
    if (entry->kind == ENTRY_FOLDER || entry->kind == ENTRY_LISTED) {
        return true;
    }
    if (entry->kind == ENTRY_ERROR) {
        trouble_of_system(&trouble, entry->error);
    } else {
        trouble_of_words(&trouble, "it is neither a file nor a folder", "take it out of there");
    }
    report_trouble(report, entry->path, NULL, &trouble);
    return false;
}

bool manifest_of_folder(struct manifest *manifest, const char *folder, struct report *report) {
    struct entry entry;
    struct walk walk;
    bool good = true;
    walk_start(&walk, folder);
    while (walk_next(&walk, &entry)) {
        if (*entry.below != '\0' && kind_of(entry.path) == KIND_LEFT_BEHIND) {
            walk_pass_over(&walk);
        } else if (entry.kind == ENTRY_FILE) {
            manifest_add(manifest, entry.below, strlen(entry.below), 0, 0);
        } else {
            good = is_folder(report, &entry) && good;
        }
    }
    walk_free(&walk);
    manifest_sort(manifest);
    return good;
}
