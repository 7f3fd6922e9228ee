/*
 * The evidence for a verdict. What is written here by hand is where a path stands and how many
 * names a folder listed; all that is known of a file comes from the library's own calls.
 */
#include "evidence.h"

#include <stdlib.h>
#include <string.h>
#include <strings.h>

#include "formats.h"
#include "kinds.h"
#include "slip.h"

void evidence_free(struct evidence *evidence) {
    text_free(&evidence->names);
    free(evidence->items);
    *evidence = (struct evidence){0};
}

size_t evidence_add(struct evidence *evidence, const char *below) {
    size_t item = evidence->count;
    if (item == evidence->room) {
        evidence->room = 2 * evidence->room + 16;
        evidence->items = need_memory(evidence->items, evidence->room * TDS_ITEM_BYTES);
    }
    memset(evidence->items + item * TDS_ITEM_BYTES, 0, TDS_ITEM_BYTES);
    tds_set_item(evidence->items, item, TDS_ITEM_NAME, evidence->names.length);
    tds_set_item(evidence->items, item, TDS_ITEM_NAME_LENGTH, strlen(below));
    text_add(&evidence->names, below);
    evidence->count++;
    return item;
}

void evidence_folder(struct evidence *evidence, size_t item) {
    tds_set_item(evidence->items, item, TDS_ITEM_KIND, TDS_ITEM_FOLDER);
}

void evidence_listed(struct evidence *evidence, size_t item, size_t names) {
    tds_set_item(evidence->items, item, TDS_ITEM_SIZE, 1 + (uint64_t)names);
}

void evidence_take(struct evidence *evidence, size_t item, const uint8_t found[TDS_ITEM_BYTES]) {
    enum { FROM = 8 * TDS_ITEM_KIND }; /* behind the two numbers of its name */
    memcpy(evidence->items + item * TDS_ITEM_BYTES + FROM, found + FROM, TDS_ITEM_BYTES - FROM);
}

static bool is_read_whole(const uint8_t item[TDS_ITEM_BYTES]) {
    return tds_get_item(item, 0, TDS_ITEM_KIND) == TDS_ITEM_FILE &&
           tds_get_item(item, 0, TDS_ITEM_SUM) >> 16 == tds_get_item(item, 0, TDS_ITEM_SIZE);
}

bool item_is_accepted(const uint8_t item[TDS_ITEM_BYTES]) {
    return is_read_whole(item) && tds_get_item(item, 0, TDS_ITEM_READER) != 0 &&
           !TDS_REFUSED(tds_get_item(item, 0, TDS_ITEM_ANSWER));
}

void evidence_path(const struct evidence *evidence, size_t item, struct text *path) {
    text_add_bytes(path, evidence->names.bytes + tds_get_item(evidence->items, item, TDS_ITEM_NAME),
                   (size_t)tds_get_item(evidence->items, item, TDS_ITEM_NAME_LENGTH));
}

size_t evidence_figures(const struct evidence *evidence, size_t *accepted) {
    struct text path = {0};
    size_t figures = 0;
    *accepted = 0;
    for (size_t i = 0; i < evidence->count; i++) {
        text_cut(&path, 0);
        evidence_path(evidence, i, &path);
        figures += format_of(last_name(path.bytes)) != NULL;
        *accepted += item_is_accepted(evidence->items + i * TDS_ITEM_BYTES);
    }
    text_free(&path);
    return figures;
}

bool evidence_is_whole(const struct evidence *evidence) {
    uint64_t names = 1;
    bool whole = true;
    for (size_t i = 0; i < evidence->count; i++) {
        if (tds_get_item(evidence->items, i, TDS_ITEM_KIND) == TDS_ITEM_FOLDER) {
            uint64_t size = tds_get_item(evidence->items, i, TDS_ITEM_SIZE);
            whole = whole && size != 0;
            names += size - 1;
        }
    }
    return whole && evidence->count == names;
}

uint64_t evidence_judge(const struct evidence *evidence, const uint8_t *slip, size_t length) {
    return tds_stick_judge(slip, length, (const uint8_t *)evidence->names.bytes,
                           evidence->names.length, evidence->items,
                           evidence->count * TDS_ITEM_BYTES);
}

/* The number of the slip's item; the count of all where there is none. */
static size_t slip_item(const struct evidence *evidence) {
    size_t item = 0, length = strlen(SLIP_NAME);
    while (item < evidence->count &&
           (tds_get_item(evidence->items, item, TDS_ITEM_NAME_LENGTH) != length ||
            strncasecmp(evidence->names.bytes + tds_get_item(evidence->items, item, TDS_ITEM_NAME),
                        SLIP_NAME, length) != 0)) {
        item++;
    }
    return item;
}

static void copy_to(struct evidence *copy, const struct evidence *evidence) {
    size_t size = evidence->count * TDS_ITEM_BYTES;
    copy->items = need_memory(NULL, size);
    copy->count = copy->room = evidence->count;
    if (size > 0) {
        memcpy(copy->items, evidence->items, size);
    }
    text_add_bytes(&copy->names, evidence->names.bytes, evidence->names.length);
}

/* Puts a list in the place of the slip, which was read whole; without one it is one name more. */
static void put_list(struct evidence *copy, const uint8_t *list, size_t length,
                     bool may_have_slip) {
    uint8_t found[TDS_ITEM_BYTES] = {0};
    size_t item = slip_item(copy);
    bool whole =
        item < copy->count && may_have_slip && is_read_whole(copy->items + item * TDS_ITEM_BYTES);
    if (item == copy->count) {
        uint64_t listed = tds_get_item(copy->items, 0, TDS_ITEM_SIZE);
        tds_set_item(copy->items, 0, TDS_ITEM_SIZE, listed == 0 ? 0 : listed + 1);
        whole = evidence_add(copy, SLIP_NAME) == item;
    }
    tds_stick_file((const uint8_t *)SLIP_NAME, strlen(SLIP_NAME), length, list, length, found,
                   sizeof found);
    if (whole) {
        evidence_take(copy, item, found);
    }
}

uint64_t evidence_judge_by_list(const struct evidence *evidence, const uint8_t *list, size_t length,
                                bool may_have_slip) {
    struct evidence copy = {0};
    uint64_t answer;
    if (evidence->count == 0) {
        return 0;
    }
    copy_to(&copy, evidence);
    put_list(&copy, list, length, may_have_slip);
    answer = evidence_judge(&copy, list, length);
    evidence_free(&copy);
    return answer;
}
