/*
 * The evidence for a verdict: an item for each thing that the walk met, as the library judges them
 * (tds_stick_judge in tds.h). An item is zero until something was found out, and zero never passes.
 */
#ifndef STICK_EVIDENCE_H
#define STICK_EVIDENCE_H

#include <stdbool.h>

#include "tds.h"
#include "text.h"

struct evidence {
    struct text names; /* all paths, one behind the other */
    uint8_t *items;
    size_t count;
    size_t room;
};

void evidence_free(struct evidence *evidence);

/* One thing more was met, of which nothing is known yet. Answers its number. */
size_t evidence_add(struct evidence *evidence, const char *below);

/* It is a folder, whose names are to be listed; and all of them could be, so many. */
void evidence_folder(struct evidence *evidence, size_t item);
void evidence_listed(struct evidence *evidence, size_t item, size_t names);

/* A file: what was found out, by tds_stick_file and tds_stick_more alone. */
void evidence_take(struct evidence *evidence, size_t item, const uint8_t found[TDS_ITEM_BYTES]);

/* Whether an item is a figure that was read whole, and that its reader accepted. */
bool item_is_accepted(const uint8_t item[TDS_ITEM_BYTES]);

/* Adds the path of an item to a text. */
void evidence_path(const struct evidence *evidence, size_t item, struct text *path);

/* How many items are named as figures, and how many such figures there are. */
size_t evidence_figures(const struct evidence *evidence, size_t *accepted);

/* Whether every name that was listed is an item. */
bool evidence_is_whole(const struct evidence *evidence);

/* The library's judgement by the slip of the stick: 1 is good, and nothing else is. */
uint64_t evidence_judge(const struct evidence *evidence, const uint8_t *slip, size_t length);

/* The same by a list of files that is laid out as a slip and stands on no stick: in the place of
 * the stick's own slip, where there is one and may be one beside these files. */
uint64_t evidence_judge_by_list(const struct evidence *evidence, const uint8_t *list, size_t length,
                                bool may_have_slip);

#endif
