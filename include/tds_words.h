/*
 * tds_words.h - the refusals of tds.h in words, for a program that tells its user why a figure is
 * not shown. They take any number, TDS_REFUSAL(answer) for instance, and answer a string
 * that stays. All numbers have their words, those too that only calls of later versions answer.
 * These are said of a file that is read; of what was to be written, by tds_write, tds_write_figure
 * or tds_slip_write, ask tds_write_words, and which row a 13 speaks of, tds_write_row.
 *
 *     fprintf(stderr, "not shown: %s, at byte %lu\n", tds_refusal_words(TDS_REFUSAL(answer)),
 *             (unsigned long)TDS_PLACE(answer));
 *
 * Copyright (c) 2026 the Tlapezume developers. SPDX-License-Identifier: MIT (see LICENSE)
 */
#ifndef TDS_WORDS_H
#define TDS_WORDS_H

#include "tds.h"

/* All numbers from 1 up to this are refusals. */
#define TDS_LAST_REFUSAL 37

#ifdef __cplusplus
extern "C" {
#endif

/* Name and words of each refusal, by its number: the one source, to which every page is held. */
TDS_INLINE const char *const *tds_refusal_texts_(int refusal) {
    static const char *const texts[TDS_LAST_REFUSAL + 1][2] = {
        /* 0 */ {"UNKNOWN", "no refusal has this number"},
        /* 1 */ {"TOO LONG", "the file is longer than a figure may be (1,048,576 bytes)"},
        /* 2 */ {"NOT A FIGURE", "the file does not begin as a figure does"},
        /* 3 */ {"TRAILING", "bytes are left over behind the end of the figure"},
        /* 4 */ {"SHORT", "a length is too small to be true"},
        /* 5 */ {"OVERRUN", "a length runs past the end of the chunk around it"},
        /* 6 */ {"STRAY", "a few bytes are left over where a chunk would begin"},
        /* 7 */ {"MISPLACED", "a chunk stands where it may not stand"},
        /* 8 */ {"TWICE", "a chunk is there twice that may be there only once"},
        /* 9 */ {"NAME", "a name has no end"},
        /* 10 */ {"LENGTH", "a chunk is too long or too short for what it holds"},
        /* 11 */ {"NUMBER", "a coordinate is infinite or not a number"},
        /* 12 */ {"INDEX", "a corner or a face is named that does not exist"},
        /* 13 */ {"COUNT", "the mapping coordinates do not fit the number of vertices"},
        /* 14 */ {"MISSING", "a part that must be there is missing from this chunk"},
        /* 15 */ {"NO ROOM", "the room lent to the reader is too small"},
        /* 16 */ {"NO SUCH MESH", "the figure has no mesh of this number"},
        /* 17 */ {"EMPTY", "the mesh has no vertices, so there is no box around it"},
        /* 18 */ {"SLIP", "the slip breaks the rules of slips"},
        /* 19 */ {"DIFFERS", "a file is not the one that the slip speaks of"},
        /* 20 */ {"HEADER", "the file does not begin as a Caligari figure does"},
        /* 21 */ {"OWNER", "the number of a chunk is bad, or of the one that it hangs on"},
        /* 22 */ {"SIZE", "a size is negative that may not be"},
        /* 23 */ {"FATHER", "a part hangs on none that stands before it"},
        /* 24 */ {"TEXT", "a name does not fit on the label (63 plain characters)"},
        /* 25 */ {"FORM", "the file does not begin as a Cinema 4D figure does"},
        /* 26 */ {"ORDER", "chunks are out of order, are there twice or have no end"},
        /* 27 */ {"COMBINATION", "an object is made of parts that do not go together"},
        /* 28 */ {"MATERIAL", "a texture names a material that does not exist"},
        /* 29 */ {"SAME NAME", "two objects, or two materials, have the same name"},
        /* 30 */ {"NO MATERIAL", "a group of faces names a material that is not there"},
        /* 31 */ {"UNCHECKED", "something on the stick was not looked at, or not whole"},
        /* 32 */ {"BAD FIGURE", "a figure on the stick is refused by its reader"},
        /* 33 */ {"UNEXPECTED", "something is on the stick that the slip does not have"},
        /* 34 */ {"ABSENT", "a file of the slip is not on the stick"},
        /* 35 */ {"INCOMPLETE", "not everything that the stick listed was looked at"},
        /* 36 */ {"NO FIGURE", "there is no figure on the stick"},
        /* 37 */ {"CHANGED", "a file on the stick is not the one of the slip"},
    };
    return texts[refusal >= 1 && refusal <= TDS_LAST_REFUSAL ? refusal : 0];
}

/* The short name of a refusal, in capitals: "OVERRUN". Of another number: "UNKNOWN". */
TDS_INLINE const char *tds_refusal_name(int refusal) {
    return tds_refusal_texts_(refusal)[0];
}

/* What is wrong, in a few plain words, without a full stop. */
TDS_INLINE const char *tds_refusal_words(int refusal) {
    return tds_refusal_texts_(refusal)[1];
}

/* The same of a refusal by a call that writes, where it is said of what was handed in. */
TDS_INLINE const char *tds_write_words(int refusal) {
    switch (refusal) {
    case TDS_TOO_LONG:
        return "the figure would be longer than a figure may be (1,048,576 bytes)";
    case TDS_NAME:
        return "a name holds a zero byte";
    case TDS_COUNT:
        return "the count of a row is not what it must be";
    case TDS_NO_ROOM:
        return "the room lent to the writer is too small";
    case TDS_SLIP:
        return "an entry cannot stand on a slip";
    default:
        return tds_refusal_words(refusal);
    }
}

/* The sum of each `step`th number of a row, from number `first` on. */
TDS_INLINE uint64_t tds_write_total_(const uint32_t *row, size_t count, size_t first, size_t step) {
    uint64_t total = 0;
    size_t i;
    for (i = 0; i < count / step; i++) {
        total += row[step * i + first];
    }
    return total;
}

/* Three numbers for each vertex, or for each face, and not too many of them. */
TDS_INLINE int tds_write_triples_(uint32_t count) {
    return count % 3 == 0 && count <= 3 * 65535;
}

/* Where all rows add up: what is wrong with the counts of one object, or of one group. */
TDS_INLINE const char *tds_write_object_(const uint32_t *objects, size_t objects_count,
                                         const uint32_t *groups) {
    size_t i, group = 0;
    for (i = 0; i < objects_count / 5; i++) {
        const uint32_t *object = objects + 5 * i;
        size_t last = group + object[4];
        if (!tds_write_triples_(object[1])) {
            return "vertices of an object";
        }
        if (!tds_write_triples_(object[2])) {
            return "corners of an object";
        }
        if (object[3] != 0 && object[3] != object[2] / 3) {
            return "smoothing words of an object";
        }
        for (; group < last; group++) {
            if (groups[2 * group + 1] > 65535) {
                return "face numbers of a group";
            }
        }
    }
    return "no row";
}

/*
 * Which row a 13 of tds_write_figure speaks of, in words, since the answer has its count alone.
 * Takes what that call took, but for the rows that need not be looked into: for instance "groups",
 * or "smoothing words of an object"; "no row" where all counts are right.
 */
TDS_INLINE const char *tds_write_row(size_t names_len, const uint32_t *objects,
                                     size_t objects_count, size_t vertices_count,
                                     size_t corners_count, size_t smoothing_count,
                                     const uint32_t *groups, size_t groups_count,
                                     size_t faces_count, const uint32_t *materials,
                                     size_t materials_count, size_t colours_len) {
    if (objects_count % 5 != 0) {
        return "objects";
    }
    if (groups_count != 2 * tds_write_total_(objects, objects_count, 4, 5)) {
        return "groups";
    }
    if (names_len != tds_write_total_(objects, objects_count, 0, 5) +
                         tds_write_total_(materials, materials_count, 0, 1) +
                         tds_write_total_(groups, groups_count, 0, 2)) {
        return "names";
    }
    if (vertices_count != tds_write_total_(objects, objects_count, 1, 5)) {
        return "vertices";
    }
    if (corners_count != tds_write_total_(objects, objects_count, 2, 5)) {
        return "corners";
    }
    if (smoothing_count != tds_write_total_(objects, objects_count, 3, 5)) {
        return "smoothing";
    }
    if (faces_count != tds_write_total_(groups, groups_count, 1, 2)) {
        return "faces";
    }
    if (colours_len != 9 * (uint64_t)materials_count) {
        return "colours";
    }
    return tds_write_object_(objects, objects_count, groups);
}

#ifdef __cplusplus
}
#endif

#endif
