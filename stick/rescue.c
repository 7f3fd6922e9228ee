/*
 * What is left of a damaged figure, as a new file: each part that fails is cut, and said with its
 * name where it has one. A mended figure is for looking at, not for packing.
 */
#include "rescue.h"

#include <stdio.h>
#include <stdlib.h>
#include <string.h>

#include "escape.h"
#include "formats.h"
#include "kinds.h"
#include "longpath.h"
#include "reading.h"
#include "stop.h"
#include "tds_words.h"
#include "writing.h"

enum { HEADER_BYTES = 6, OBJECT = 0x4000, MATERIAL = 0xAFFF };

/* A damaged figure, and what it becomes. */
struct patient {
    const char *path;
    uint8_t *file;
    size_t length;
    uint8_t *cuts;
    size_t count;
    uint8_t *out;
    size_t size;
};

static void patient_free(struct patient *patient) {
    free(patient->file);
    free(patient->cuts);
    free(patient->out);
}

static void say_trouble(const char *path, const struct trouble *trouble) {
    struct text escaped = {0};
    text_escaped(&escaped, path);
    fprintf(stderr, "stick: %s: %s%s%s%s: %s\n", escaped.bytes, trouble->words,
            trouble->detail[0] == '\0' ? "" : " (", trouble->detail,
            trouble->detail[0] == '\0' ? "" : ")", trouble->remedy);
    text_free(&escaped);
}

/* Figures of the other formats, which a file's name tells. */
static bool is_of_ours(const char *path, struct trouble *trouble) {
    const struct format *format = format_of(last_name(path));
    if (format != NULL && format != studio_format()) {
        trouble_of_words(trouble, "only .3ds figures can be mended",
                         "take another copy of this figure");
        return false;
    }
    return true;
}

static bool read_figure(struct patient *patient) {
    struct reading reading;
    struct trouble trouble;
    bool good = is_of_ours(patient->path, &trouble) &&
                reading_open(&reading, patient->path, FROM_ANYWHERE, &trouble);
    patient->file = need_memory(NULL, MOST_READ);
    if (good) {
        struct trouble later;
        good = reading_block(&reading, patient->file, MOST_READ, &patient->length, &trouble);
        good = reading_close(&reading, good ? &trouble : &later) && good;
    }
    if (!good) {
        say_trouble(patient->path, &trouble);
    }
    return good;
}

/* The name in a chunk, up to its zero; NULL where the chunk is no object, or has none. */
static const char *name_in(const uint8_t *chunk, size_t length) {
    const uint8_t *name = chunk + HEADER_BYTES;
    if (length <= HEADER_BYTES || tds_get2(chunk) != OBJECT || tds_get4(chunk + 2) != length ||
        *name == '\0') {
        return NULL;
    }
    return memchr(name, '\0', length - HEADER_BYTES) == NULL ? NULL : (const char *)name;
}

/* What was cut, in words. */
static void add_what(struct text *text, const uint8_t *chunk, size_t length) {
    const char *name = name_in(chunk, length);
    if (length < HEADER_BYTES || tds_get4(chunk + 2) != length) {
        text_add(text, "everything from here to the end of the editor part");
    } else if (name != NULL) {
        text_add(text, "the object '");
        text_escaped(text, name);
        text_add(text, "'");
    } else if (tds_get2(chunk) == OBJECT || tds_get2(chunk) == MATERIAL) {
        text_add(text, tds_get2(chunk) == OBJECT ? "an object" : "a material");
    } else {
        text_format(text, "a chunk %04X", (unsigned)tds_get2(chunk));
    }
}

static void say_cut(const struct patient *patient, size_t cut) {
    uint32_t at = tds_get_cut(patient->cuts, cut, TDS_CUT_OFFSET);
    uint32_t removed = tds_get_cut(patient->cuts, cut, TDS_CUT_REMOVED);
    int number = (int)tds_get_cut(patient->cuts, cut, TDS_CUT_NUMBER);
    struct text text = {0};
    text_escaped(&text, patient->path);
    text_add(&text, ": cut: ");
    add_what(&text, patient->file + at, removed);
    printf("%s, at byte %lu, %lu byte%s: %s (%d): %s\n", text.bytes, (unsigned long)at,
           (unsigned long)removed, removed == 1 ? "" : "s", tds_refusal_name(number), number,
           tds_refusal_words(number));
    text_free(&text);
}

/* Says what came of it: the cuts, and what the new file is for. */
static void say_mended(const struct patient *patient, const char *path) {
    struct text escaped = {0};
    text_escaped(&escaped, path);
    for (size_t i = 0; i < patient->count; i++) {
        say_cut(patient, i);
    }
    if (patient->count == 0) {
        printf("%s: written: the figure is good, and nothing was cut\n", escaped.bytes);
    } else {
        printf("%s: written: %zu part%s missing, %zu bytes: a mended figure is for looking at what "
               "is left, not for packing\n",
               escaped.bytes, patient->count, patient->count == 1 ? " is" : "s are",
               patient->length - patient->size);
    }
    text_free(&escaped);
}

static void say_beyond(const struct patient *patient, uint64_t answer) {
    struct text escaped = {0};
    int number = TDS_REFUSAL(answer);
    text_escaped(&escaped, patient->path);
    printf(
        "%s: nothing can be mended: %s (%d): %s, at byte %lu: take another copy of this figure\n",
        escaped.bytes, tds_refusal_name(number), number, tds_refusal_words(number),
        (unsigned long)TDS_PLACE(answer));
    text_free(&escaped);
}

/* Whether the work is to end, which is the trouble then. */
static bool is_stopped(struct trouble *trouble) {
    bool asked = stopped();
    if (asked) {
        trouble_of_words(trouble, "stopped by hand, and nothing was written",
                         "give the command again");
    }
    return asked;
}

/* What stands there may be the one copy that is left: no word of deleting it. */
static bool is_free(const char *path, struct trouble *trouble) {
    struct stat status;
    if (long_stat(path, 1, &status) == 0) {
        trouble_of_words(trouble, "something of this name is there already, and is left alone",
                         "give the new file another name");
        return false;
    }
    return true;
}

static bool write_mended(const struct patient *patient, const char *path) {
    struct writing writing;
    struct trouble trouble;
    bool good = is_free(path, &trouble) && writing_open(&writing, path, &trouble);
    if (good) {
        bool added =
            writing_add(&writing, patient->out, patient->size, &trouble) && !is_stopped(&trouble);
        struct trouble later;
        good = writing_close(&writing, added, added ? &trouble : &later);
    }
    if (!good) {
        say_trouble(path, &trouble);
    }
    return good;
}

/* Mends it in memory. Answers what tds_rescue does; there is always room. */
static uint64_t mend(struct patient *patient) {
    size_t cuts_room = patient->length / HEADER_BYTES * TDS_CUT_BYTES;
    uint64_t answer;
    patient->cuts = need_memory(NULL, cuts_room + 1);
    patient->out = need_memory(NULL, patient->length + 1);
    answer = tds_rescue(patient->file, patient->length, patient->cuts, cuts_room, patient->out,
                        patient->length);
    if (!TDS_REFUSED(answer)) {
        patient->count = (size_t)answer;
        patient->size = patient->length;
        for (size_t i = 0; i < patient->count; i++) {
            patient->size -= tds_get_cut(patient->cuts, i, TDS_CUT_REMOVED);
        }
    }
    return answer;
}

int rescue(const char *damaged, const char *mended) {
    struct patient patient = {.path = damaged};
    int status = 2;
    if (read_figure(&patient)) {
        uint64_t answer = mend(&patient);
        if (TDS_REFUSED(answer)) {
            say_beyond(&patient, answer);
            status = 1;
        } else if (write_mended(&patient, mended)) {
            say_mended(&patient, mended);
            status = patient.count > 0 ? 1 : 0;
        }
    }
    patient_free(&patient);
    return status;
}
