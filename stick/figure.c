/* What is in a figure that its reader accepted, for --list. */
#include "figure.h"

#include <stdlib.h>

#include "reading.h"
#include "tds.h"
#include "text.h"

void checker_start(struct checker *checker, struct report *report) {
    *checker = (struct checker){.report = report, .block = need_memory(NULL, MOST_READ)};
}

void checker_free(struct checker *checker) {
    free(checker->block);
    free(checker->records);
}

/* Adds up the meshes from the list; the own data of a 4110 or 4120 is a word and then its table. */
static struct totals totals_of(const uint8_t *records, size_t count) {
    unsigned long meshes = 0, vertices = 0, faces = 0;
    for (size_t i = 0; i < count; i++) {
        uint32_t id = tds_get_record(records, i, TDS_RECORD_ID);
        uint32_t own = tds_get_record(records, i, TDS_RECORD_OWN);
        if (id == TDS_ID_MESH) {
            meshes++;
        } else if (id == TDS_ID_VERTICES) {
            vertices += (own - 2) / 12;
        } else if (id == TDS_ID_FACES) {
            faces += (own - 2) / 8;
        }
    }
    return (struct totals){
        {{"mesh", "meshes", meshes}, {"vertex", "vertices", vertices}, {"face", "faces", faces}},
        3};
}

/* The list of an accepted file that has this many records. */
static void list_figure(struct checker *checker, size_t length, size_t count,
                        struct totals *totals) {
    uint64_t answer;
    if (count > checker->records_room) {
        checker->records = need_memory(checker->records, count * TDS_RECORD_BYTES);
        checker->records_room = count;
    }
    answer = tds_list(checker->block, length, checker->records,
                      checker->records_room * TDS_RECORD_BYTES);
    *totals = totals_of(checker->records, TDS_REFUSED(answer) ? 0 : (size_t)answer);
}

void count_figure(struct checker *checker, const struct format *format, size_t length,
                  uint64_t answer, struct totals *totals) {
    if (format == studio_format()) {
        list_figure(checker, length, (size_t)answer, totals);
    } else {
        *totals = (struct totals){{{format->one, format->many, (unsigned long)answer}}, 1};
    }
}
