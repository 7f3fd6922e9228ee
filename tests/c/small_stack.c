/*
 * Makes every call on a file on no more stack than tds.h says that it needs.
 *
 *     small_stack FILE...
 *
 * A call that needs more runs into the page behind its stack, which ends the program. Says how many
 * calls were made.
 */
#include <limits.h>
#include <pthread.h>
#include <stdint.h>
#include <stdio.h>
#include <string.h>

#include "tds.h"

/* As tds.h has it; a thread itself needs the least that there may be. */
enum {
    PLAIN_STACK = 20 * 1024,
    JUDGE_STACK = 90 * 1024,
    CINEMA_STACK = 540 * 1024,
    FIGURE_STACK = 620 * 1024,
    CALIGARI_STACK = 850 * 1024,
    MOST_RECORDS = 1024
};

static uint8_t file[TDS_LONGEST_FILE], first[1 << 16], second[1 << 16];
static uint32_t row[MOST_RECORDS * TDS_RECORD_NUMBERS];
static struct tds_chunk table[MOST_RECORDS];
static size_t length;
static uint64_t calls, answers; /* the answers are joined, so that none is left out */

static void made(uint64_t answer) {
    answers ^= answer;
    calls++;
}

static void *plain_calls(void *unused) {
    static const uint32_t object[5] = {1, 0, 0, 0, 0};
    made(tds_check(file, length));
    made(tds_list(file, length, first, sizeof first));
    made(tds_records(file, length, row, MOST_RECORDS * TDS_RECORD_NUMBERS, table, MOST_RECORDS));
    made(tds_tables(file, length, 0, first, sizeof first, second, sizeof second));
    made(tds_mapping(file, length, 0, first, sizeof first));
    made(tds_counts(file, length, first, sizeof first));
    made(tds_name(file, length, 0, first, sizeof first));
    made(tds_box(file, length, 0, first, sizeof first));
    made(tds_meshes(file, length, first, sizeof first));
    made(tds_boxes(file, length, first, sizeof first));
    made(tds_parts(file, length, first, sizeof first));
    made(tds_write(file, 4, (const float *)(void *)row, 9, (const uint16_t *)(void *)row, 3, first,
                   sizeof first));
    made(tds_write_figure((const uint8_t *)"A", 1, object, 5, NULL, 0, NULL, 0, NULL, 0, NULL, 0,
                          NULL, 0, NULL, 0, NULL, 0, first, sizeof first));
    made(tds_sums(file, length));
    made(tds_slip_read(file, length, first, sizeof first));
    made(tds_slip_write(file, length, file, length, second, sizeof second));
    made(tds_c4d_check(file, length));
    made(tds_stick_more(file, length, second, TDS_ITEM_BYTES));
    return unused;
}

static uint64_t objects;

static void *cinema_calls(void *unused) {
    objects = tds_c4d_list(file, length, first, sizeof first, second, sizeof second);
    made(objects);
    return unused;
}

static void *caligari_calls(void *unused) {
    made(tds_cob_check(file, length));
    made(tds_cob_list(file, length, first, sizeof first));
    made(tds_cob_sizes(file, length, 0, first, sizeof first));
    made(tds_cob_tables(file, length, 0, first, sizeof first, second, sizeof second));
    made(tds_cob_meshes(file, length, first, sizeof first));
    made(tds_stick_file((const uint8_t *)"a.cob", 5, length, file, length, second, TDS_ITEM_BYTES));
    return unused;
}

/* Answers 0 if the thread could be had. */
static int run_on(size_t stack, void *(*these)(void *)) {
    pthread_attr_t attributes;
    pthread_t thread;
    int error = pthread_attr_init(&attributes);
    error = error != 0 ? error : pthread_attr_setstacksize(&attributes, stack + PTHREAD_STACK_MIN);
    error = error != 0 ? error : pthread_create(&thread, &attributes, these, NULL);
    return error != 0 ? error : pthread_join(thread, NULL);
}

static int try_file(const char *path) {
    FILE *stream = fopen(path, "rb");
    if (stream == NULL) {
        return 1;
    }
    length = fread(file, 1, sizeof file, stream);
    fclose(stream);
    return run_on(PLAIN_STACK, plain_calls) != 0 || run_on(CINEMA_STACK, cinema_calls) != 0 ||
           run_on(CALIGARI_STACK, caligari_calls) != 0;
}

static void put_size(size_t at, size_t size) {
    for (int i = 0; i < 4; i++) {
        file[at + (size_t)i] = (uint8_t)(size >> (24 - 8 * i));
    }
}

/* A Cinema 4D figure of many objects, whose list needs more stack than that of a short one. */
static int try_many_objects(void) {
    enum { OBJECTS = 5000 };
    length = 20 + 8 * OBJECTS;
    memset(file, 0, length);
    memcpy(file, "FORM    MC4DOBJ5", 16);
    put_size(4, length - 8);
    put_size(16, length - 20);
    for (int i = 0; i < OBJECTS; i++) {
        file[20 + 8 * i] = 1; /* T_OBJECT; the rest is its T_END */
    }
    return run_on(CINEMA_STACK, cinema_calls) != 0 || objects != OBJECTS;
}

enum { FIGURE_OBJECTS = 5000, NAME_BYTES = 4 };

static uint32_t described[5 * FIGURE_OBJECTS], materials[FIGURE_OBJECTS];
static uint8_t names[2 * NAME_BYTES * FIGURE_OBJECTS], colours[9 * FIGURE_OBJECTS];
static uint64_t written;

static void *figure_calls(void *unused) {
    written = tds_write_figure(names, sizeof names, described, 5 * FIGURE_OBJECTS, NULL, 0, NULL, 0,
                               NULL, 0, NULL, 0, NULL, 0, materials, FIGURE_OBJECTS, colours,
                               sizeof colours, file, sizeof file);
    made(written);
    return unused;
}

/* A figure of many objects and materials, whose writing needs more stack than a small one's. */
static int try_many_names(void) {
    for (int i = 0; i < 2 * FIGURE_OBJECTS; i++) {
        for (int j = 0; j < NAME_BYTES; j++) {
            names[NAME_BYTES * i + j] = (uint8_t)('A' + ((i >> 4 * j) & 15));
        }
    }
    for (int i = 0; i < FIGURE_OBJECTS; i++) {
        described[5 * i] = NAME_BYTES;
        materials[i] = NAME_BYTES;
    }
    return run_on(FIGURE_STACK, figure_calls) != 0 || written > sizeof file;
}

static uint8_t items[(TDS_MOST_ENTRIES + 2) * TDS_ITEM_BYTES];
static uint64_t judged;

static void *judge_call(void *unused) {
    judged = tds_stick_judge(file, length, names, sizeof names, items, sizeof items);
    made(judged);
    return unused;
}

static void put_item(size_t i, const uint64_t numbers[TDS_ITEM_NUMBERS]) {
    for (int n = 0; n < TDS_ITEM_NUMBERS; n++) {
        tds_set_item(items, i, (enum tds_item)n, numbers[n]);
    }
}

/* A good stick of as many files as a slip may have, all empty, but for the first a figure. */
static int try_full_stick(void) {
    static uint8_t entries[TDS_MOST_ENTRIES * TDS_ENTRY_BYTES];
    static const char slip[] = "stick.slip";
    uint64_t sum = tds_sum_add(0, first, 0);
    memcpy(names, slip, 10);
    for (size_t i = 0; i < TDS_MOST_ENTRIES; i++) {
        char name[8];
        size_t at = 10 + 7 * i;
        snprintf(name, sizeof name, "%03u.%s", (unsigned)i % 1000, i == 0 ? "3ds" : "txt");
        memcpy(names + at, name, 7);
        tds_put4(entries + TDS_ENTRY_BYTES * i, (uint32_t)at);
        tds_put4(entries + TDS_ENTRY_BYTES * i + 4, 7);
        put_item(i + 1, (uint64_t[]){at, 7, TDS_ITEM_FILE, 0, sum, i == 0, 0});
    }
    length =
        (size_t)tds_slip_write(names, sizeof names, entries, sizeof entries, file, sizeof file);
    put_item(0, (uint64_t[]){0, 0, TDS_ITEM_FOLDER, TDS_MOST_ENTRIES + 2, 0, 0, 0});
    put_item(TDS_MOST_ENTRIES + 1,
             (uint64_t[]){0, 10, TDS_ITEM_FILE, length, tds_sum_add(0, file, length), 0, 0});
    return run_on(JUDGE_STACK, judge_call) != 0 || judged != 1;
}

int main(int argc, char **argv) {
    for (int i = 1; i < argc; i++) {
        if (try_file(argv[i]) != 0) {
            fprintf(stderr, "small_stack: %s: not tried\n", argv[i]);
            return 2;
        }
    }
    if (try_many_objects() != 0) {
        fprintf(stderr, "small_stack: a figure of many objects: not tried\n");
        return 2;
    }
    if (try_many_names() != 0) {
        fprintf(stderr, "small_stack: a figure of many names: not written\n");
        return 2;
    }
    if (try_full_stick() != 0) {
        fprintf(stderr, "small_stack: a stick of as many files as there may be: not good\n");
        return 2;
    }
    printf("%lu calls\n", (unsigned long)calls);
    return answers == UINT64_MAX;
}
