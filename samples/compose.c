/* A composer of chunks. */
#include "compose.h"

#include <stdio.h>
#include <stdlib.h>
#include <string.h>

#include "tds.h"

_Noreturn void give_up(const char *what) {
    fprintf(stderr, "make_samples: %s\n", what);
    exit(1);
}

void put_bytes(struct figure *figure, const void *bytes, size_t length) {
    if (figure->length + length > figure->room) {
        figure->room = 2 * (figure->length + length);
        figure->bytes = realloc(figure->bytes, figure->room);
        if (figure->bytes == NULL) {
            give_up("no memory");
        }
    }
    if (length > 0) {
        memcpy(figure->bytes + figure->length, bytes, length);
    }
    figure->length += length;
}

void put_word(struct figure *figure, unsigned word) {
    uint8_t bytes[2] = {(uint8_t)word, (uint8_t)(word >> 8)};
    put_bytes(figure, bytes, sizeof bytes);
}

void put_number(struct figure *figure, uint32_t number) {
    put_word(figure, number & 0xFFFF);
    put_word(figure, number >> 16);
}

void put_float(struct figure *figure, float number) {
    uint32_t bits;
    memcpy(&bits, &number, sizeof bits);
    put_number(figure, bits);
}

void put_name(struct figure *figure, const char *name) {
    put_bytes(figure, name, strlen(name) + 1);
}

void open_chunk(struct figure *figure, unsigned id) {
    if (figure->depth == (int)(sizeof figure->open / sizeof figure->open[0])) {
        give_up("chunks nested too deep");
    }
    figure->open[figure->depth++] = figure->length;
    put_word(figure, id);
    put_number(figure, 0);
}

void close_chunk(struct figure *figure) {
    size_t start = figure->open[--figure->depth];
    set_number(figure, start + 2, (uint32_t)(figure->length - start));
}

void put_chunk(struct figure *figure, unsigned id, const void *bytes, size_t length) {
    open_chunk(figure, id);
    put_bytes(figure, bytes, length);
    close_chunk(figure);
}

void set_number(struct figure *figure, size_t at, uint32_t number) {
    for (int i = 0; i < 4; i++) {
        figure->bytes[at + (size_t)i] = (uint8_t)(number >> 8 * i);
    }
}

size_t find_chunk(const struct figure *figure, unsigned id, int which) {
    static uint8_t records[1024 * TDS_RECORD_BYTES];
    uint64_t answer = tds_list(figure->bytes, figure->length, records, sizeof records);
    if (TDS_REFUSED(answer)) {
        give_up("a figure to be damaged is not good itself");
    }
    for (size_t i = 0; i < (size_t)answer; i++) {
        if (tds_get_record(records, i, TDS_RECORD_ID) == id && which-- == 0) {
            return tds_get_record(records, i, TDS_RECORD_OFFSET);
        }
    }
    give_up("a chunk to be damaged is not there");
}

void free_figure(struct figure *figure) {
    free(figure->bytes);
    *figure = (struct figure){0};
}
