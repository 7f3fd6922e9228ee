/* A composer of chunks: opened, filled and closed, the lengths of all chunks around set rightly. */
#ifndef SAMPLES_COMPOSE_H
#define SAMPLES_COMPOSE_H

#include <stddef.h>
#include <stdint.h>

struct figure {
    uint8_t *bytes;
    size_t length;
    size_t room;
    size_t open[8]; /* where the chunks start that are not closed yet */
    int depth;
};

/* Ends the program with a line that says what the generator could not do. */
_Noreturn void give_up(const char *what);

void put_bytes(struct figure *figure, const void *bytes, size_t length);
void put_word(struct figure *figure, unsigned word);
void put_number(struct figure *figure, uint32_t number);
void put_float(struct figure *figure, float number);
void put_name(struct figure *figure, const char *name); /* with its zero */

/* All between the two is inside the chunk. */
void open_chunk(struct figure *figure, unsigned id);
void close_chunk(struct figure *figure);

/* A whole chunk that holds just these bytes. */
void put_chunk(struct figure *figure, unsigned id, const void *bytes, size_t length);

/* Sets four bytes that are there already. */
void set_number(struct figure *figure, size_t at, uint32_t number);

/* Where the record number `which` (from 0) of this identifier starts, by the reader's own list. */
size_t find_chunk(const struct figure *figure, unsigned id, int which);

void free_figure(struct figure *figure);

#endif
