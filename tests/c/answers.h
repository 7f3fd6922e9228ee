/* What the cases of the boundary are written with: answers, and the bytes of chunks. */
#ifndef TESTS_ANSWERS_H
#define TESTS_ANSWERS_H

#include <stddef.h>
#include <stdint.h>

#define REFUSAL(number, place) ((uint64_t)(number) << 32 | (uint64_t)(place))
#define EACH(index, row) for (size_t index = 0; index < sizeof(row) / sizeof((row)[0]); index++)

/* The header of a chunk of less than 256 bytes, and a word. */
#define CHUNK(id, length) (id) % 256, (id) / 256, (length), 0, 0, 0
#define WORD(n) (n) % 256, (n) / 256

/* Sets the length of a chunk of any size. */
void set_length(uint8_t *chunk, size_t length);

/* Just so many bytes, with nothing in them yet: the test cannot go on without. To be freed. */
uint8_t *need_bytes(size_t length);

/* Counts one check: that a call answered what is right. */
void judge_answer(uint64_t answer, uint64_t right);

#endif
