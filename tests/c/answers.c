/* What the cases of the boundary are written with: answers, and the bytes of chunks. */
#include "answers.h"

#include <stdlib.h>

#include "slices.h"
#include "tds.h"

void set_length(uint8_t *chunk, size_t length) {
    for (int i = 0; i < 4; i++) {
        chunk[2 + i] = (uint8_t)(length >> 8 * i);
    }
}

uint8_t *need_bytes(size_t length) {
    uint8_t *bytes = malloc(length == 0 ? 1 : length);
    if (bytes == NULL) {
        abort();
    }
    return bytes;
}

void judge_answer(uint64_t answer, uint64_t right) {
    expect(answer == right, "answered %d, %lu instead of %d, %lu", TDS_REFUSAL(answer),
           (unsigned long)TDS_PLACE(answer), TDS_REFUSAL(right), (unsigned long)TDS_PLACE(right));
}
