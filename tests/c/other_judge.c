/*
 * A judge that gives another answer than the library's, for the bench tool that is linked with
 * --wrap=tds_stick_judge: the answer in JUDGE, or the library's own where there is none.
 */
#include <stdlib.h>

#include "tds.h"

uint64_t __real_tds_stick_judge(const uint8_t *slip, size_t slip_len, const uint8_t *names,
                                size_t names_len, const uint8_t *items, size_t items_len);
uint64_t __wrap_tds_stick_judge(const uint8_t *slip, size_t slip_len, const uint8_t *names,
                                size_t names_len, const uint8_t *items, size_t items_len);

uint64_t __wrap_tds_stick_judge(const uint8_t *slip, size_t slip_len, const uint8_t *names,
                                size_t names_len, const uint8_t *items, size_t items_len) {
    const char *answer = getenv("JUDGE");
    return answer != NULL
               ? strtoull(answer, NULL, 0)
               : __real_tds_stick_judge(slip, slip_len, names, names_len, items, items_len);
}
