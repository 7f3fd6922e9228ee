/*
 * Shows rows of progress that no luck is needed for: on a terminal, half a minute after the work
 * began.
 */
#include "../../stick/progress.h"

int main(void) {
    struct progress progress;
    struct row rows[] = {
        {"/a", COPYING, 3, 12, {9, 20}, {25, 100}, 0, {0}, DO_NOT_SEAL},
        {"/b", CHECKING, 3, 12, {45ULL << 30, 100ULL << 30}, {0}, 2, {0}, DO_NOT_SEAL},
        {"/c", CHECKING, 3, 0, {0}, {0}, 0, {0}, DO_NOT_SEAL},
        {"/d", CHECKING, 13, 12, {0}, {200, 100}, 0, {0}, DO_NOT_SEAL},
        {"/e", COPYING, 1, 5, {5, 2 << 20}, {5, 1ULL << 40}, 0, {0}, DO_NOT_SEAL},
        {"/f", DONE, 6, 6, {0}, {0}, 0, {0}, PASS},
        {"/g", DONE, 6, 6, {0}, {0}, 0, {0}, STRUCTURE_ONLY},
        {"/h", DONE, 6, 6, {0}, {0}, 3, {0}, DO_NOT_SEAL},
        {"/i", WAITING, 0, 0, {0}, {0}, 0, {0}, DO_NOT_SEAL},
    };
    const size_t count = sizeof rows / sizeof rows[0];
    struct timespec now;
    clock_gettime(CLOCK_MONOTONIC, &now);
    for (size_t i = 0; i < count; i++) {
        rows[i].start = now;
        rows[i].start.tv_sec -= 30;
    }
    progress_start(&progress, false);
    progress_show(&progress, rows, count);
    return 0;
}
