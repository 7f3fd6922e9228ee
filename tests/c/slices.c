/* Slices to lend in tests, and the counting of checks. */
#include "slices.h"

#include <signal.h>
#include <stdarg.h>
#include <stdio.h>
#include <stdlib.h>
#include <string.h>
#include <sys/mman.h>
#include <unistd.h>

static unsigned long passed, failed;
static char tried[300];

void trying(const char *format, ...) {
    va_list arguments;
    va_start(arguments, format);
    vsnprintf(tried, sizeof tried, format, arguments);
    va_end(arguments);
}

void expect(int well, const char *format, ...) {
    va_list arguments;
    if (well) {
        passed++;
        return;
    }
    failed++;
    printf("FAILED: %s: ", tried);
    va_start(arguments, format);
    vprintf(format, arguments);
    va_end(arguments);
    printf("\n");
}

int finish(const char *test) {
    printf("%s: %lu passed, %lu failed\n", test, passed, failed);
    return failed != 0;
}

/* Only calls that are allowed in a signal handler. */
static void touched(int signal_number) {
    static const char words[] = "FAILED: memory beyond the slices was touched: ";
    ssize_t ignored = write(STDOUT_FILENO, words, sizeof words - 1);
    ignored += write(STDOUT_FILENO, tried, strlen(tried));
    ignored += write(STDOUT_FILENO, "\n", 1);
    (void)ignored;
    _exit(signal_number == SIGSEGV ? 3 : 4);
}

struct arena arena_make(size_t size) {
    size_t page = (size_t)sysconf(_SC_PAGESIZE);
    struct arena arena = {.size = (size + page - 1) / page * page};
    uint8_t *all = mmap(NULL, arena.size + 2 * page, PROT_NONE, MAP_PRIVATE | MAP_ANONYMOUS, -1, 0);
    struct sigaction action = {.sa_handler = touched};
    arena.room = all + page;
    if (all == MAP_FAILED || mprotect(arena.room, arena.size, PROT_READ | PROT_WRITE) != 0) {
        perror("slices: no memory");
        exit(2);
    }
    sigaction(SIGSEGV, &action, NULL);
    sigaction(SIGBUS, &action, NULL);
    return arena;
}

static uint8_t canary(size_t at) {
    return (uint8_t)(at * 151 + at / 256 + 77);
}

static uint8_t *locate(const struct arena *arena, size_t length, enum where where) {
    size_t middle = ((arena->size - length) / 2) | 1;
    if (length + 1 >= arena->size) {
        printf("FAILED: an arena of the test is too small for %zu bytes\n", length);
        exit(2);
    }
    return arena->room + (where == AT_START ? 0 : where == AT_END ? arena->size - length : middle);
}

uint8_t *arena_lend(const struct arena *arena, size_t length, enum where where) {
    for (size_t i = 0; i < arena->size; i++) {
        arena->room[i] = canary(i);
    }
    return locate(arena, length, where);
}

const uint8_t *arena_hold(const struct arena *arena, const void *bytes, size_t length,
                          enum where where) {
    uint8_t *at = locate(arena, length, where);
    mprotect(arena->room, arena->size, PROT_READ | PROT_WRITE);
    if (length > 0) {
        memcpy(at, bytes, length);
    }
    mprotect(arena->room, arena->size, PROT_READ);
    return at;
}

int arena_alive(const struct arena *arena, const uint8_t *at, size_t filled) {
    size_t from = (size_t)(at - arena->room);
    for (size_t i = 0; i < arena->size; i++) {
        if ((i < from || i >= from + filled) && arena->room[i] != canary(i)) {
            return 0;
        }
    }
    return 1;
}
