/*
 * Writes a slip as docs/SLIP.md has it, by a reading of its own: it shares no code with the
 * library.
 *
 *     make_slip FOLDER NAME... > SLIP
 *
 * Version 1, four bytes for the length of the rest, two for the count; for each file a byte for the
 * length of its name, the name, four bytes for its length, and its two sums; all big-endian.
 */
#include <stdint.h>
#include <stdio.h>
#include <stdlib.h>
#include <string.h>

static uint8_t slip[1 << 20];
static size_t size;

static void put(uint32_t number, int bytes) {
    while (bytes-- > 0) {
        slip[size++] = (uint8_t)(number >> 8 * bytes);
    }
}

/* The length of a file, and the two sums of RFC 1146, as they stand in an entry. */
static void put_file(const char *path) {
    uint32_t length = 0, first = 0, second = 0;
    FILE *file = fopen(path, "rb");
    int byte;
    if (file == NULL) {
        perror(path);
        exit(2);
    }
    while ((byte = getc(file)) != EOF) {
        length++;
        first = (first + (uint32_t)byte) % 255;
        second = (second + first) % 255;
    }
    fclose(file);
    put(length, 4);
    put(first, 1);
    put(second, 1);
}

int main(int argc, char **argv) {
    char path[4096];
    if (argc < 2) {
        fprintf(stderr, "usage: make_slip FOLDER NAME...\n");
        return 2;
    }
    size = 5;
    put((uint32_t)argc - 2, 2);
    for (int i = 2; i < argc; i++) {
        put((uint32_t)strlen(argv[i]), 1);
        memcpy(slip + size, argv[i], strlen(argv[i]));
        size += strlen(argv[i]);
        snprintf(path, sizeof path, "%s/%s", argv[1], argv[i]);
        put_file(path);
    }
    slip[0] = 1;
    for (int i = 0; i < 4; i++) {
        slip[1 + i] = (uint8_t)((size - 5) >> 8 * (3 - i));
    }
    return fwrite(slip, 1, size, stdout) == size && fflush(stdout) == 0 ? 0 : 2;
}
