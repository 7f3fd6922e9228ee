/*
 * Makes the sample edition, an older figure and the damaged ones, the same bytes on every machine.
 *
 *     make_samples FOLDER              FOLDER/edition/, old/, damaged/, caligari/ and c4d/
 *     make_samples --too-long FILE     the one damaged figure that is too long to be kept
 *
 * FOLDER/damaged/expected.txt says of each damaged figure its refusal: file, number and place; so
 * does FOLDER/caligari/expected.txt, where a good one has 0 0, and FOLDER/c4d/expected.txt, where
 * the good one has 0 and how many objects there are.
 */
#include <errno.h>
#include <stdio.h>
#include <stdlib.h>
#include <string.h>
#include <sys/stat.h>

#include "caligari.h"
#include "cinema.h"
#include "damage.h"
#include "edition.h"

/* The path of a file in a folder; the caller frees it. */
static char *path_of(const char *folder, const char *file) {
    size_t size = strlen(folder) + strlen(file) + 2;
    char *path = malloc(size);
    if (path == NULL) {
        give_up("no memory");
    }
    snprintf(path, size, "%s/%s", folder, file);
    return path;
}

static void write_file(const char *path, const struct figure *figure) {
    FILE *stream = fopen(path, "wb");
    size_t written = stream == NULL ? 0 : fwrite(figure->bytes, 1, figure->length, stream);
    if (stream == NULL || fclose(stream) != 0 || written != figure->length) {
        fprintf(stderr, "%s: %s\n", path, strerror(errno));
        give_up("a sample could not be written");
    }
}

static char *make_folder(const char *folder, const char *name) {
    char *path = path_of(folder, name);
    if (mkdir(path, 0777) != 0 && errno != EEXIST) {
        fprintf(stderr, "%s: %s\n", path, strerror(errno));
        give_up("a folder could not be made");
    }
    return path;
}

static void write_in(const char *folder, const char *file, const struct figure *figure) {
    char *path = path_of(folder, file);
    write_file(path, figure);
    free(path);
}

static void make_tools(const char *parent, const char *name, const struct tool *tools) {
    char *folder = make_folder(parent, name);
    for (const struct tool *tool = tools; tool->file != NULL; tool++) {
        struct figure figure = {0};
        tool->make(&figure);
        write_in(folder, tool->file, &figure);
        free_figure(&figure);
    }
    free(folder);
}

/* One line of expected.txt. */
static void expect(struct figure *expected, const char *file, int refusal, size_t place) {
    char line[200];
    int length = snprintf(line, sizeof line, "%s %d %zu\n", file, refusal, place);
    put_bytes(expected, line, (size_t)length);
}

static void make_damaged(const char *parent, const char *name, const struct damage *damages) {
    char *folder = make_folder(parent, name);
    struct figure expected = {0};
    for (const struct damage *damage = damages; damage->file != NULL; damage++) {
        struct figure figure = {0};
        damage->make(&figure);
        expect(&expected, damage->file, damage->refusal, damage->damage(&figure));
        write_in(folder, damage->file, &figure);
        free_figure(&figure);
    }
    write_in(folder, "expected.txt", &expected);
    free_figure(&expected);
    free(folder);
}

static void make_caligari(const char *parent) {
    char *folder = make_folder(parent, "caligari");
    struct figure expected = {0};
    for (const struct caligari *sample = caligaris; sample->file != NULL; sample++) {
        struct figure figure = {0};
        sample->make(&figure);
        size_t place = sample->damage == NULL ? 0 : sample->damage(&figure);
        expect(&expected, sample->file, sample->refusal, place);
        write_in(folder, sample->file, &figure);
        free_figure(&figure);
    }
    write_in(folder, "expected.txt", &expected);
    free_figure(&expected);
    free(folder);
}

int main(int argc, char **argv) {
    if (argc == 3 && strcmp(argv[1], "--too-long") == 0) {
        struct figure figure = {0};
        too_long.make(&figure);
        too_long.damage(&figure);
        write_file(argv[2], &figure);
        free_figure(&figure);
        return 0;
    }
    if (argc != 2) {
        fprintf(stderr, "usage: make_samples FOLDER | make_samples --too-long FILE\n");
        return 2;
    }
    make_tools(argv[1], "edition", edition);
    make_tools(argv[1], "old", older);
    make_damaged(argv[1], "damaged", damages);
    make_damaged(argv[1], "c4d", cinema_samples);
    make_caligari(argv[1]);
    return 0;
}
