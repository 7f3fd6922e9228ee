/*
 * viewer.c - what a viewer does before it shows a figure.
 *
 *     viewer FILE
 *
 * It reads the file, has it checked, and only then asks where all meshes stand, and reads their
 * names and floats there, in the file. Instead of drawing it prints a summary of each mesh, and the
 * tree of the parts that move. A refused figure is not shown at all: half an adze shown calmly is
 * worse than none.
 *
 * Exit status: 0 shown, 1 the figure is refused, 2 the file could not be read.
 */
#include <errno.h>
#include <stdint.h>
#include <stdio.h>
#include <stdlib.h>
#include <string.h>

#include "tds.h"
#include "tds_words.h"

/* One byte more than the longest figure, so that tds_check sees when a file is longer. */
static uint8_t file[TDS_LONGEST_FILE + 1];
static size_t file_len;

static int read_file(const char *path) {
    int status = 0;
    FILE *stream = fopen(path, "rb");
    if (stream == NULL) {
        fprintf(stderr, "viewer: cannot open %s: %s\n", path, strerror(errno));
        return 2;
    }
    file_len = fread(file, 1, sizeof file, stream);
    if (ferror(stream)) {
        fprintf(stderr, "viewer: cannot read %s: %s\n", path, strerror(errno));
        status = 2;
    }
    fclose(stream);
    return status;
}

static int refused(uint64_t answer) {
    int refusal = TDS_REFUSAL(answer);
    fprintf(stderr, "viewer: not shown: %s (refusal %d, place %lu)\n", tds_refusal_words(refusal),
            refusal, (unsigned long)TDS_PLACE(answer));
    return 1;
}

static int no_memory(void) {
    fprintf(stderr, "viewer: not shown: no memory\n");
    return 2;
}

/* Names come from strangers, but the check has let none pass that a label cannot take. */
static void print_name(size_t offset, size_t length) {
    fwrite(file + offset, 1, length, stdout);
}

static void print_corner(const uint8_t *floats) {
    printf(" (%g, %g, %g)", tds_get_float(floats), tds_get_float(floats + 4),
           tds_get_float(floats + 8));
}

/* A viewer would hand the floats and the corners to the screen here, from where they stand. */
static void show_mesh(const uint8_t *meshes, const uint8_t *boxes, size_t mesh) {
    size_t vertices = tds_get_mesh(meshes, mesh, TDS_MESH_VERTICES);
    printf("mesh %lu \"", (unsigned long)mesh);
    print_name(tds_get_mesh(meshes, mesh, TDS_MESH_NAME),
               tds_get_mesh(meshes, mesh, TDS_MESH_NAME_LENGTH));
    printf("\": vertices %lu, faces %lu", (unsigned long)vertices,
           (unsigned long)tds_get_mesh(meshes, mesh, TDS_MESH_FACES));
    if (vertices != 0) { /* a mesh without vertices has no box, but is a good mesh */
        const uint8_t *box = boxes + mesh * TDS_BOX_BYTES;
        printf(", box");
        print_corner(box);
        print_corner(box + 12);
    }
    putchar('\n');
}

/* All meshes and all boxes, by one call each: one for each mesh would check the whole file again
 * each time. Both answer how many meshes there are. */
static int show_meshes(void) {
    uint64_t needed = tds_meshes(file, file_len, NULL, 0); /* none, or refused with how many */
    size_t count = (size_t)TDS_PLACE(needed);
    uint8_t *meshes = malloc(count * (TDS_MESH_BYTES + TDS_BOX_BYTES) + 1); /* + 1: never none */
    uint8_t *boxes = meshes + count * TDS_MESH_BYTES;
    uint64_t answer;
    size_t i;
    if (meshes == NULL) {
        return no_memory();
    }
    answer = tds_meshes(file, file_len, meshes, count * TDS_MESH_BYTES);
    if (!TDS_REFUSED(answer)) {
        answer = tds_boxes(file, file_len, boxes, count * TDS_BOX_BYTES);
    }
    for (i = 0; i < answer && !TDS_REFUSED(answer); i++) {
        show_mesh(meshes, boxes, i);
    }
    free(meshes);
    if (TDS_REFUSED(answer)) {
        return refused(answer);
    }
    printf("meshes %lu\n", (unsigned long)answer);
    return 0;
}

/* One line of the tree: the record is that of the part's B010, whose own data begins with its name
 * and ends with the name's zero and six bytes. */
static void show_part(const uint8_t *records, size_t record, const uint8_t *parts, size_t part) {
    uint32_t father = tds_get_part(parts, part, TDS_PART_FATHER);
    uint32_t depth = tds_get_part(parts, part, TDS_PART_DEPTH);
    uint32_t offset = tds_get_record(records, record, TDS_RECORD_OFFSET);
    uint32_t own = tds_get_record(records, record, TDS_RECORD_OWN);
    printf("%*spart %lu \"", depth < 20 ? 2 * (int)depth : 40, "", (unsigned long)part);
    print_name(offset + 6, own - 7);
    if (father == TDS_NO_FATHER) {
        printf("\"\n");
    } else {
        printf("\" on part %lu\n", (unsigned long)father);
    }
}

/* The parts that move, each further in than the one that it hangs on. */
static int show_parts(const uint8_t *records, size_t count) {
    uint64_t needed = tds_parts(file, file_len, NULL, 0); /* none, or refused with how many */
    size_t parts_len = TDS_PART_BYTES * (size_t)TDS_PLACE(needed);
    uint8_t *parts = malloc(parts_len + 1);
    size_t part = 0, i;
    uint64_t answer;
    if (parts == NULL) {
        return no_memory();
    }
    answer = tds_parts(file, file_len, parts, parts_len);
    for (i = 0; i < count && !TDS_REFUSED(answer); i++) {
        if (tds_get_record(records, i, TDS_RECORD_ID) == TDS_ID_PART_HEAD) {
            show_part(records, i, parts, part++);
        }
    }
    free(parts);
    return TDS_REFUSED(answer) ? refused(answer) : 0;
}

/* The tree of the parts, whose names are found through the list; `count` is how long that is. */
static int show_tree(size_t count) {
    size_t records_len = count * TDS_RECORD_BYTES;
    uint8_t *records = malloc(records_len);
    uint64_t answer;
    int status;
    if (records == NULL) {
        return no_memory();
    }
    answer = tds_list(file, file_len, records, records_len);
    status = TDS_REFUSED(answer) ? refused(answer) : show_parts(records, (size_t)answer);
    free(records);
    return status;
}

/* Checks the file first; the answer is the room the list needs. */
static int show_figure(void) {
    uint64_t answer = tds_check(file, file_len);
    int status;
    if (TDS_REFUSED(answer)) {
        return refused(answer);
    }
    status = show_meshes();
    return status != 0 ? status : show_tree((size_t)answer);
}

int main(int argc, char **argv) {
    int status;
    if (argc != 2) {
        fprintf(stderr, "usage: viewer FILE\n");
        return 2;
    }
    if (tds_version() / 65536 != TDS_VERSION / 65536) {
        fprintf(stderr, "viewer: built for another version of the library\n");
        return 2;
    }
    status = read_file(argv[1]);
    if (status == 0) {
        status = show_figure();
    }
    if (fflush(stdout) != 0 || ferror(stdout)) {
        fprintf(stderr, "viewer: cannot write: %s\n", strerror(errno));
        return 2;
    }
    return status;
}
