/*
 * Holds lib3ds, another reader of 3D Studio files, against the library: `make real` runs it where
 * lib3ds (1.3) is installed.
 *
 *     lib3ds FILE...
 *
 * Of each figure that the library accepts: the meshes with their names, vertices, corners, mapping,
 * materials of faces and smoothing words, and the colours of the materials, by both. One line for
 * each file; exit 1 where one differs. lib3ds turns the vertices of a mesh whose axes are mirrored:
 * those are not compared.
 */
#include <lib3ds/chunk.h>
#include <lib3ds/file.h>
#include <lib3ds/material.h>
#include <lib3ds/matrix.h>
#include <lib3ds/mesh.h>
#include <stdio.h>
#include <stdlib.h>
#include <string.h>

#include "tds_words.h"

static uint8_t file[TDS_LONGEST_FILE + 1];
static size_t file_len;
static uint8_t records[200000 * TDS_RECORD_BYTES], meshes[100000 * TDS_MESH_BYTES];
static size_t record_count, mesh_count;
static unsigned differences; /* of this file */
static unsigned mirrored, vertices, faces, grouped, colours;

static void same(int equal, const char *what, const char *name) {
    if (!equal && differences++ < 3) {
        printf("\n    %s of \"%s\" differ", what, name);
    }
}

static uint32_t of_record(size_t record, enum tds_record number) {
    return tds_get_record(records, record, number);
}

static const uint8_t *own(size_t record) {
    return file + of_record(record, TDS_RECORD_OFFSET) + 6;
}

static int float_is(float number, const uint8_t *at) {
    uint32_t bits;
    memcpy(&bits, &number, 4);
    return bits == tds_get4(at);
}

/* The first chunk of this identifier inside a record, or 0, which is the file. */
static size_t inside(size_t record, uint32_t identifier) {
    size_t i;
    for (i = record + 1; i < of_record(record, TDS_RECORD_NEXT); i++) {
        if (of_record(i, TDS_RECORD_ID) == identifier) {
            return i;
        }
    }
    return 0;
}

static void compare_vertices(const Lib3dsMesh *theirs, size_t mesh) {
    const uint8_t *at = file + tds_get_mesh(meshes, mesh, TDS_MESH_VERTICES_AT);
    Lib3dsMatrix matrix;
    uint32_t i;
    memcpy(matrix, theirs->matrix, sizeof matrix);
    if (lib3ds_matrix_det(matrix) < 0) {
        mirrored++;
        return;
    }
    for (i = 0; i < 3 * theirs->points; i++) {
        same(float_is(theirs->pointL[i / 3].pos[i % 3], at + 4 * i), "vertices", theirs->name);
    }
    vertices += theirs->points;
}

static void compare_corners(const Lib3dsMesh *theirs, size_t mesh) {
    const uint8_t *at = file + tds_get_mesh(meshes, mesh, TDS_MESH_FACES_AT);
    uint32_t i;
    for (i = 0; i < 3 * theirs->faces; i++) {
        same(theirs->faceL[i / 3].points[i % 3] == tds_get2(at + 8 * (i / 3) + 2 * (i % 3)),
             "corners", theirs->name);
    }
    faces += theirs->faces;
}

static void compare_mapping(const Lib3dsMesh *theirs, size_t mesh) {
    const uint8_t *at = file + tds_get_mesh(meshes, mesh, TDS_MESH_PAIRS_AT);
    uint32_t i;
    for (i = 0; i < 2 * theirs->texels; i++) {
        same(float_is(theirs->texelL[i / 2][i % 2], at + 4 * i), "mapping pairs", theirs->name);
    }
}

/* The material of each face: that of the last group which has it. */
static void compare_groups(const Lib3dsMesh *theirs, size_t list) {
    const char **names = calloc(theirs->faces + 1u, sizeof *names);
    size_t record, i;
    for (record = list + 1; names != NULL && record < of_record(list, TDS_RECORD_NEXT); record++) {
        const char *name = (const char *)own(record);
        const uint8_t *numbers = own(record) + strlen(name) + 1;
        if (of_record(record, TDS_RECORD_ID) != TDS_ID_FACE_GROUP) {
            continue;
        }
        for (i = 0; i < tds_get2(numbers); i++) {
            names[tds_get2(numbers + 2 + 2 * i)] = name;
        }
        grouped += tds_get2(numbers);
    }
    for (i = 0; names != NULL && i < theirs->faces; i++) {
        same(strcmp(theirs->faceL[i].material, names[i] == NULL ? "" : names[i]) == 0,
             "materials of faces", theirs->name);
    }
    free(names);
}

static void compare_smoothing(const Lib3dsMesh *theirs, size_t list) {
    size_t words = inside(list, TDS_ID_SMOOTHING);
    uint32_t i;
    for (i = 0; i < theirs->faces; i++) {
        same(theirs->faceL[i].smoothing == (words == 0 ? 0 : tds_get4(own(words) + 4 * i)),
             "smoothing words", theirs->name);
    }
}

static void compare_mesh(const Lib3dsMesh *theirs, size_t mesh, size_t record) {
    size_t list = inside(record, TDS_ID_FACES);
    unsigned before = differences;
    same(theirs->points == tds_get_mesh(meshes, mesh, TDS_MESH_VERTICES), "counts of vertices",
         theirs->name);
    same(theirs->faces == tds_get_mesh(meshes, mesh, TDS_MESH_FACES), "counts of faces",
         theirs->name);
    same(theirs->texels == tds_get_mesh(meshes, mesh, TDS_MESH_PAIRS), "counts of mapping pairs",
         theirs->name);
    if (differences != before) {
        return;
    }
    compare_vertices(theirs, mesh);
    compare_corners(theirs, mesh);
    compare_mapping(theirs, mesh);
    if (list != 0) {
        compare_groups(theirs, list);
        compare_smoothing(theirs, list);
    }
}

/* The colour that counts: the 0012, or else the 0011; of others lib3ds reads none. */
static void compare_colour(const float *theirs, size_t shade, const char *name) {
    size_t linear = shade == 0 ? 0 : inside(shade, TDS_ID_COLOUR_LINEAR);
    size_t colour = linear != 0 || shade == 0 ? linear : inside(shade, TDS_ID_COLOUR);
    int i;
    for (i = 0; colour != 0 && i < 3; i++) {
        same(theirs[i] == 1.0f * own(colour)[i] / 255.0f, "colours", name);
    }
    colours += colour != 0;
}

static void compare_material(Lib3dsFile *theirs, size_t record) {
    const char *name = (const char *)own(inside(record, TDS_ID_MATERIAL_NAME));
    const Lib3dsMaterial *material = lib3ds_file_material_by_name(theirs, name);
    same(material != NULL, "materials", name);
    if (material != NULL) {
        compare_colour(material->ambient, inside(record, TDS_ID_AMBIENT), name);
        compare_colour(material->diffuse, inside(record, TDS_ID_DIFFUSE), name);
        compare_colour(material->specular, inside(record, TDS_ID_SPECULAR), name);
    }
}

/* Its mesh of this name, which is taken out: lib3ds keeps meshes by name, and those of one name in
 * file order. */
static Lib3dsMesh *taken(Lib3dsFile *theirs, const char *name) {
    Lib3dsMesh *mesh = lib3ds_file_mesh_by_name(theirs, name);
    if (mesh != NULL) {
        lib3ds_file_remove_mesh(theirs, mesh);
    }
    return mesh;
}

static void compare_figure(Lib3dsFile *theirs) {
    size_t record, number = 0;
    for (record = 0; record < record_count; record++) {
        if (of_record(record, TDS_RECORD_ID) == TDS_ID_MATERIAL) {
            compare_material(theirs, record);
        }
        if (of_record(record, TDS_RECORD_ID) == TDS_ID_MESH) {
            const char *name = (const char *)file + tds_get_mesh(meshes, number, TDS_MESH_NAME);
            Lib3dsMesh *mesh = taken(theirs, name);
            same(mesh != NULL, "meshes", name);
            if (mesh != NULL) {
                compare_mesh(mesh, number, record);
                lib3ds_mesh_free(mesh);
            }
            number++;
        }
    }
    same(number == mesh_count && theirs->meshes == NULL, "counts of meshes", "the file");
}

/* 0 where lib3ds has the same, or the library refuses the file. */
static int compare_file(const char *path) {
    FILE *stream = fopen(path, "rb");
    uint64_t answer;
    Lib3dsFile *theirs;
    if (stream == NULL) {
        printf("%s: cannot be opened\n", path);
        return 1;
    }
    file_len = fread(file, 1, sizeof file, stream);
    fclose(stream);
    answer = tds_list(file, file_len, records, sizeof records);
    if (TDS_REFUSED(answer)) {
        printf("%s: refused, %s\n", path, tds_refusal_name(TDS_REFUSAL(answer)));
        return 0;
    }
    record_count = (size_t)answer;
    mesh_count = (size_t)tds_meshes(file, file_len, meshes, sizeof meshes);
    theirs = lib3ds_file_load(path);
    if (theirs == NULL) {
        printf("%s: accepted, and lib3ds does not read it\n", path);
        return 1;
    }
    differences = 0;
    printf("%s: %u meshes", path, (unsigned)mesh_count);
    compare_figure(theirs);
    printf(differences == 0 ? ", equal\n" : "\n    %u differences\n", differences);
    lib3ds_file_free(theirs);
    return differences != 0;
}

int main(int count, char **words) {
    int i, different = 0;
    for (i = 1; i < count; i++) {
        different += compare_file(words[i]);
    }
    printf("lib3ds: %d files, %d different; equal: %u vertices, %u faces, %u in groups, %u "
           "colours; %u mirrored meshes without vertices\n",
           count - 1, different, vertices, faces, grouped, colours, mirrored);
    return different != 0;
}
