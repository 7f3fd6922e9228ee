/*
 * Holds assimp, another reader of 3D Studio files, against the library: `make real` runs it where
 * assimp is installed.
 *
 *     assimp FILE...
 *
 * Of each figure that the library accepts: how many faces there are in all. assimp parts meshes by
 * material, copies vertices and moves them, so that nothing finer can be compared. One line for
 * each file; exit 1 where one differs.
 */
#include <assimp/cimport.h>
#include <assimp/scene.h>
#include <stdio.h>

#include "tds_words.h"

static uint8_t file[TDS_LONGEST_FILE + 1], meshes[100000 * TDS_MESH_BYTES];

static unsigned long faces_of(size_t count) {
    unsigned long faces = 0;
    size_t mesh;
    for (mesh = 0; mesh < count; mesh++) {
        faces += tds_get_mesh(meshes, mesh, TDS_MESH_FACES);
    }
    return faces;
}

static unsigned long their_faces(const struct aiScene *scene) {
    unsigned long faces = 0;
    unsigned mesh;
    for (mesh = 0; mesh < scene->mNumMeshes; mesh++) {
        faces += scene->mMeshes[mesh]->mNumFaces;
    }
    return faces;
}

/* 0 where assimp has as many, or the library refuses the file. */
static int compare_file(const char *path) {
    FILE *stream = fopen(path, "rb");
    const struct aiScene *scene;
    unsigned long faces, theirs;
    size_t file_len;
    uint64_t count;
    if (stream == NULL) {
        printf("%s: cannot be opened\n", path);
        return 1;
    }
    file_len = fread(file, 1, sizeof file, stream);
    fclose(stream);
    count = tds_meshes(file, file_len, meshes, sizeof meshes);
    if (TDS_REFUSED(count)) {
        printf("%s: refused, %s\n", path, tds_refusal_name(TDS_REFUSAL(count)));
        return 0;
    }
    scene = aiImportFile(path, 0);
    if (scene == NULL) {
        printf("%s: accepted, and assimp does not read it: %s\n", path, aiGetErrorString());
        return 1;
    }
    faces = faces_of((size_t)count);
    theirs = their_faces(scene);
    aiReleaseImport(scene);
    printf("%s: %lu faces, %s", path, faces, faces == theirs ? "equal\n" : "");
    if (faces != theirs) {
        printf("assimp %lu\n", theirs);
    }
    return faces != theirs;
}

int main(int count, char **words) {
    int i, different = 0;
    for (i = 1; i < count; i++) {
        different += compare_file(words[i]);
    }
    printf("assimp: %d files, %d different\n", count - 1, different);
    return different != 0;
}
