/*
 * A bench with a lamp over it and a camera before it, as a Cinema 4D file: all numbers have their
 * highest byte first, and a size counts what stands behind it.
 */
#include "cinema.h"

#include <stdlib.h>
#include <string.h>

enum part {
    T_END = 0,
    T_OBJECT = 1,
    T_POINTS = 16,
    T_QUADRANGLES = 18,
    T_EDGES = 19,
    T_LIGHT = 21,
    T_CAMERA = 22,
    T_TEXTURE = 23,
    T_PHONG = 24
};

static const uint16_t corners[] = {0, 1, 2, 3};
static const uint16_t edges[] = {0, 1, 1, 2, 2, 3, 0, 3};

static void put_high_first(struct figure *figure, uint32_t number, int width) {
    while (width-- > 0) {
        uint8_t byte = (uint8_t)(number >> 8 * width);
        put_bytes(figure, &byte, 1);
    }
}

static void put_big_float(struct figure *figure, float number) {
    uint32_t bits;
    memcpy(&bits, &number, sizeof bits);
    put_high_first(figure, bits, 4);
}

static void put_floats(struct figure *figure, float number, int count) {
    while (count-- > 0) {
        put_big_float(figure, number);
    }
}

static void put_words(struct figure *figure, const uint16_t *words, size_t count) {
    for (size_t i = 0; i < count; i++) {
        put_high_first(figure, words[i], 2);
    }
}

/* Sets the size that stands in `width` bytes at `at` to what has been put behind it. */
static void set_size(struct figure *figure, size_t at, int width) {
    uint32_t size = (uint32_t)(figure->length - at - (size_t)width);
    for (int i = 0; i < width; i++) {
        figure->bytes[at + (size_t)i] = (uint8_t)(size >> 8 * (width - 1 - i));
    }
}

/* The header of a chunk; answers where its size stands. */
static size_t put_chunk_header(struct figure *figure, const char *name) {
    put_bytes(figure, name, 4);
    put_high_first(figure, 0, 4);
    return figure->length - 4;
}

static void put_text(struct figure *figure, const char *text) {
    put_high_first(figure, (uint32_t)strlen(text), 1);
    put_bytes(figure, text, strlen(text));
}

/* ---- materials */

static void put_material_name(struct figure *figure, const char *name) {
    put_high_first(figure, 64, 2);
    put_high_first(figure, (uint32_t)strlen(name) + 1, 2);
    put_text(figure, name);
}

static void put_materials(struct figure *figure) {
    size_t size_at = put_chunk_header(figure, "MAT4");
    put_material_name(figure, "beech");
    put_high_first(figure, 65u << 16, 4); /* MAT_NEXT */
    put_material_name(figure, "steel");
    put_high_first(figure, 0, 4); /* MAT_END */
    set_size(figure, size_at, 4);
}

/* ---- objects */

static size_t put_part(struct figure *figure, enum part part) {
    put_high_first(figure, (uint32_t)part << 24, 4);
    return figure->length - 3;
}

static void put_object(struct figure *figure, const char *name) {
    size_t size_at = put_part(figure, T_OBJECT);
    put_floats(figure, 0, 3);
    put_floats(figure, 1, 3);
    put_floats(figure, 0, 3);
    put_text(figure, name);
    put_high_first(figure, 0, 1);
    set_size(figure, size_at, 3);
}

static void put_texture(struct figure *figure, uint32_t material) {
    size_t size_at = put_part(figure, T_TEXTURE);
    put_floats(figure, 1, 15);
    put_high_first(figure, material, 4);
    set_size(figure, size_at, 3);
}

/* A board of four points, with a texture of each material and a sub-chunk of a later program. */
static void put_bench(struct figure *figure) {
    size_t size_at;
    put_object(figure, "bench");
    size_at = put_part(figure, T_POINTS);
    for (int i = 0; i < 4; i++) {
        put_big_float(figure, i == 1 || i == 2 ? 1200 : 0);
        put_big_float(figure, 800);
        put_big_float(figure, i >= 2 ? 600 : 0);
    }
    set_size(figure, size_at, 3);
    size_at = put_part(figure, T_QUADRANGLES);
    put_words(figure, corners, 4);
    set_size(figure, size_at, 3);
    put_texture(figure, 0);
    size_at = put_part(figure, (enum part)40);
    put_text(figure, "later");
    set_size(figure, size_at, 3);
    put_texture(figure, 1);
    size_at = put_part(figure, T_EDGES);
    put_words(figure, edges, 8);
    set_size(figure, size_at, 3);
    put_part(figure, T_PHONG);
    put_part(figure, T_END);
}

static void put_one(struct figure *figure, const char *name, enum part part) {
    put_object(figure, name);
    put_part(figure, part);
    put_part(figure, T_END);
}

static void make_scene(struct figure *figure) {
    size_t file_size_at, size_at;
    put_bytes(figure, "FORM", 4);
    put_high_first(figure, 0, 4);
    file_size_at = figure->length - 4;
    put_bytes(figure, "MC4D", 4);
    size_at = put_chunk_header(figure, "PLTF");
    put_high_first(figure, 4, 4);
    set_size(figure, size_at, 4);
    put_materials(figure);
    size_at = put_chunk_header(figure, "UMG4");
    put_floats(figure, 0, 6);
    set_size(figure, size_at, 4);
    size_at = put_chunk_header(figure, "OBJ5");
    put_bench(figure);
    put_one(figure, "lamp", T_LIGHT);
    put_one(figure, "eye", T_CAMERA);
    set_size(figure, size_at, 4);
    set_size(figure, file_size_at, 4);
}

/* ---- damage */

/* Where some bytes stand, for the which-th time. */
static size_t find(const struct figure *figure, const char *bytes, size_t length, int which) {
    for (size_t at = 0; at + length <= figure->length; at++) {
        if (memcmp(figure->bytes + at, bytes, length) == 0 && which-- == 0) {
            return at;
        }
    }
    give_up("a sample has not what is to be damaged");
}

static size_t find_texture(const struct figure *figure, int which) {
    return find(figure, "\27\0\0\100", 4, which);
}

static size_t keep_all(struct figure *figure) {
    (void)figure;
    return 3;
}

static size_t turn_size(struct figure *figure) {
    figure->bytes[5] ^= 1;
    return 0;
}

static size_t cut_off(struct figure *figure) {
    figure->length -= 4;
    return 0;
}

static size_t lengthen_chunk(struct figure *figure) {
    size_t at = find(figure, "UMG4", 4, 0);
    figure->bytes[at + 5] ^= 1;
    return at;
}

static size_t shorten_texture(struct figure *figure) {
    size_t at = find_texture(figure, 0);
    figure->bytes[at + 3] ^= 4;
    return at;
}

static size_t lose_object(struct figure *figure) {
    size_t at = find(figure, "OBJ5", 4, 0) + 8;
    figure->bytes[at] ^= 2;
    /* T_OBJECT is an unknown sub-chunk now, and the points stand in no object */
    return find(figure, "\20\0\0\60", 4, 0);
}

/* What the editor's view was is a second list of objects; its first byte says nothing known. */
static size_t second_objects(struct figure *figure) {
    size_t first = find(figure, "UMG4", 4, 0);
    memcpy(figure->bytes + first, "OBJ5", 4);
    memset(figure->bytes + first + 8, 0, 24);
    figure->bytes[first + 8] = 40;
    figure->bytes[first + 11] = 20;
    return find(figure, "OBJ5", 4, 1);
}

/* T_LIGHT becomes T_TRIANGLES, which have no points. */
static size_t turn_light(struct figure *figure) {
    size_t at = find(figure, "\25\0\0\0", 4, 0);
    figure->bytes[at] ^= 4;
    return at + 4;
}

static size_t no_such_material(struct figure *figure) {
    size_t at = find_texture(figure, 1);
    figure->bytes[at + 67] ^= 2;
    return at;
}

const struct damage cinema_samples[] = {
    {"bench.c4d", 0, make_scene, keep_all},
    {"form-size-bit-turned.c4d", 25, make_scene, turn_size},
    {"form-file-cut-off.c4d", 25, make_scene, cut_off},
    {"overrun-size-bit-turned.c4d", 5, make_scene, lengthen_chunk},
    {"length-texture-bit-turned.c4d", 10, make_scene, shorten_texture},
    {"order-object-bit-turned.c4d", 26, make_scene, lose_object},
    {"order-two-lists-of-objects.c4d", 26, make_scene, second_objects},
    {"combination-light-bit-turned.c4d", 27, make_scene, turn_light},
    {"material-bit-turned.c4d", 28, make_scene, no_such_material},
    {NULL, 0, NULL, NULL},
};
