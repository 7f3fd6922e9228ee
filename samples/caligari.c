/*
 * The Caligari samples: a try square, with a group, two meshes and a material, and a marking gauge,
 * with a hole and a chunk that is stepped over. Each damage answers the place where the rules say
 * that it is met: worked out here, and not asked of the reader.
 */
#include "caligari.h"

#include <string.h>

#define NO_SIZE 0xFFFFFFFFu

/* Offsets in a chunk, and of the first chunk of a file. */
enum { IDENTIFIER_AT = 8, PARENT_AT = 12, SIZE_AT = 16, BODY_AT = 20, FIRST = 32 };

static void put_zeros(struct figure *figure, size_t count) {
    for (size_t i = 0; i < count; i++) {
        put_bytes(figure, "", 1);
    }
}

static void put_file_header(struct figure *figure) {
    put_bytes(figure, "Caligari V00.01BLH             \n", FIRST);
}

/* A header; its size is set when its body is there. */
static size_t put_head(struct figure *figure, const char *type, unsigned major, unsigned minor,
                       uint32_t id, uint32_t parent) {
    size_t start = figure->length;
    put_bytes(figure, type, 4);
    put_word(figure, major);
    put_word(figure, minor);
    put_number(figure, id);
    put_number(figure, parent);
    put_number(figure, 0);
    return start;
}

static void set_size(struct figure *figure, size_t start) {
    set_number(figure, start + SIZE_AT, (uint32_t)(figure->length - start - BODY_AT));
}

static void put_end(struct figure *figure) {
    put_head(figure, "END ", 1, 0, 0, 0);
}

/* A name with its dupecount, axes and a position: a quarter turn about z, and a step to the side.
 */
static void put_place(struct figure *figure, const char *name) {
    static const float axes[] = {0, 0, 0, 1, 0, 0, 0, 1, 0, 0, 0, 1};
    static const float position[] = {0, -1, 0, 2, 1, 0, 0, -0.5f, 0, 0, 1, 0.25f};
    put_word(figure, 0);
    put_word(figure, (unsigned)strlen(name));
    put_bytes(figure, name, strlen(name));
    for (int i = 0; i < 12; i++) {
        put_float(figure, axes[i]);
    }
    for (int i = 0; i < 12; i++) {
        put_float(figure, position[i]);
    }
}

static void put_vertices(struct figure *figure, float width, float height) {
    const float corners[4][3] = {{0, 0, 0}, {width, 0, 0}, {width, height, 0}, {0, height, 0}};
    put_number(figure, 4);
    for (int i = 0; i < 4; i++) {
        for (int axis = 0; axis < 3; axis++) {
            put_float(figure, corners[i][axis]);
        }
    }
    put_number(figure, 1);
    put_float(figure, 0.0f);
    put_float(figure, 1.0f);
}

enum { FACE = 0, HOLE = 8 };

/* A face or a hole with these vertices, each with texture vertex 0. */
static void put_face(struct figure *figure, int flags, unsigned count, const uint32_t *corners) {
    uint8_t byte = (uint8_t)flags;
    put_bytes(figure, &byte, 1);
    put_word(figure, count);
    if (flags != HOLE) {
        put_word(figure, 0);
    }
    for (unsigned i = 0; i < count; i++) {
        put_number(figure, corners[i]);
        put_number(figure, 0);
    }
}

static const uint32_t lower[] = {0, 1, 2}, upper[] = {0, 2, 3}, square[] = {0, 1, 2, 3};

/* Two triangles, and the square that they are. */
static void put_board(struct figure *figure, const char *name, uint32_t id, uint32_t parent) {
    size_t start = put_head(figure, "PolH", 0, 2, id, parent);
    put_place(figure, name);
    put_vertices(figure, 2.0f, 0.5f);
    put_number(figure, 3);
    put_face(figure, FACE, 3, lower);
    put_face(figure, FACE, 3, upper);
    put_face(figure, FACE, 4, square);
    set_size(figure, start);
}

static void put_material(struct figure *figure, uint32_t id, uint32_t parent) {
    size_t start = put_head(figure, "Mat1", 0, 5, id, parent);
    put_zeros(figure, 37);
    put_bytes(figure, "t:\2", 3);
    put_word(figure, 8);
    put_bytes(figure, "wood.bmp", 8);
    put_zeros(figure, 16);
    set_size(figure, start);
}

enum { SQUARE_GROUP = 10, SQUARE_BLADE = 11, SQUARE_STOCK = 12, SQUARE_WOOD = 13 };

static void make_square(struct figure *figure) {
    put_file_header(figure);
    size_t group = put_head(figure, "Grou", 0, 1, SQUARE_GROUP, 0);
    put_place(figure, "try square");
    set_size(figure, group);
    put_board(figure, "blade", SQUARE_BLADE, SQUARE_GROUP);
    put_board(figure, "stock", SQUARE_STOCK, SQUARE_GROUP);
    put_material(figure, SQUARE_WOOD, SQUARE_STOCK);
    put_end(figure);
}

/* A board with a hole, which tells its own end; and a private chunk before it. */
static void make_gauge(struct figure *figure) {
    put_file_header(figure);
    size_t private = put_head(figure, "BitM", 0, 1, 7, 0);
    put_bytes(figure, "not looked at", 13);
    set_size(figure, private);
    size_t mesh = put_head(figure, "PolH", 0, 2, 8, 7);
    put_place(figure, "marking gauge");
    put_vertices(figure, 1.0f, 1.0f);
    put_number(figure, 3);
    put_face(figure, FACE, 3, lower);
    put_face(figure, HOLE, 3, upper);
    put_face(figure, FACE, 3, upper);
    set_number(figure, mesh + SIZE_AT, NO_SIZE);
    put_end(figure);
}

/* ---- damage: the offset of each chunk of the square follows from the names in it */

enum {
    GROUP = FIRST,
    PLACE_LENGTH = 4 + 96,
    BLADE = GROUP + BODY_AT + PLACE_LENGTH + 10,
    LISTS = 4 + 4 * 12 + 4 + 8,
    FACES = 4 + 2 * (5 + 3 * 8) + 5 + 4 * 8,
    STOCK = BLADE + BODY_AT + PLACE_LENGTH + 5 + LISTS + FACES,
    WOOD = STOCK + BODY_AT + PLACE_LENGTH + 5 + LISTS + FACES,
    BLADE_VERTICES = BLADE + BODY_AT + PLACE_LENGTH + 5,
    BLADE_FACES = BLADE_VERTICES + LISTS,
    GAUGE = FIRST + BODY_AT + 13,
    GAUGE_FACES = GAUGE + BODY_AT + PLACE_LENGTH + 13 + LISTS
};

static size_t header_bit(struct figure *figure) {
    figure->bytes[15] ^= 1;
    return 0;
}

static size_t cut_off(struct figure *figure) {
    figure->length -= 1;
    return figure->length - (BODY_AT - 1);
}

static size_t without_end(struct figure *figure) {
    figure->length -= BODY_AT;
    return figure->length;
}

static size_t one_byte_added(struct figure *figure) {
    put_zeros(figure, 1);
    return figure->length - 1;
}

static size_t identifier_twice(struct figure *figure) {
    set_number(figure, STOCK + IDENTIFIER_AT, SQUARE_BLADE);
    return STOCK;
}

static size_t parent_later(struct figure *figure) {
    set_number(figure, BLADE + PARENT_AT, SQUARE_STOCK);
    return BLADE;
}

static size_t material_size(struct figure *figure) {
    set_number(figure, WOOD + SIZE_AT, NO_SIZE);
    return WOOD;
}

static size_t vertex_count(struct figure *figure) {
    figure->bytes[BLADE_VERTICES + 3] ^= 0x80;
    return BLADE;
}

static size_t infinite(struct figure *figure) {
    set_number(figure, BLADE_VERTICES + 4, 0x7F800000u);
    return BLADE;
}

static size_t corner_bit(struct figure *figure) {
    figure->bytes[BLADE_FACES + 4 + 5] ^= 4;
    return BLADE;
}

static size_t hole_first(struct figure *figure) {
    memmove(figure->bytes + GAUGE_FACES + 4 + 3, figure->bytes + GAUGE_FACES + 4 + 5, 24);
    memmove(figure->bytes + GAUGE_FACES + 4 + 27, figure->bytes + GAUGE_FACES + 4 + 29,
            figure->length - (GAUGE_FACES + 4 + 29));
    figure->length -= 2;
    figure->bytes[GAUGE_FACES + 4] = HOLE;
    return GAUGE;
}

const struct caligari caligaris[] = {
    {"try-square.cob", 0, make_square, NULL},
    {"marking-gauge.cob", 0, make_gauge, NULL},
    {"trailing-one-byte-added.cob", 3, make_square, one_byte_added},
    {"overrun-file-cut-off.cob", 5, make_square, cut_off},
    {"length-vertex-count-bit-turned.cob", 10, make_square, vertex_count},
    {"number-coordinate-infinite.cob", 11, make_square, infinite},
    {"index-corner-bit-turned.cob", 12, make_square, corner_bit},
    {"index-hole-before-any-face.cob", 12, make_gauge, hole_first},
    {"missing-end-cut-off.cob", 14, make_square, without_end},
    {"header-bit-turned.cob", 20, make_square, header_bit},
    {"owner-identifier-twice.cob", 21, make_square, identifier_twice},
    {"owner-parent-stands-later.cob", 21, make_square, parent_later},
    {"size-of-material-told-by-none.cob", 22, make_square, material_size},
    {NULL, 0, NULL, NULL},
};
