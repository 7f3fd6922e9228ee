/*
 * The damaged samples. Each function takes a good figure, damages it, and answers the place where
 * the rules say that the damage is met: worked out here, and not asked of the reader.
 */
#include "damage.h"

#include "edition.h"
#include "tds.h"

static void turn_bit(struct figure *figure, size_t byte, int bit) {
    figure->bytes[byte] ^= (uint8_t)(1u << bit);
}

/* Raises the length of a chunk. */
static void lengthen(struct figure *figure, size_t chunk, size_t more) {
    set_number(figure, chunk + 2, tds_get4(figure->bytes + chunk + 2) + (uint32_t)more);
}

static size_t first_bit_turned(struct figure *figure) {
    turn_bit(figure, 0, 0);
    return 0;
}

static size_t emptied(struct figure *figure) {
    figure->length = 0;
    return 0;
}

static size_t one_byte_added(struct figure *figure) {
    size_t end = figure->length;
    put_bytes(figure, "", 1);
    return end;
}

static size_t length_of_five(struct figure *figure) {
    size_t handle = find_chunk(figure, TDS_ID_OBJECT, 1);
    set_number(figure, handle + 2, 5);
    return handle;
}

static size_t length_bit_turned(struct figure *figure) {
    size_t handle = find_chunk(figure, TDS_ID_OBJECT, 1);
    turn_bit(figure, handle + 4, 3);
    return handle;
}

static size_t cut_off(struct figure *figure) {
    figure->length /= 2;
    return 0;
}

static size_t three_bytes_left(struct figure *figure) {
    size_t editor = find_chunk(figure, TDS_ID_EDITOR, 0);
    size_t end = figure->length;
    put_bytes(figure, "abc", 3);
    lengthen(figure, 0, 3);
    lengthen(figure, editor, 3);
    return end;
}

/* The spring batch: one turned bit, and a viewer that trusts lengths shows no handle. */
static size_t handle_swallowed(struct figure *figure) {
    size_t head = find_chunk(figure, TDS_ID_OBJECT, 0);
    size_t handle = find_chunk(figure, TDS_ID_OBJECT, 1);
    lengthen(figure, head, ADZE_HANDLE_LENGTH);
    return handle;
}

static size_t vertices_mark_turned(struct figure *figure) {
    size_t vertices = find_chunk(figure, TDS_ID_VERTICES, 0);
    turn_bit(figure, vertices, 5); /* 4110 becomes 4130 */
    return vertices;
}

/* Puts a chunk behind the last list of the mallet, where the chunks around all end together. */
static size_t add_to_mallet(struct figure *figure, unsigned id, const uint8_t *body, size_t size) {
    size_t around[] = {0, find_chunk(figure, TDS_ID_EDITOR, 0),
                       find_chunk(figure, TDS_ID_OBJECT, 1), find_chunk(figure, TDS_ID_MESH, 1)};
    size_t end = figure->length;
    put_chunk(figure, id, body, size);
    for (size_t i = 0; i < sizeof around / sizeof around[0]; i++) {
        lengthen(figure, around[i], figure->length - end);
    }
    return end;
}

static size_t second_vertices(struct figure *figure) {
    static const uint8_t none[2] = {0};
    return add_to_mallet(figure, TDS_ID_VERTICES, none, sizeof none);
}

static size_t mapping_too_many(struct figure *figure) {
    static const uint8_t nine[2 + 8 * 9] = {9}; /* the handle has eight vertices */
    return add_to_mallet(figure, 0x4140, nine, sizeof nine);
}

static size_t name_zero_lost(struct figure *figure) {
    size_t name = find_chunk(figure, 0xA000, 0);
    figure->bytes[name + tds_get4(figure->bytes + name + 2) - 1] = ' ';
    return name;
}

static size_t letter_turned(struct figure *figure) {
    size_t name = find_chunk(figure, 0xA000, 0);
    turn_bit(figure, name + 6, 7); /* a letter becomes a byte that no label takes */
    return name;
}

static size_t father_turned(struct figure *figure) {
    size_t jaw = find_chunk(figure, TDS_ID_PART_HEAD, 1);
    size_t end = jaw + tds_get4(figure->bytes + jaw + 2);
    turn_bit(figure, end - 2, 0); /* part 1 hung on part 0, and now hangs on itself */
    return jaw;
}

static size_t vertex_count_turned(struct figure *figure) {
    size_t vertices = find_chunk(figure, TDS_ID_VERTICES, 1);
    turn_bit(figure, vertices + 6, 0);
    return vertices;
}

static size_t coordinate_infinite(struct figure *figure) {
    size_t blade = find_chunk(figure, TDS_ID_VERTICES, 0);
    turn_bit(figure, blade + 8 + 4 + 3, 6); /* y of the first vertex: 1 becomes infinite */
    return blade;
}

static size_t corner_turned(struct figure *figure) {
    size_t faces = find_chunk(figure, TDS_ID_FACES, 1);
    turn_bit(figure, faces + 8 + 1, 7);
    return faces;
}

static size_t group_entry_turned(struct figure *figure) {
    size_t group = find_chunk(figure, 0x4130, 0);
    turn_bit(figure, group + 6 + sizeof "cast iron" + 2 + 1, 0);
    return group;
}

static size_t editor_mark_turned(struct figure *figure) {
    turn_bit(figure, find_chunk(figure, TDS_ID_EDITOR, 0), 0); /* 3D3D becomes 3D3C */
    return 0;
}

static size_t material_name_turned(struct figure *figure) {
    size_t material = find_chunk(figure, 0xAFFF, 0);
    turn_bit(figure, find_chunk(figure, 0xA000, 0), 0); /* A000 becomes A001 */
    return material;
}

static size_t one_byte_over(struct figure *figure) {
    static const char zeros[4096];
    size_t start = figure->length;
    open_chunk(figure, 0x8123);
    while (figure->length <= TDS_LONGEST_FILE) {
        size_t left = TDS_LONGEST_FILE + 1 - figure->length;
        put_bytes(figure, zeros, left < sizeof zeros ? left : sizeof zeros);
    }
    close_chunk(figure);
    lengthen(figure, 0, figure->length - start);
    return 0;
}

const struct damage too_long = {"too-long-by-one-byte.3ds", TDS_TOO_LONG, make_adze, one_byte_over};

const struct damage damages[] = {
    {"not-a-figure-first-bit-turned.3ds", TDS_NOT_A_FIGURE, make_adze, first_bit_turned},
    {"not-a-figure-empty-file.3ds", TDS_NOT_A_FIGURE, make_adze, emptied},
    {"trailing-one-byte-added.3ds", TDS_TRAILING, make_chisel, one_byte_added},
    {"short-length-of-five.3ds", TDS_SHORT, make_adze, length_of_five},
    {"overrun-length-bit-turned.3ds", TDS_OVERRUN, make_adze, length_bit_turned},
    {"overrun-file-cut-off.3ds", TDS_OVERRUN, make_adze, cut_off},
    {"stray-three-bytes-left.3ds", TDS_STRAY, make_adze, three_bytes_left},
    {"misplaced-handle-swallowed-length-bit-turned.3ds", TDS_MISPLACED, make_adze,
     handle_swallowed},
    {"misplaced-vertices-mark-bit-turned.3ds", TDS_MISPLACED, make_mallet, vertices_mark_turned},
    {"twice-second-list-of-vertices.3ds", TDS_TWICE, make_mallet, second_vertices},
    {"name-zero-byte-lost.3ds", TDS_NAME, make_vice, name_zero_lost},
    {"text-letter-bit-turned.3ds", TDS_TEXT, make_vice, letter_turned},
    {"father-own-number-bit-turned.3ds", TDS_FATHER, make_vice, father_turned},
    {"length-vertex-count-bit-turned.3ds", TDS_LENGTH, make_plane, vertex_count_turned},
    {"number-coordinate-infinite-bit-turned.3ds", TDS_NUMBER, make_saw, coordinate_infinite},
    {"index-corner-bit-turned.3ds", TDS_INDEX, make_adze, corner_turned},
    {"index-material-face-bit-turned.3ds", TDS_INDEX, make_vice, group_entry_turned},
    {"count-mapping-one-too-many.3ds", TDS_COUNT, make_mallet, mapping_too_many},
    {"missing-editor-mark-bit-turned.3ds", TDS_MISSING, make_mallet, editor_mark_turned},
    {"missing-material-name-mark-bit-turned.3ds", TDS_MISSING, make_vice, material_name_turned},
    {NULL, 0, NULL, NULL},
};
