/*
 * The files that the boundary is tried with: the samples of docs/FORMAT.md, and one for each
 * refusal. All answers are written down here by hand, from the rules.
 */
#include "cases.h"

#include <stdlib.h>
#include <string.h>

#include "answers.h"

/* The triangle of docs/FORMAT.md, 86 bytes. */
static const uint8_t triangle[] = {
    0x4D, 0x4D, 0x56, 0,    0, 0, 0x3D, 0x3D, 0x50, 0,    0,    0,             /* 0, 6 */
    0x00, 0x40, 0x4A, 0,    0, 0, 0x41, 0x00, 0x00, 0x41, 0x42, 0, 0, 0,       /* 12, 20 */
    0x10, 0x41, 0x2C, 0,    0, 0, 3,    0,                                     /* 26 */
    0,    0,    0,    0,    0, 0, 0,    0,    0,    0,    0,    0,             /* 34 */
    0,    0,    0x80, 0x3F, 0, 0, 0,    0,    0,    0,    0,    0,             /* 46 */
    0,    0,    0,    0,    0, 0, 0x80, 0x3F, 0,    0,    0,    0,             /* 58 */
    0x20, 0x41, 0x10, 0,    0, 0, 1,    0,    0,    0,    1,    0, 2, 0, 0, 0, /* 70 */
};

#define TRIANGLE_BOX                                                                               \
    { 0, 0, 0, 0x3F800000, 0x3F800000, 0, 0x3F000000, 0x3F000000, 0 }

#define NAME_32 "abcdefgh ABCDEFG~0123456789.,-_!"

/* Files that are given whole. */
static const struct raw {
    const char *what;
    const char *bytes;
    size_t length;
    uint64_t refusal;
} raws[] = {
    {"empty (P1)", "", 0, REFUSAL(2, 0)},
    {"five bytes", "MM\6\0\0", 5, REFUSAL(2, 0)},
    {"not 4D4D", "MN\6\0\0\0", 6, REFUSAL(2, 0)},
    {"length 5 (P2)", "MM\5\0\0\0", 6, REFUSAL(4, 0)},
    {"4D4D alone (P3)", "MM\6\0\0\0", 6, REFUSAL(14, 0)},
    {"4D4D beyond the file", "MM\7\0\0\0", 6, REFUSAL(5, 0)},
    {"4D4D of the greatest length", "MM\xFF\xFF\xFF\xFF", 6, REFUSAL(5, 0)},
    {"half a count word, at the file's end",
     "MM\x21\0\0\0==\x1B\0\0\0\0@\x15\0\0\0a\0\0A\x0D\0\0\0\x10"
     "A\7\0\0\0\3",
     33, REFUSAL(10, 26)},
    {"one byte more (P5)", "MM\x0C\0\0\0==\6\0\0\0x", 13, REFUSAL(3, 12)},
    {"one byte in 4D4D (P6)", "MM\x0D\0\0\0==\6\0\0\0x", 13, REFUSAL(6, 12)},
    {"3D3D too long (P7)", "MM\x0C\0\0\0==\7\0\0\0", 12, REFUSAL(5, 6)},
    {"3D3D of the greatest length", "MM\x0C\0\0\0==\xFF\xFF\xFF\xFF", 12, REFUSAL(5, 6)},
    {"3D3D too short", "MM\x0C\0\0\0==\5\0\0\0", 12, REFUSAL(4, 6)},
    {"two 3D3D", "MM\x12\0\0\0==\6\0\0\0==\6\0\0\0", 18, REFUSAL(8, 12)},
    {"an object without a name", "MM\x12\0\0\0==\x0C\0\0\0\0@\6\0\0\0", 18, REFUSAL(9, 12)},
    {"a name of 64 bytes", "MM\x53\0\0\0==\x4D\0\0\0\0@\x47\0\0\0" NAME_32 NAME_32, 83,
     REFUSAL(24, 12)},
    {"64 bytes and no zero", "MM\x52\0\0\0==\x4C\0\0\0\0@\x46\0\0\0" NAME_32 NAME_32, 82,
     REFUSAL(9, 12)},
    {"a byte 31", "MM\x14\0\0\0==\x0E\0\0\0\0@\x08\0\0\0\x1F", 20, REFUSAL(24, 12)},
    {"a byte 127 behind a tilde", "MM\x15\0\0\0==\x0F\0\0\0\0@\x09\0\0\0~\x7F", 21,
     REFUSAL(24, 12)},
    {"a byte 128", "MM\x14\0\0\0==\x0E\0\0\0\0@\x08\0\0\0\x80", 20, REFUSAL(24, 12)},
    {"a byte 255 and no zero", "MM\x13\0\0\0==\x0D\0\0\0\0@\x07\0\0\0\xFF", 19, REFUSAL(9, 12)},
    {"a material with a byte 31 in its name, and a byte behind it",
     "MM\x1B\0\0\0==\x15\0\0\0\xFF\xAF\x0F\0\0\0\0\xA0\x09\0\0\0\x1F\0x", 27, REFUSAL(24, 18)},
};

/* The triangle with bytes replaced (around 0), or put in inside the first `around` of the chunks
 * 4D4D, 3D3D, 4000 and 4100, their lengths raised. */
static const struct change {
    const char *what;
    size_t at;
    const char *bytes;
    size_t length;
    int around;
    uint64_t refusal;
} changes[] = {
    {"the last corner 3 (P9)", 82, "\3", 1, 0, REFUSAL(12, 70)},
    {"the vertex count 4 (P10)", 32, "\4", 1, 0, REFUSAL(10, 26)},
    {"4110 made 4130", 26, "\x30", 1, 0, REFUSAL(7, 26)},
    {"an infinite coordinate", 49, "\x7F", 1, 0, REFUSAL(11, 26)},
    {"a coordinate that is no number", 48, "\xC0\xFF", 2, 0, REFUSAL(11, 26)},
    {"more mapping pairs than vertices", 86,
     "\x40\x41\x28\0\0\0\4\0\0\0\0\0\0\0\0\0\0\0\0\0\0\0\0\0\0\0\0\0\0\0\0\0\0\0\0\0\0\0\0\0", 40,
     4, REFUSAL(13, 86)},
    {"a second mesh with a face and no vertices", 86,
     "\0@\x1D\0\0\0\0\0A\x16\0\0\0\x20\x41\x10\0\0\0\1\0\0\0\0\0\0\0\0\0", 29, 2, REFUSAL(12, 99)},
};

static void raise_length(uint8_t *length, size_t more) {
    uint32_t number = (uint32_t)length[0] + 256u * length[1] + (uint32_t)more;
    length[0] = (uint8_t)number;
    length[1] = (uint8_t)(number >> 8);
}

static uint8_t *memory(size_t length) {
    uint8_t *bytes = calloc(length + 1, 1);
    if (bytes == NULL) {
        abort();
    }
    return bytes;
}

/* Applies a change; the caller frees the bytes. */
static struct file_case changed(const struct change *change) {
    static const size_t lengths[] = {2, 8, 14, 22};
    size_t put_in = change->around > 0 ? change->length : 0;
    struct file_case file = {.what = change->what, .refusal = change->refusal};
    file.length = sizeof triangle + put_in;
    file.bytes = memory(file.length);
    memcpy(file.bytes, triangle, change->at);
    memcpy(file.bytes + change->at + put_in, triangle + change->at, sizeof triangle - change->at);
    memcpy(file.bytes + change->at, change->bytes, change->length);
    for (int i = 0; i < change->around; i++) {
        raise_length(file.bytes + lengths[i], put_in);
    }
    return file;
}

static void use_raw(void (*use)(const struct file_case *file), const struct raw *raw) {
    struct file_case file = {.what = raw->what, .length = raw->length, .refusal = raw->refusal};
    file.bytes = memory(raw->length);
    memcpy(file.bytes, raw->bytes, raw->length);
    use(&file);
    free(file.bytes);
}

static void use_changed(void (*use)(const struct file_case *file), const struct change *change) {
    struct file_case file = changed(change);
    use(&file);
    free(file.bytes);
}

/* A good figure but for its length: 4D4D with 3D3D and one private chunk. */
static void use_too_long(void (*use)(const struct file_case *file)) {
    struct file_case file = {.what = "1,048,577 bytes", .refusal = REFUSAL(1, 0)};
    file.length = 1048577;
    file.bytes = memory(file.length);
    memcpy(file.bytes, "MM\x01\0\x10\0==\6\0\0\0\x23\x81\xF5\xFF\x0F\0", 18);
    use(&file);
    free(file.bytes);
}

/* The shortest figure (P4), which has no mesh. */
static void use_shortest(void (*use)(const struct file_case *file)) {
    uint8_t bytes[] = {0x4D, 0x4D, 12, 0, 0, 0, 0x3D, 0x3D, 6, 0, 0, 0};
    struct file_case file = {
        .what = "the shortest figure (P4)",
        .bytes = bytes,
        .length = sizeof bytes,
        .records = 2,
        .list = {{0x4D4D, 0, 12, 0, 0, 0, 2}, {0x3D3D, 6, 6, 1, 0, 0, 2}},
        .counts = {12, 0, 0},
    };
    use(&file);
}

/* The triangle as it is (P8), or with 8123 of length 10 at offset 20 (P12): then some numbers move.
 */
static void use_triangle(void (*use)(const struct file_case *file), uint32_t more) {
    static const struct change none = {.bytes = ""};
    static const struct change p12 = {
        .at = 20, .bytes = "\x23\x81\x0A\0\0\0\x10\x41\x2C\0", .length = 10, .around = 3};
    struct file_case file = changed(more == 0 ? &none : &p12);
    const struct file_case answers = {
        .what = more == 0 ? "the triangle (P8)" : "the triangle with a private chunk (P12)",
        .bytes = file.bytes,
        .length = file.length,
        .records = 6,
        .list = {{0x4D4D, 0, 86 + more, 0, 0, 0, 6},
                 {0x3D3D, 6, 80 + more, 1, 0, 0, 6},
                 {0x4000, 12, 74 + more, 2, 1, 2, 6},
                 {0x4100, 20 + more, 66, 3, 2, 0, 6},
                 {0x4110, 26 + more, 44, 4, 3, 38, 5},
                 {0x4120, 70 + more, 16, 4, 3, 10, 6}},
        .counts = {36, 50, more},
        .meshes = 1,
        .mesh = {{18, 1, 34 + more, 3, 78 + more, 1, TRIANGLE_BOX}},
    };
    use(&answers);
    free(file.bytes);
}

/* The triangle and a second object whose name is empty and whose mesh has nothing in it. */
static void use_empty_mesh(void (*use)(const struct file_case *file)) {
    static const struct change second = {
        .at = 86, .bytes = "\0@\x0D\0\0\0\0\0A\6\0\0\0", .length = 13, .around = 2};
    struct file_case file = changed(&second);
    const struct file_case answers = {
        .what = "the triangle and an empty mesh",
        .bytes = file.bytes,
        .length = file.length,
        .records = 8,
        .list = {{0x4D4D, 0, 99, 0, 0, 0, 8},
                 {0x3D3D, 6, 93, 1, 0, 0, 8},
                 {0x4000, 12, 74, 2, 1, 2, 6},
                 {0x4100, 20, 66, 3, 2, 0, 6},
                 {0x4110, 26, 44, 4, 3, 38, 5},
                 {0x4120, 70, 16, 4, 3, 10, 6},
                 {0x4000, 86, 13, 2, 1, 1, 8},
                 {0x4100, 93, 6, 3, 6, 0, 8}},
        .counts = {48, 51, 0},
        .meshes = 2,
        .mesh = {{18, 1, 34, 3, 78, 1, TRIANGLE_BOX}, {.name_at = 92}},
    };
    use(&answers);
    free(file.bytes);
}

/*
 * The triangle with other vertices. First: x is -0, 0, 0, and the first is lowest and highest; y is
 * 1, 2 and 1 times the smallest float, and half of the lowest is 0; z is up to the highest float,
 * and the sum of lowest and highest would pass the range. Second: numbers below 0, whose bits have
 * the other order; z is from the lowest float to the highest.
 */
static const struct change box_vertices[] = {
    {.what = "the triangle with a hard box",
     .at = 34,
     .bytes = "\0\0\0\x80\1\0\0\0\0\0\0\x7F\0\0\0\0\2\0\0\0\xFF\xFF\x7F\x7F"
              "\0\0\0\0\1\0\0\0\0\0\0\x7F",
     .length = 36},
    {.what = "the triangle below zero",
     .at = 34,
     .bytes = "\0\0\x80\xBF\0\0\xA0\xC0\xFF\xFF\x7F\xFF\0\0\x40\xC0\0\0\xA0\x40\xFF\xFF\x7F\x7F"
              "\0\0\0\xC0\0\0\0\0\0\0\x80\xBF",
     .length = 36},
};
static const uint32_t boxes[][9] = {
    {0x80000000, 1, 0x7F000000, 0x80000000, 2, 0x7F7FFFFF, 0x80000000, 1, 0x7F400000},
    {0xC0400000, 0xC0A00000, 0xFF7FFFFF, 0xBF800000, 0x40A00000, 0x7F7FFFFF, 0xC0000000, 0, 0},
};

static void use_box(void (*use)(const struct file_case *file), size_t which) {
    struct file_case file = changed(&box_vertices[which]);
    struct file_case answers = {
        .what = file.what,
        .bytes = file.bytes,
        .length = file.length,
        .records = 6,
        .list = {{0x4D4D, 0, 86, 0, 0, 0, 6},
                 {0x3D3D, 6, 80, 1, 0, 0, 6},
                 {0x4000, 12, 74, 2, 1, 2, 6},
                 {0x4100, 20, 66, 3, 2, 0, 6},
                 {0x4110, 26, 44, 4, 3, 38, 5},
                 {0x4120, 70, 16, 4, 3, 10, 6}},
        .counts = {36, 50, 0},
        .meshes = 1,
        .mesh = {{.name_at = 18,
                  .name_length = 1,
                  .vertices_at = 34,
                  .vertices = 3,
                  .faces_at = 78,
                  .faces = 1}},
    };
    memcpy(answers.mesh[0].box, boxes[which], sizeof boxes[which]);
    use(&answers);
    free(file.bytes);
}

void each_case(void (*use)(const struct file_case *file)) {
    for (size_t i = 0; i < sizeof raws / sizeof raws[0]; i++) {
        use_raw(use, &raws[i]);
    }
    for (size_t i = 0; i < sizeof changes / sizeof changes[0]; i++) {
        use_changed(use, &changes[i]);
    }
    use_too_long(use);
    use_shortest(use);
    use_triangle(use, 0);
    use_triangle(use, 10);
    use_empty_mesh(use);
    use_box(use, 0);
    use_box(use, 1);
}
