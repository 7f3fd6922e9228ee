/* The sample edition: six hand tools, in millimetres, z upwards. */
#include "edition.h"

#include "object.h"
#include "shapes.h"

#define LENGTH(row) (sizeof(row) / sizeof((row)[0]))

const struct tool edition[] = {
    {"adze.3ds", make_adze},
    {"chisel.3ds", make_chisel},
    {"mallet.3ds", make_mallet},
    {"plane.3ds", make_plane},
    {"saw.3ds", make_saw},
    {"vice.3ds", make_vice},
    {NULL, NULL},
};

const struct tool older[] = {
    {"gouge.3ds", make_gouge},
    {NULL, NULL},
};

/* What most figures begin with: 4D4D with the version, 3D3D with the version of its mesh part. */
static void open_version(struct figure *figure, uint32_t version) {
    open_chunk(figure, 0x4D4D);
    open_chunk(figure, 0x0002);
    put_number(figure, version);
    close_chunk(figure);
    open_chunk(figure, 0x3D3D);
    open_chunk(figure, 0x3D3E);
    put_number(figure, version);
    close_chunk(figure);
}

static void open_figure(struct figure *figure) {
    open_version(figure, 3);
}

static void close_figure(struct figure *figure) {
    close_chunk(figure);
    close_chunk(figure);
}

/* An object that is a turned piece and nothing else. */
static void put_turned(struct figure *figure, const char *name, struct point start, int axis,
                       const int rings[][2], size_t ring_count, const struct extras *extras) {
    struct mesh mesh = {0};
    add_turned(&mesh, start, axis, rings, ring_count);
    put_object(figure, name, &mesh, extras);
}

/* An object that is a plate and nothing else. */
static void put_plate(struct figure *figure, const char *name, const int outline[][2],
                      size_t points, int y0, int y1, const struct extras *extras) {
    struct mesh mesh = {0};
    add_plate(&mesh, outline, points, y0, y1);
    put_object(figure, name, &mesh, extras);
}

void make_adze(struct figure *figure) {
    static const int blade[3][4][2] = {{{-20, 0}, {-20, 30}, {-60, 22}, {-60, 8}},
                                       {{-60, 8}, {-60, 22}, {-110, 0}, {-108, -8}},
                                       {{-108, -8}, {-110, 0}, {-150, -30}, {-148, -34}}};
    static const int handle[][2] = {{0, 16}, {20, 20}, {300, 15}, {600, 17}, {700, 15}};
    struct extras none = {0}, filled = {.private_length = ADZE_HANDLE_LENGTH};
    struct mesh head = {0};
    for (size_t i = 0; i < LENGTH(blade); i++) {
        add_plate(&head, blade[i], LENGTH(blade[i]), -35, 35);
    }
    add_box(&head, (struct point){-20, -22, 0}, (struct point){24, 22, 32});
    open_figure(figure);
    put_private(figure, 0);
    put_object(figure, "head", &head, &none);
    put_turned(figure, "handle", (struct point){0, 0, -660}, 2, handle, LENGTH(handle), &filled);
    close_figure(figure);
}

void make_chisel(struct figure *figure) {
    static const int blade[][2] = {{0, -6}, {0, 6}, {-130, 6}, {-150, 6}, {-130, 2}, {-130, -6}};
    static const int handle[][2] = {{0, 8}, {15, 8}, {15, 11}, {60, 14}, {120, 13}, {130, 8}};
    struct mesh mesh = {0};
    add_plate(&mesh, blade, LENGTH(blade), -10, 10);
    add_turned(&mesh, (struct point){0, 0, 0}, 0, handle, LENGTH(handle));
    put_bare_figure(figure, "chisel", &mesh);
}

void make_mallet(struct figure *figure) {
    static const int head[][2] = {{-70, 0}, {70, 0}, {85, 120}, {-85, 120}};
    static const int handle[][2] = {{-14, -260}, {14, -260}, {18, 124}, {-18, 124}};
    struct piece mallet[] = {{.name = "head"}, {.name = "handle"}};
    add_plate(&mallet[0].mesh, head, LENGTH(head), -35, 35);
    add_plate(&mallet[1].mesh, handle, LENGTH(handle), -12, 12);
    put_pieces(figure, mallet, LENGTH(mallet), NULL, 0);
}

void make_plane(struct figure *figure) {
    static const int iron[][2] = {{100, 0}, {105, 0}, {150, 95}, {145, 97}};
    static const int wedge[][2] = {{106, 12}, {116, 12}, {152, 85}, {147, 88}};
    static const int tote[][2] = {{200, 45}, {235, 45}, {232, 80}, {245, 120}, {218, 126}};
    static const int knob[][2] = {{0, 14}, {12, 9}, {28, 17}, {40, 10}};
    struct extras extras = {.mapping = 1, .axes = 1, .private_chunks = 1};
    struct mesh body = {0};
    add_box(&body, (struct point){0, -33, 0}, (struct point){98, 33, 45});
    add_box(&body, (struct point){112, -33, 0}, (struct point){250, 33, 45});
    open_figure(figure);
    put_object(figure, "body", &body, &extras);
    put_private(figure, 1);
    put_plate(figure, "iron", iron, LENGTH(iron), -25, 25, &extras);
    put_plate(figure, "wedge", wedge, LENGTH(wedge), -24, 24, &extras);
    put_plate(figure, "tote", tote, LENGTH(tote), -10, 10, &extras);
    put_turned(figure, "knob", (struct point){35, 0, 45}, 2, knob, LENGTH(knob), &extras);
    put_private(figure, 2);
    close_figure(figure);
}

void make_saw(struct figure *figure) {
    static const int sheet[][2] = {{0, 0}, {550, 0}, {550, 60}, {0, 110}};
    static const int grip[][2] = {{-10, -20}, {20, 20}, {20, 120}, {-60, 130}, {-90, 90}, {-90, 0}};
    static const struct material materials[] = {
        {"steel", {20, 20, 24, 160, 168, 176, 255, 255, 255}},
        {"beech", {40, 28, 16, 200, 160, 110, 60, 60, 60}},
    };
    struct piece saw[] = {{.name = "blade", .material = "steel"},
                          {.name = "handle", .material = "beech"}};
    add_plate(&saw[0].mesh, sheet, LENGTH(sheet), 0, 1);
    for (int x = 30; x < 550; x += 20) {
        const int tooth[3][2] = {{x, 0}, {x + 20, -8}, {x + 20, 0}};
        add_plate(&saw[0].mesh, tooth, 3, 0, 1);
    }
    add_plate(&saw[1].mesh, grip, LENGTH(grip), -10, 11);
    put_pieces(figure, saw, LENGTH(saw), materials, LENGTH(materials));
}

/* A material: its name, and one colour as three bytes. */
static void put_material(struct figure *figure, const char *name, const char *colour) {
    open_chunk(figure, 0xAFFF);
    open_chunk(figure, 0xA000);
    put_name(figure, name);
    close_chunk(figure);
    open_chunk(figure, 0xA020);
    put_chunk(figure, 0x0011, colour, 3);
    close_chunk(figure);
    close_chunk(figure);
}

/* A lamp and a camera, as objects of their own; what they are aimed at is 0. In the camera stands a
 * private chunk, as a photographer's program leaves it: its near and its far range. */
static void put_lights(struct figure *figure) {
    static const uint8_t zeros[32] = {0};
    open_chunk(figure, 0x4000);
    put_name(figure, "lamp");
    open_chunk(figure, 0x4600);
    put_float(figure, 300);
    put_float(figure, -400);
    put_float(figure, 500);
    put_chunk(figure, 0x0011, "\xFF\xF0\xE0", 3);
    close_chunk(figure);
    close_chunk(figure);
    open_chunk(figure, 0x4000);
    put_name(figure, "camera");
    open_chunk(figure, 0x4700);
    put_bytes(figure, zeros, sizeof zeros);
    open_chunk(figure, 0x4720);
    put_float(figure, 0);
    put_float(figure, 1000);
    close_chunk(figure);
    close_chunk(figure);
    close_chunk(figure);
}

/* A part of the keyframer: its name, two flag words and its father, and a track that is not read.
 */
static void put_part(struct figure *figure, const char *name, unsigned father) {
    open_chunk(figure, 0xB002);
    open_chunk(figure, 0xB010);
    put_name(figure, name);
    put_number(figure, 0);
    put_word(figure, father);
    close_chunk(figure);
    put_private(figure, 1);
    close_chunk(figure);
}

/* The bar turns in the screw, which turns in the moving jaw, which slides in the fixed one. Of the
 * blocks of the keyframer only B002 are parts, and only they are counted. */
static void put_keyframer(struct figure *figure) {
    enum { FIXED_JAW, MOVING_JAW, SCREW, NONE = 65535 };
    open_chunk(figure, 0xB000);
    open_chunk(figure, 0xB008); /* from frame 0 to frame 100 */
    put_number(figure, 0);
    put_number(figure, 100);
    close_chunk(figure);
    put_part(figure, "fixed jaw", NONE);
    put_chunk(figure, 0xB003, "", 0); /* where the camera is, which is not read */
    put_part(figure, "moving jaw", FIXED_JAW);
    put_part(figure, "screw", MOVING_JAW);
    put_private(figure, 2);
    put_part(figure, "bar", SCREW);
    close_chunk(figure);
}

void make_vice(struct figure *figure) {
    static const int screw[][2] = {{0, 12}, {240, 12}};
    static const int bar[][2] = {{0, 9}, {8, 9}, {8, 6}, {172, 6}, {172, 9}, {180, 9}};
    struct extras iron = {.material = "cast iron", .smoothing = 1};
    struct extras steel = {.material = "steel"};
    struct mesh fixed = {0}, moving = {0};
    add_box(&fixed, (struct point){0, -60, 20}, (struct point){40, 60, 140});
    add_box(&fixed, (struct point){-40, -70, 0}, (struct point){60, 70, 20});
    add_box(&moving, (struct point){90, -60, 60}, (struct point){125, 60, 140});
    open_figure(figure);
    put_material(figure, "cast iron", "\x30\x40\x50");
    put_material(figure, "steel", "\xA0\xA8\xB0");
    put_object(figure, "fixed jaw", &fixed, &iron);
    put_object(figure, "moving jaw", &moving, &iron);
    put_turned(figure, "screw", (struct point){10, 0, 80}, 0, screw, LENGTH(screw), &steel);
    put_turned(figure, "bar", (struct point){240, -90, 80}, 1, bar, LENGTH(bar), &steel);
    put_lights(figure);
    close_chunk(figure);
    put_keyframer(figure);
    close_chunk(figure);
}

void make_gouge(struct figure *figure) {
    static const int blade[][2] = {{0, 4}, {60, 6}, {180, 12}, {190, 12}};
    static const int handle[][2] = {{0, 10}, {20, 14}, {110, 12}, {120, 8}};
    struct extras some = {.mapping = 1, .unmapped = 5}, none = {0};
    open_version(figure, 2);
    put_turned(figure, "blade", (struct point){0, 0, 0}, 0, blade, LENGTH(blade), &some);
    put_turned(figure, "handle", (struct point){-120, 0, 0}, 0, handle, LENGTH(handle), &none);
    close_figure(figure);
}
