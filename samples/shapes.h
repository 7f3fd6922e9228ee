/* Simple solids, in millimetres. All coordinates are whole, so every machine makes the same bytes.
 */
#ifndef SAMPLES_SHAPES_H
#define SAMPLES_SHAPES_H

#include <stddef.h>
#include <stdint.h>

enum { MOST_VERTICES = 256, MOST_FACES = 512 };

struct mesh {
    float vertices[3 * MOST_VERTICES];
    uint16_t corners[3 * MOST_FACES];
    size_t vertex_count;
    size_t face_count;
};

struct point {
    int x, y, z;
};

/* A box between two opposite corners. */
void add_box(struct mesh *mesh, struct point low, struct point high);

/* A flat outline in x and z, counter-clockwise with x to the right and z up, which a fan from its
 * first point must fill; as thick as from y0 to y1. Faces look outwards. */
void add_plate(struct mesh *mesh, const int outline[][2], size_t points, int y0, int y1);

/* Something turned on a lathe: rings of these radii at these distances along an axis (0 x, 1 y,
 * 2 z) from a start. */
void add_turned(struct mesh *mesh, struct point start, int axis, const int rings[][2],
                size_t ring_count);

#endif
