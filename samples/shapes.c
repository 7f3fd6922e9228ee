/* Simple solids. */
#include "shapes.h"

#include "compose.h"

enum { SIDES = 12 }; /* of what is turned on a lathe */

static size_t add_vertex(struct mesh *mesh, int x, int y, int z) {
    float *at = mesh->vertices + 3 * mesh->vertex_count;
    if (mesh->vertex_count == MOST_VERTICES) {
        give_up("a mesh with too many vertices");
    }
    at[0] = (float)x;
    at[1] = (float)y;
    at[2] = (float)z;
    return mesh->vertex_count++;
}

static void add_face(struct mesh *mesh, size_t a, size_t b, size_t c) {
    uint16_t *at = mesh->corners + 3 * mesh->face_count;
    if (mesh->face_count == MOST_FACES) {
        give_up("a mesh with too many faces");
    }
    at[0] = (uint16_t)a;
    at[1] = (uint16_t)b;
    at[2] = (uint16_t)c;
    mesh->face_count++;
}

/* The band between two rings of the same number of vertices. */
static void add_band(struct mesh *mesh, size_t lower, size_t upper, size_t points) {
    for (size_t i = 0; i < points; i++) {
        size_t next = (i + 1) % points;
        add_face(mesh, lower + i, lower + next, upper + next);
        add_face(mesh, lower + i, upper + next, upper + i);
    }
}

/* The end of a ring, as a fan; turned over where it looks the other way. */
static void add_end(struct mesh *mesh, size_t ring, size_t points, int turned_over) {
    for (size_t i = 1; i + 1 < points; i++) {
        add_face(mesh, ring, ring + i + (turned_over ? 1 : 0), ring + i + (turned_over ? 0 : 1));
    }
}

void add_plate(struct mesh *mesh, const int outline[][2], size_t points, int y0, int y1) {
    size_t back = mesh->vertex_count, front = back + points;
    for (size_t i = 0; i < points; i++) {
        add_vertex(mesh, outline[i][0], y1, outline[i][1]);
    }
    for (size_t i = 0; i < points; i++) {
        add_vertex(mesh, outline[i][0], y0, outline[i][1]);
    }
    add_band(mesh, back, front, points);
    add_end(mesh, back, points, 1);
    add_end(mesh, front, points, 0);
}

void add_box(struct mesh *mesh, struct point low, struct point high) {
    const int outline[4][2] = {{low.x, low.z}, {high.x, low.z}, {high.x, high.z}, {low.x, high.z}};
    add_plate(mesh, outline, 4, low.y, high.y);
}

/* One ring around an axis. The table is a circle of radius 1000, so no sine is asked for. */
static size_t add_ring(struct mesh *mesh, struct point centre, int axis, int radius) {
    static const int circle[SIDES] = {0, 500,  866,  1000,  866,  500,
                                      0, -500, -866, -1000, -866, -500};
    size_t first = mesh->vertex_count;
    for (int i = 0; i < SIDES; i++) {
        int u = radius * circle[(i + SIDES / 4) % SIDES] / 1000;
        int v = radius * circle[i] / 1000;
        if (axis == 0) {
            add_vertex(mesh, centre.x, centre.y + u, centre.z + v);
        } else if (axis == 1) {
            add_vertex(mesh, centre.x + v, centre.y, centre.z + u);
        } else {
            add_vertex(mesh, centre.x + u, centre.y + v, centre.z);
        }
    }
    return first;
}

void add_turned(struct mesh *mesh, struct point start, int axis, const int rings[][2],
                size_t ring_count) {
    size_t first = mesh->vertex_count, last = first;
    for (size_t i = 0; i < ring_count; i++) {
        struct point centre = start;
        size_t ring;
        *(axis == 0 ? &centre.x : axis == 1 ? &centre.y : &centre.z) += rings[i][0];
        ring = add_ring(mesh, centre, axis, rings[i][1]);
        if (i > 0) {
            add_band(mesh, last, ring, SIDES);
        }
        last = ring;
    }
    add_end(mesh, first, SIDES, 1);
    add_end(mesh, last, SIDES, 0);
}
