/* Objects of a figure: what our writer makes of a mesh, with more chunks put around it. */
#ifndef SAMPLES_OBJECT_H
#define SAMPLES_OBJECT_H

#include "compose.h"
#include "shapes.h"

/* What an object has beside its name, vertices and faces. */
struct extras {
    const char *material;  /* of all its faces, or NULL */
    int smoothing;         /* whether its faces have smoothing groups */
    int mapping;           /* whether its vertices have mapping coordinates */
    size_t unmapped;       /* how many of the last of them have none all the same */
    int axes;              /* whether it has a local system of axes */
    int private_chunks;    /* whether a private chunk stands in each of its gaps */
    size_t private_length; /* if not 0: a private chunk makes the whole object this long */
};

/* The whole figure of one object, as our writer makes it. */
void put_bare_figure(struct figure *figure, const char *name, const struct mesh *mesh);

/* An object that our writer knows all of: its material is that of all its faces, or NULL. */
struct piece {
    const char *name, *material;
    struct mesh mesh;
};

/* A name, and the colours as red, green and blue: ambient, diffuse, specular. */
struct material {
    const char *name;
    uint8_t colours[9];
};

enum { MOST_PIECES = 2, MOST_MATERIALS = 2 };

/* The whole figure of several objects and materials, as our writer makes it. */
void put_pieces(struct figure *figure, const struct piece *pieces, size_t piece_count,
                const struct material *materials, size_t material_count);

/* One object inside an open 3D3D. */
void put_object(struct figure *figure, const char *name, const struct mesh *mesh,
                const struct extras *extras);

/* A chunk of another house, of an identifier that is in no table; there are several kinds. */
void put_private(struct figure *figure, int kind);

#endif
