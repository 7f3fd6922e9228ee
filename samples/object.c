/* Objects of a figure. They come from our writers; chunks that those do not write are the
 * composer's. */
#include "object.h"

#include <string.h>

#include "tds.h"

/* What our writer makes of a mesh: answers its size. */
static size_t write_bare(uint8_t *out, size_t room, const char *name, const struct mesh *mesh) {
    uint64_t answer =
        tds_write((const uint8_t *)name, strlen(name), mesh->vertices, 3 * mesh->vertex_count,
                  mesh->corners, 3 * mesh->face_count, out, room);
    if (TDS_REFUSED(answer)) {
        give_up("the writer refused a mesh");
    }
    return (size_t)answer;
}

void put_bare_figure(struct figure *figure, const char *name, const struct mesh *mesh) {
    static uint8_t written[65536];
    put_bytes(figure, written, write_bare(written, sizeof written, name, mesh));
}

/* What the writer is handed, as it grows. */
struct rows {
    uint8_t names[64 * (2 * MOST_PIECES + MOST_MATERIALS)], colours[9 * MOST_MATERIALS];
    uint32_t objects[5 * MOST_PIECES], groups[2 * MOST_PIECES], materials[MOST_MATERIALS];
    float vertices[3 * MOST_VERTICES * MOST_PIECES];
    uint16_t corners[3 * MOST_FACES * MOST_PIECES], faces[MOST_FACES * MOST_PIECES];
    size_t names_len, groups_len, vertices_len, corners_len, faces_len;
};

/* Answers its length. */
static uint32_t add_name(struct rows *rows, const char *name) {
    size_t length = strlen(name);
    memcpy(rows->names + rows->names_len, name, length);
    rows->names_len += length;
    return (uint32_t)length;
}

static void add_piece(struct rows *rows, uint32_t *object, const struct piece *piece) {
    size_t floats = 3 * piece->mesh.vertex_count, corners = 3 * piece->mesh.face_count;
    memcpy(rows->vertices + rows->vertices_len, piece->mesh.vertices, floats * sizeof(float));
    memcpy(rows->corners + rows->corners_len, piece->mesh.corners, corners * sizeof(uint16_t));
    rows->vertices_len += floats;
    rows->corners_len += corners;
    object[0] = add_name(rows, piece->name);
    object[1] = (uint32_t)floats;
    object[2] = (uint32_t)corners;
    object[4] = piece->material != NULL; /* one group, of all its faces */
}

static void add_group(struct rows *rows, const struct piece *piece) {
    rows->groups[rows->groups_len++] = add_name(rows, piece->material);
    rows->groups[rows->groups_len++] = (uint32_t)piece->mesh.face_count;
    for (size_t i = 0; i < piece->mesh.face_count; i++) {
        rows->faces[rows->faces_len++] = (uint16_t)i;
    }
}

void put_pieces(struct figure *figure, const struct piece *pieces, size_t piece_count,
                const struct material *materials, size_t material_count) {
    static struct rows rows;
    static uint8_t written[65536];
    uint64_t answer;
    memset(&rows, 0, sizeof rows);
    for (size_t i = 0; i < piece_count && i < MOST_PIECES; i++) {
        add_piece(&rows, rows.objects + 5 * i, &pieces[i]);
    }
    for (size_t i = 0; i < material_count && i < MOST_MATERIALS; i++) {
        rows.materials[i] = add_name(&rows, materials[i].name);
        memcpy(rows.colours + 9 * i, materials[i].colours, 9);
    }
    for (size_t i = 0; i < piece_count && i < MOST_PIECES; i++) {
        if (pieces[i].material != NULL) {
            add_group(&rows, &pieces[i]);
        }
    }
    answer =
        tds_write_figure(rows.names, rows.names_len, rows.objects, 5 * piece_count, rows.vertices,
                         rows.vertices_len, rows.corners, rows.corners_len, NULL, 0, rows.groups,
                         rows.groups_len, rows.faces, rows.faces_len, rows.materials,
                         material_count, rows.colours, 9 * material_count, written, sizeof written);
    if (TDS_REFUSED(answer)) {
        give_up("the writer refused a figure");
    }
    put_bytes(figure, written, (size_t)answer);
}

void put_private(struct figure *figure, int kind) {
    /* A reader that looks inside takes this for a list of three vertices. */
    static const uint8_t trap[] = {0x10, 0x41, 0x2C, 0x00, 0x00, 0x00, 0x03, 0x00, 0xFF, 0xFF};
    switch (kind % 3) {
    case 0:
        put_chunk(figure, 0x8123, "made by another house", 21);
        break;
    case 1:
        put_chunk(figure, 0xF1F1, NULL, 0);
        break;
    default:
        put_chunk(figure, 0x3E3D, trap, sizeof trap);
        break;
    }
}

/* The chunks that may stand in a list of faces. */
static void put_in_faces(struct figure *figure, const struct mesh *mesh,
                         const struct extras *extras) {
    if (extras->material != NULL) {
        open_chunk(figure, 0x4130);
        put_name(figure, extras->material);
        put_word(figure, (unsigned)mesh->face_count);
        for (size_t i = 0; i < mesh->face_count; i++) {
            put_word(figure, (unsigned)i);
        }
        close_chunk(figure);
    }
    if (extras->smoothing) {
        open_chunk(figure, 0x4150);
        for (size_t i = 0; i < mesh->face_count; i++) {
            put_number(figure, 1);
        }
        close_chunk(figure);
    }
    if (extras->private_chunks) {
        put_private(figure, 0);
    }
}

/* The chunks that may stand behind the lists of a mesh. */
static void put_behind_lists(struct figure *figure, const struct mesh *mesh,
                             const struct extras *extras) {
    if (extras->mapping) {
        size_t pairs = mesh->vertex_count - extras->unmapped;
        open_chunk(figure, 0x4140);
        put_word(figure, (unsigned)pairs);
        for (size_t i = 0; i < pairs; i++) {
            put_float(figure, mesh->vertices[3 * i] / 256);
            put_float(figure, mesh->vertices[3 * i + 2] / 256);
        }
        close_chunk(figure);
    }
    if (extras->axes) {
        open_chunk(figure, 0x4160);
        for (int i = 0; i < 12; i++) {
            put_float(figure, i == 0 || i == 4 || i == 8 ? 1 : 0);
        }
        close_chunk(figure);
    }
    if (extras->private_chunks) {
        put_private(figure, 2);
    }
}

/* The mesh, its two lists taken from what our writer has written. */
static void put_mesh(struct figure *figure, const uint8_t *lists, const struct mesh *mesh,
                     const struct extras *extras) {
    size_t vertices_length = 8 + 12 * mesh->vertex_count;
    open_chunk(figure, TDS_ID_MESH);
    if (extras->private_chunks) {
        put_private(figure, 1);
    }
    put_bytes(figure, lists, vertices_length);
    if (extras->private_chunks) {
        put_private(figure, 2);
    }
    open_chunk(figure, TDS_ID_FACES);
    put_bytes(figure, lists + vertices_length + 6, 2 + 8 * mesh->face_count);
    put_in_faces(figure, mesh, extras);
    close_chunk(figure);
    put_behind_lists(figure, mesh, extras);
    close_chunk(figure);
}

/* A private chunk that fills the open object up to a length. */
static void fill_up(struct figure *figure, size_t length) {
    size_t start = figure->open[figure->depth - 1];
    open_chunk(figure, 0x8123);
    if (figure->length - start > length) {
        give_up("an object is longer than it should become");
    }
    while (figure->length - start < length) {
        put_bytes(figure, "A", 1);
    }
    close_chunk(figure);
}

void put_object(struct figure *figure, const char *name, const struct mesh *mesh,
                const struct extras *extras) {
    static uint8_t written[65536];
    write_bare(written, sizeof written, name, mesh);
    open_chunk(figure, TDS_ID_OBJECT);
    put_name(figure, name);
    if (extras->private_chunks) {
        put_private(figure, 0);
    }
    put_mesh(figure, written + 25 + strlen(name), mesh, extras); /* behind the four headers */
    if (extras->private_chunks) {
        put_private(figure, 1);
    }
    if (extras->private_length != 0) {
        fill_up(figure, extras->private_length);
    }
    close_chunk(figure);
}
