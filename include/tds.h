/*
 * tds.h - a strict reader of 3D Studio figures (.3ds), a rescue of what is left of damaged ones,
 * and two writers; strict readers of binary Caligari (.cob) and Cinema 4D figures (.c4d); and the
 * slip of a stick, which tells whether the files on it are still what they were.
 *
 * A figure is read whole, from memory, by rules without exceptions: every length fills the chunk
 * around it exactly, every known chunk stands in its place, every corner of a face is a vertex that
 * exists, every name fits a label. A file that breaks one rule is refused, with one number that
 * says which rule and one place that says where. Chunks of unknown identifiers are stepped over and
 * never looked into.
 *
 * HOW TO USE IT. Read the file into memory; call tds_check (tds_kind tells a .3ds from the others);
 * if it refuses, say so and stop. Otherwise its answer is how many records the list has: lend that
 * much room to tds_list for the tree of chunks. For the meshes, lend room to tds_meshes, which
 * tells where the names, vertices, faces and mapping pairs of all of them stand in the file, and
 * read them there; or lend tables to tds_tables for one of them. examples/viewer.c does just this.
 *
 * You need not check anything beforehand: every call has an answer for any bytes of any length.
 *
 * SLICES. Each pointer is followed by the length of what it points to: `..._len` is in BYTES,
 * `..._count` is in ELEMENTS, as tds_records, tds_write and tds_write_figure take them. (`sizeof
 * row` for a count hands over the memory behind the row: TDS_ROW has both right.) A pointer to
 * bytes may have any alignment, and (NULL, 0) is an empty slice. NULL with a length above 0, or any
 * pointer to less memory than its length says, is undefined behaviour, usually a crash: no call can
 * look for it. A slice that is lent to be filled must not overlap any other slice of the call.
 * Those that are only read may overlap one another.
 *
 * ANSWERS. Each call returns one 64-bit number, its answer. Below 2^32 it is the result, as each
 * call says; from 2^32 on it is a refusal: its number (enum tds_refusal) times 2^32, plus its
 * place. The macros TDS_REFUSED, TDS_REFUSAL and TDS_PLACE take it apart; tds_words.h has the
 * refusals in words. (tds_sum_add and tds_sum_join never refuse: all 64 bits are the result.)
 *
 * WHAT IS FILLED. Numbers are written little-endian, on every machine: four bytes each, corners two
 * bytes. Floats are the 4 bytes of an IEEE 754 single, bit for bit as in the file. tds_get2,
 * tds_get4 and tds_get_float read them back. Where the machine itself is little-endian and the
 * memory suitably aligned, you may lend a table of float (uint16_t for corners) cast to uint8_t *.
 * (tds_records alone fills the machine's own numbers, and is lent those.)
 *   Room is counted in whole records or numbers: what remains at the end of a slice is not written
 * to, nor is anything beyond what the answer says was filled. A call that refuses changes no lent
 * memory.
 *
 * WHAT IS NEVER DONE. No call allocates memory, keeps or uses any state between calls, reads
 * anything but the slices it was given, writes anything but the slices it was lent, touches files,
 * prints, or ends the program. So all calls may be made from any number of threads at once.
 *
 * COST. Every call is linear in the lengths it is given, whatever is in the bytes, but where names
 * are compared with each other: names can be chosen, of one length and by their bytes, so that
 * their number counts squared. A slip of 1,000 such names takes up to 14 milliseconds, and
 * tds_write_figure up to 80 for as many as a file holds; over 36,864 objects or materials, which no
 * file holds, all names are compared two by two, and 60,000 take seconds. tds_stick_judge looks for
 * each item on the whole slip: a thousand files take it 1 millisecond, and each in a folder of its
 * own 4 to 25. Each call that reads a figure checks all of it first; the longest takes 0.02 to 3
 * milliseconds, by what is in it, and up to 12 if it is a .cob file made for that (docs/BENCH.md).
 * tds_list, tds_records, tds_meshes, tds_parts and those about one mesh take up to twice as long as
 * the check, and up to 0.1 milliseconds more where that mesh is large; tds_boxes the same and one
 * look at every vertex; tds_rescue up to 10 milliseconds. So a call for each of many meshes costs
 * the whole file each time, and one tds_meshes or tds_boxes for all of them once. tds_sum_join and
 * tds_sum_matches read no bytes. Stack: at most 20 kilobytes; tds_stick_judge needs 90,
 * tds_c4d_list 540, tds_write_figure 620 where there are more than 32 objects or materials,
 * tds_stick_file and the five calls on .cob files 850.
 *
 * ORDER OF REFUSALS. A call answers with the first refusal that applies. First come the faults of
 * the file (1 to 14, 23 and 24): 1; 2; of the chunk 4D4D 4, 5, 3; and then the first that is met
 * when the file is walked from its start. For each chunk that is 6, 4, 5, 7, 8, 9, 24, 10, 11, 12,
 * 23, in this order; then those of the chunks inside it; and at its end 14 and, of a mesh, 12 for
 * its corners and 13. After the faults of the file come 16, 17 and 15. So a damaged file is refused
 * as damaged whatever mesh was asked for and whatever room was lent. (Caligari and Cinema 4D
 * figures have an order of their own: see there.)
 *
 * WHICH SLICE. Where two slices are lent, 15 is about the first that is too small, in the order of
 * the parameters: about the second only if the first has room. The number alone does not always
 * tell which, but the room needed can be known before: tds_meshes has the sizes for tds_tables,
 * tds_cob_sizes those for tds_cob_tables, tds_c4d_check the objects for tds_c4d_list; for
 * tds_rescue file_len / 6 cuts and file_len bytes always do.
 *
 * LANGUAGE. C89 and later, and C++. <stdint.h> came only with C99, but is there with every compiler
 * this library is built for, in C89 mode too, and is the one thing beyond C89 that is used here.
 *
 * Copyright (c) 2026 the Tlapezume developers. SPDX-License-Identifier: MIT (see LICENSE)
 */
#ifndef TDS_H
#define TDS_H

#include <stddef.h>
#include <stdint.h>
#include <string.h>

#ifdef __cplusplus
extern "C" {
#endif

/*
 * The version of this header, 65536 * major + 256 * minor + patch; tds_version answers that of the
 * library, in the same way. Where the major numbers differ a program must not go on: memory that is
 * lent may be filled in another way than it was built for. (Version 1 had six numbers a record, and
 * no tds_version.) CHANGELOG.md says what came with each.
 */
#define TDS_VERSION (65536 * 2 + 256 * 8 + 0)
uint64_t tds_version(void);

/* No file longer than this is a figure. One byte more is enough to hand to tds_check to be told. */
#define TDS_LONGEST_FILE 1048576

/*
 * The refusals. "Place" is the offset in the file of the chunk at fault, unless it says otherwise.
 * In the two calls that write a figure those before 16, and 24, have other places: see there.
 */
enum tds_refusal {
    TDS_ACCEPTED = 0,      /* no refusal */
    TDS_TOO_LONG = 1,      /* the file is longer than a figure may be (1,048,576 bytes) (place 0) */
    TDS_NOT_A_FIGURE = 2,  /* the file does not begin as a figure does: under 6 bytes, or it does
                              not start with 4D 4D (place 0) */
    TDS_TRAILING = 3,      /* bytes are left over behind the end of the figure (place: where they
                              start) */
    TDS_SHORT = 4,         /* a length is too small to be true: below 6 */
    TDS_OVERRUN = 5,       /* a length runs past the end of the chunk around it, or past that of
                              the file */
    TDS_STRAY = 6,         /* a few bytes are left over where a chunk would begin: 1 to 5 of them
                              (place: the first of them) */
    TDS_MISPLACED = 7,     /* a chunk stands where it may not stand */
    TDS_TWICE = 8,         /* a chunk is there twice that may be there only once (place: the
                              later one) */
    TDS_NAME = 9,          /* a name has no end: the zero byte is missing */
    TDS_LENGTH = 10,       /* a chunk is too long or too short for what it holds */
    TDS_NUMBER = 11,       /* a coordinate is infinite or not a number */
    TDS_INDEX = 12,        /* a corner or a face is named that does not exist (place: the 4120 or
                              4130) */
    TDS_COUNT = 13,        /* the mapping coordinates do not fit the number of vertices: the
                              mapping count exceeds the vertex count; from version 3 on it must
                              equal it (place: the 4140) */
    TDS_MISSING = 14,      /* a part that must be there is missing from this chunk (place: the
                              chunk around it) */
    TDS_NO_ROOM = 15,      /* the room lent to the reader is too small (place: how much is
                              needed) */
    TDS_NO_SUCH_MESH = 16, /* the figure has no mesh of this number (place: how many it has) */
    TDS_EMPTY = 17,        /* the mesh has no vertices, so there is no box around it (place 0) */
    TDS_SLIP = 18,         /* the slip breaks the rules of slips, or it cannot be written so
                              (place: the entry: its offset, or its number in the writer) */
    TDS_DIFFERS = 19,      /* a file is not the one that the slip speaks of (place 0: another
                              length; 1: other sums) */
    TDS_HEADER = 20,       /* the file does not begin as a Caligari figure does (place 0) */
    TDS_OWNER = 21,        /* the number of a chunk is bad, or of the one that it hangs on: an
                              identifier that is 0 or used before, or a parent that no earlier
                              chunk has */
    TDS_SIZE = 22,         /* a size is negative that may not be */
    TDS_FATHER = 23,       /* a part hangs on none that stands before it: on itself, on a later
                              part or on none that there is (place: its B010) */
    TDS_TEXT = 24,         /* a name does not fit on the label (63 plain characters): over 63
                              bytes, or one not from 32 to 126 (place: the chunk; in the writer
                              the byte, or 63; on a slip the entry) */
    TDS_FORM = 25,         /* the file does not begin as a Cinema 4D figure does: its first 12
                              bytes, or the size there is not the file's (place 0) */
    TDS_ORDER = 26,        /* chunks are out of order, are there twice or have no end */
    TDS_COMBINATION = 27,  /* an object is made of parts that do not go together: none of the
                              nine kinds, or a repeat (place: its T_END) */
    TDS_MATERIAL = 28,     /* a texture names a material that does not exist (place: the texture) */
    TDS_SAME_NAME = 29,    /* two objects, or two materials, have the same name: in a figure that
                              is to be written (place: the number of the later one) */
    TDS_NO_MATERIAL = 30,  /* a group of faces names a material that is not there: in a figure
                              that is to be written (place: the number of the group in the
                              figure) */
    TDS_UNCHECKED = 31,    /* something on the stick was not looked at, or not whole (place: the
                              item) */
    TDS_BAD_FIGURE = 32,   /* a figure on the stick is refused by its reader (place: the item) */
    TDS_UNEXPECTED = 33,   /* something is on the stick that the slip does not have (place: the
                              item) */
    TDS_ABSENT = 34,       /* a file of the slip is not on the stick (place: its number on the
                              slip) */
    TDS_INCOMPLETE = 35,   /* not everything that the stick listed was looked at (place 0) */
    TDS_NO_FIGURE = 36,    /* there is no figure on the stick (place 0) */
    TDS_CHANGED = 37       /* a file on the stick is not the one of the slip: another length, or
                              other sums (place: the item) */
};

/*
 * A name fits the label if it has at most this many bytes, without its zero, each from 32 to 126.
 * It may be empty. Every name in a .3ds figure must fit, every name on a slip, and what is to be
 * written. Names in .cob and .c4d figures are not judged: they may hold any bytes.
 */
#define TDS_LONGEST_NAME 63

/* Taking an answer apart. Each macro looks at its argument once. */

/* Not 0 exactly when the answer is a refusal. */
#define TDS_REFUSED(answer) (((uint64_t)(answer) >> 32) != 0)

/* The number of the refusal, an enum tds_refusal; TDS_ACCEPTED when there is none. */
#define TDS_REFUSAL(answer) ((int)((uint64_t)(answer) >> 32))

/* The place of a refusal. */
#define TDS_PLACE(answer) ((uint32_t)(answer))

/* Of an answer of tds_tables that is no refusal: how many vertices and how many faces. */
#define TDS_VERTICES(answer) ((uint32_t)(answer) % 65536)
#define TDS_FACES(answer) ((uint32_t)(answer) / 65536)

/*
 * Is this file a figure?
 *
 * Answers the count of its records (its known chunks, 2 at least and at most 174,762), or refuses
 * with a fault of the file.
 */
uint64_t tds_check(const uint8_t *file, size_t file_len);

/*
 * The list of the known chunks, in file order, one record each.
 *
 * Answers the count of records and fills as many, from the start of the slice; or refuses with a
 * fault of the file, or 15 with the records needed (place). Room is records_len / TDS_RECORD_BYTES
 * records.
 *
 * A record is seven numbers, in the order of enum tds_record; tds_get_record reads one of them. The
 * last is for stepping over a branch: the records inside a chunk, at any depth, are those with a
 * number above its own and below its TDS_RECORD_NEXT.
 */
uint64_t tds_list(const uint8_t *file, size_t file_len, uint8_t *records, size_t records_len);

#define TDS_RECORD_NUMBERS 7
#define TDS_RECORD_BYTES (4 * TDS_RECORD_NUMBERS)

enum tds_record {
    TDS_RECORD_ID = 0,     /* the identifier, as 0x4D4D */
    TDS_RECORD_OFFSET = 1, /* where the chunk starts in the file */
    TDS_RECORD_LENGTH = 2, /* its length, with its header and all that is inside it */
    TDS_RECORD_DEPTH = 3,  /* 0 for 4D4D, 1 for the chunks in it, and so on */
    TDS_RECORD_PARENT = 4, /* the record number, from 0, of the chunk around it; 0 for 4D4D */
    TDS_RECORD_OWN = 5,    /* bytes of its own data: no header, no chunks inside it */
    TDS_RECORD_NEXT = 6    /* its own number, plus one, plus the count of records inside it */
};

/* One record of the list as a struct: the same seven numbers, in the same order. */
struct tds_chunk {
    uint32_t identifier;
    uint32_t offset;
    uint32_t length;
    uint32_t depth;
    uint32_t parent;
    uint32_t own;
    uint32_t next;
};

/*
 * The same list as a table of structs, for a caller who would rather have those than bytes.
 *
 * Takes a row of numbers to work in beside the table, since nothing is allocated. CAREFUL:
 * row_count and table_count are in elements, not bytes (TDS_ROW), and both are the machine's own
 * numbers, aligned as the language wants them. Room is what both have room for: the smaller of
 * row_count / TDS_RECORD_NUMBERS and table_count records. Answers the count of records and fills as
 * many from the start of the table, and the same numbers, seven a record, from the start of the
 * row; what is behind keeps its contents. Or refuses with a fault of the file, or 15 with the
 * records needed (place), and changes neither.
 */
uint64_t tds_records(const uint8_t *file, size_t file_len, uint32_t *row, size_t row_count,
                     struct tds_chunk *table, size_t table_count);

/*
 * A row and its count, as two arguments of a call that counts elements:
 *
 *     tds_write((const uint8_t *)"A", 1, TDS_ROW(vertices), TDS_ROW(corners), out, sizeof out)
 *
 * for an array, and never for a pointer: of that no compiler knows how long it is (-Wall warns).
 */
#define TDS_ROW(array) (array), (sizeof(array) / sizeof *(array))

/*
 * ALL IDENTIFIERS that the list can have, each below what it stands in (docs/FORMAT.md has how many
 * of each). Every other chunk is stepped over. A chunk begins with its identifier in two bytes and
 * its length in four, so ITS OWN DATA BEGINS AT ITS OFFSET + 6 and has TDS_RECORD_OWN bytes; the
 * chunks inside it come behind that. Below, a word has two bytes; a float four; a name ends with a
 * zero byte, which belongs to it. All are little-endian: tds_get2, tds_get4, tds_get_float.
 *
 * A mesh is a 4100; meshes are numbered from 0 in file order. Its parent is its object, a 4000,
 * which has the name.
 */
#define TDS_ID_FIGURE 0x4D4Du  /* the file */
#define TDS_ID_VERSION 0x0002u /* in 4D4D: version of the program that wrote it, 4 bytes */

/* In 4D4D stands 3D3D, and in that: */
#define TDS_ID_EDITOR 0x3D3Du        /* all that is shown */
#define TDS_ID_MESH_VERSION 0x3D3Eu  /* version of the meshes, 4 bytes */
#define TDS_ID_SHADOW_BIAS 0x1400u   /* of shadow maps: a float */
#define TDS_ID_SHADOW_SIZE 0x1420u   /* of shadow maps: a word */
#define TDS_ID_SHADOW_RANGE 0x1450u  /* of shadow maps: a float */
#define TDS_ID_RAY_BIAS 0x1460u      /* of traced rays: a float */
#define TDS_ID_RAYS 0x1470u          /* is there where rays are traced */
#define TDS_ID_AMBIENT_LIGHT 0x2100u /* light all around: holds colours */

/*
 * Colours, in 2100, A010, A020, A030 and 4600. Where a 0011 and a 0012 stand side by side, the 0012
 * counts: release 3 of 3D Studio put it in the place of the other, and lib3ds reads so too. (The
 * same of 0010 and 0013.) A chunk may hold none, or several; no call judges them.
 */
#define TDS_ID_COLOUR_FLOATS 0x0010u        /* red, green, blue: three floats from 0 to 1 */
#define TDS_ID_COLOUR 0x0011u               /* red, green, blue: a byte each */
#define TDS_ID_COLOUR_LINEAR 0x0012u        /* the same, with gamma allowed for */
#define TDS_ID_COLOUR_LINEAR_FLOATS 0x0013u /* three floats, the same */

/* In 3D3D, a material; in it: */
#define TDS_ID_MATERIAL 0xAFFFu
#define TDS_ID_MATERIAL_NAME 0xA000u /* its name */
#define TDS_ID_AMBIENT 0xA010u       /* holds colours */
#define TDS_ID_DIFFUSE 0xA020u       /* holds colours */
#define TDS_ID_SPECULAR 0xA030u      /* holds colours */
#define TDS_ID_SHININESS 0xA040u     /* holds one of the next two */
#define TDS_ID_PERCENT 0x0030u       /* a percentage: a word */
#define TDS_ID_PERCENT_FLOAT 0x0031u /* a percentage: a float, 1 is 100 percent */

/* In 3D3D, an object: its name; in it at most one mesh, light or camera, and what it does: */
#define TDS_ID_OBJECT 0x4000u
#define TDS_ID_HIDDEN 0x4010u           /* it is not shown */
#define TDS_ID_CASTS_NO_SHADOW 0x4012u  /* it casts no shadow */
#define TDS_ID_MATTE 0x4013u            /* it is matte */
#define TDS_ID_EXTERNAL_PROCESS 0x4015u /* an external process is on */
#define TDS_ID_TAKES_NO_SHADOW 0x4017u  /* no shadow falls on it */

/* In 4000, a mesh; in it: */
#define TDS_ID_MESH 0x4100u
#define TDS_ID_VERTICES 0x4110u      /* a word, how many; x, y, z of each: three floats */
#define TDS_ID_FACES 0x4120u         /* a word, how many; of each three corners and a flag word */
#define TDS_ID_FACE_GROUP 0x4130u    /* in 4120: a name, a word, how many; face numbers: words */
#define TDS_ID_SMOOTHING 0x4150u     /* in 4120: four bytes a face, a bit for each smooth group */
#define TDS_ID_MAPPING 0x4140u       /* a word, how many; u, v of each: two floats */
#define TDS_ID_AXES 0x4160u          /* its own axes, and where they stand: 12 floats */
#define TDS_ID_EDITOR_COLOUR 0x4165u /* its colour in the editor: a byte */

/*
 * The name in a 4130 is that of the material of these faces. Whether there is such a material is
 * not judged: look for the AFFF whose A000 has it, and have a colour at hand where none has.
 */

/* In 4000, a light, and a camera; in them: */
#define TDS_ID_LIGHT 0x4600u          /* where it stands: three floats; holds colours */
#define TDS_ID_LIGHT_OFF 0x4620u      /* in 4600: it is off */
#define TDS_ID_SPOTLIGHT 0x4610u      /* in 4600: where it looks, hotspot, falloff: five floats */
#define TDS_ID_SPOT_RECTANGLE 0x4651u /* in 4610: it is a rectangle */
#define TDS_ID_SPOT_PICTURE 0x4653u   /* in 4610: the name of its picture */
#define TDS_ID_SPOT_ROLL 0x4656u      /* in 4610: its roll, a float */
#define TDS_ID_CAMERA 0x4700u         /* where it stands, where it looks, roll, lens: 8 floats */

/*
 * In 4D4D, what moves. A part, B002, is what its B010 names: THE PART AND THE MESH BELONG TOGETHER
 * BY NAME, that of the object around the mesh. Several parts may have the name of one object, and
 * each shows it. A part named $$$DUMMY shows nothing: others hang on it. A name that no object has
 * is no fault either. Each B002 has one B010, so the B010 in the list are the parts in order.
 */
#define TDS_ID_KEYFRAMER 0xB000u
#define TDS_ID_FRAMES 0xB008u    /* the first and the last frame: four bytes each */
#define TDS_ID_PART 0xB002u      /* a part: holds its B010 */
#define TDS_ID_PART_HEAD 0xB010u /* its name; two flag words and a word, its father: six bytes */

/*
 * The tables of one mesh (number `mesh` in file order, from 0).
 *
 * Fills three floats x, y, z for each vertex (12 bytes a vertex) and three corners for each face (6
 * bytes a face; a corner is the number of a vertex, from 0). Answers vertices + 65536 * faces; or
 * refuses with a fault of the file; 16 with the count of meshes; or 15 with the numbers needed
 * (place): 3 * vertices if the slice for vertices is too small, else 3 * faces. Room is
 * vertices_len / 4 and corners_len / 2 numbers. Either both are filled or none.
 */
uint64_t tds_tables(const uint8_t *file, size_t file_len, uint32_t mesh, uint8_t *vertices,
                    size_t vertices_len, uint8_t *corners, size_t corners_len);

/*
 * The mapping of one mesh: a pair of texture coordinates for each vertex.
 *
 * Fills two floats u, v for each vertex (8 bytes a vertex), in the order of the vertices; none
 * where the mesh has no mapping (no 4140). Answers how many numbers were filled, 2 * vertices or 0;
 * or refuses with a fault of the file; 16 with the count of meshes; or 15 with the numbers needed
 * (place). Room is mapping_len / 4 numbers.
 *
 * Figures of versions below 3, and those that tell no version, may have fewer pairs than vertices:
 * the missing ones are filled with zeros. The version of a file is that of its first 0002 of 10
 * bytes among the chunks directly in 4D4D.
 */
uint64_t tds_mapping(const uint8_t *file, size_t file_len, uint32_t mesh, uint8_t *mapping,
                     size_t mapping_len);

/*
 * Where the bytes of a file went.
 *
 * Fills three numbers: headers (6 for each record), own data of all records, and bytes of unknown
 * chunks that were stepped over. Their sum is file_len. Answers 3 (numbers filled), or refuses with
 * a fault of the file, or 15 with 3 (place). Room is counts_len / 4 numbers.
 */
uint64_t tds_counts(const uint8_t *file, size_t file_len, uint8_t *counts, size_t counts_len);

/*
 * The name of a mesh: that of the object it is in.
 *
 * Fills two numbers: the offset of the name in the file and its length without the zero byte that
 * ends it. The length is 0 to 63, and each byte from 32 to 126. Answers 2 (numbers filled), or
 * refuses with a fault of the file; 16 with the count of meshes; or 15 with 2 (place). Room is
 * span_len / 4 numbers.
 */
uint64_t tds_name(const uint8_t *file, size_t file_len, uint32_t mesh, uint8_t *span,
                  size_t span_len);

/*
 * The box around the vertices of a mesh, and its centre.
 *
 * Fills nine floats: the lowest x, y, z; the highest x, y, z; the centre x, y, z. Lowest and
 * highest are bit for bit those of the file, the first in file order where several are equal (0 and
 * -0 are equal). The centre is low / 2 + high / 2, each operation rounded once to a single. Answers
 * 9 (numbers filled), or refuses with a fault of the file; 16 with the count of meshes; 17 if the
 * mesh has no vertices; or 15 with 9 (place). Room is box_len / 4 numbers.
 *   This call and tds_boxes alone compute with floats. They require round-to-nearest, no
 * floating-point traps, no flush-to-zero: what every program has that has not asked for others.
 * (Linking with -ffast-math asks for flush-to-zero.)
 */
uint64_t tds_box(const uint8_t *file, size_t file_len, uint32_t mesh, uint8_t *box, size_t box_len);

/*
 * All meshes of a figure, in one call and for the cost of one.
 *
 * Fills eight numbers a mesh, 32 bytes, in the order of enum tds_mesh; tds_get_mesh reads one of
 * them. Meshes are in file order, as tds_tables, tds_mapping, tds_name and tds_box number them.
 * Every offset is one in the file, so that names, floats and corners are read where they stand and
 * nothing is copied; all of them lie in the file, and every corner is below the count of vertices.
 * They have any alignment there, so read them with tds_get_float and tds_get2.
 * Where a mesh has no 4110, no 4120 or no 4140 both numbers of it are 0; one that is there with
 * nothing in it has the count 0 and the offset where its first element would stand, file_len at
 * most. Old figures may have fewer mapping pairs than vertices: the missing ones are 0, 0.
 * Answers the count of meshes, which may be 0, and fills as many from the start of the slice; or
 * refuses with a fault of the file, or 15 with the meshes needed (place). Room is meshes_len /
 * TDS_MESH_BYTES meshes.
 */
uint64_t tds_meshes(const uint8_t *file, size_t file_len, uint8_t *meshes, size_t meshes_len);

#define TDS_MESH_NUMBERS 8
#define TDS_MESH_BYTES (4 * TDS_MESH_NUMBERS)

enum tds_mesh {
    TDS_MESH_NAME = 0,        /* where the name of its object begins */
    TDS_MESH_NAME_LENGTH = 1, /* how many bytes it has, without the zero that ends it */
    TDS_MESH_VERTICES = 2,    /* how many vertices: x, y, z of each, 12 bytes */
    TDS_MESH_VERTICES_AT = 3, /* where the first of these floats is */
    TDS_MESH_FACES = 4,       /* how many faces: three corners and a flag word, 8 bytes each */
    TDS_MESH_FACES_AT = 5,    /* where the first corner is */
    TDS_MESH_PAIRS = 6,       /* how many mapping pairs as they stand in the file: u, v, 8 bytes */
    TDS_MESH_PAIRS_AT = 7     /* where the first of these floats is */
};

/*
 * All boxes of a figure, in one call and for the cost of one.
 *
 * Fills nine floats a mesh, 36 bytes, in the order of tds_meshes: lowest, highest and centre, bit
 * for bit those of tds_box. A mesh without vertices, for which tds_box refuses with 17, has nine
 * zeros here; its count of vertices tells it from a box at 0.
 * Answers the count of meshes, which may be 0, and fills as many from the start of the slice; or
 * refuses with a fault of the file, or 15 with the meshes needed (place). Room is boxes_len /
 * TDS_BOX_BYTES meshes.
 */
uint64_t tds_boxes(const uint8_t *file, size_t file_len, uint8_t *boxes, size_t boxes_len);

#define TDS_BOX_NUMBERS 9
#define TDS_BOX_BYTES (4 * TDS_BOX_NUMBERS)

/*
 * The parts of a moving figure, and who hangs on whom: a vice's screw hangs on its moving jaw, that
 * on its fixed jaw, and goes where it goes.
 *
 * A part is a B002 in the figure's keyframer, B000; parts are numbered from 0 in file order, and no
 * other chunk is counted with them; TDS_ID_PART tells how to find its mesh. Fills two numbers a
 * part, 8 bytes, in the order of enum tds_part; tds_get_part reads one of them. A father always has
 * a lower number than the parts that hang on him, so they can be gone through from the first to the
 * last. Answers the count of parts, 0 where there is no B000, and fills as many from the start of
 * the slice; or refuses with a fault of the file, or 15 with the parts needed (place). Room is
 * parts_len / TDS_PART_BYTES parts.
 */
uint64_t tds_parts(const uint8_t *file, size_t file_len, uint8_t *parts, size_t parts_len);

#define TDS_PART_NUMBERS 2
#define TDS_PART_BYTES (4 * TDS_PART_NUMBERS)

enum tds_part {
    TDS_PART_FATHER = 0, /* the number of the part that it hangs on, or TDS_NO_FATHER */
    TDS_PART_DEPTH = 1   /* how many fathers there are above it: 0 where it has none */
};

/* The father of a part that hangs on none. No figure has so many parts. */
#define TDS_NO_FATHER 65535u

/*
 * What is left of a damaged figure: a mended one, for looking at and not for packing, since parts
 * of it are missing.
 *
 * Each chunk directly in 3D3D is judged by itself, and cut where it fails. Where one has a bad
 * header (4, 5), or stray bytes stand there (6), nothing tells where the next begins: everything
 * from it to the end of 3D3D goes. Chunks that are not known are never cut but for such a header,
 * their own or one before them. The lengths of 3D3D and of 4D4D are lowered; every other byte stays
 * as it was.
 * tds_check accepts what comes out, and a figure that it accepts comes out unchanged, with no cuts.
 *
 * Fills three numbers a cut, 12 bytes, in the order of enum tds_cut and of the file; tds_get_cut
 * reads one of them. Putting the removed bytes back at their offsets, in order, and the two
 * lengths, gives the damaged file. Fills the mended figure from the start of `out`: file_len less
 * all bytes removed. Answers the count of cuts; or refuses with the first fault outside 3D3D's
 * children, wherever it stands, since nothing mends it; then 15 with the cuts needed; then 15 with
 * the bytes needed (place). There are fewer cuts than file_len / 6, so room for so many, and
 * file_len bytes, is always enough. Room is cuts_len / TDS_CUT_BYTES cuts, and out_len bytes. The
 * file is not changed, and `out` does not overlap it. Each child is judged twice.
 */
uint64_t tds_rescue(const uint8_t *file, size_t file_len, uint8_t *cuts, size_t cuts_len,
                    uint8_t *out, size_t out_len);

#define TDS_CUT_NUMBERS 3
#define TDS_CUT_BYTES (4 * TDS_CUT_NUMBERS)

enum tds_cut {
    TDS_CUT_OFFSET = 0, /* of the chunk that was cut, in the damaged file */
    TDS_CUT_NUMBER = 1, /* its refusal, an enum tds_refusal: the first fault in it */
    TDS_CUT_REMOVED = 2 /* how many bytes were removed */
};

/*
 * Writes a bare figure: one object with one mesh.
 *
 * Takes a name without its zero, x, y, z of each vertex, and three corners of each face. CAREFUL:
 * vertices_count and corners_count are in numbers, not bytes (TDS_ROW): `sizeof vertices` would
 * write the memory behind the row into the figure. The rows are the machine's own floats and 16-bit
 * numbers, aligned as the language wants them; name_len and out_len are bytes. Fills the file from
 * the start of the slice `out` and answers its size in bytes, 41 + name_len + 4 * vertices_count +
 * 8 * (corners_count / 3); the bytes behind keep their contents. Or it refuses, changing nothing,
 * with the first of these that holds, the place being the first fault of its kind (tds_write_words
 * of tds_words.h says it in words):
 *
 *    9  the name holds a zero byte (place: its position in the name)
 *   24  the name does not fit the label (place: the position of its first byte that is not from 32
 *       to 126, or 63 if it is longer, whichever is less)
 *   13  vertices_count is no multiple of 3, or over 196,605 (place: vertices_count);
 *       then the same of corners_count (place: corners_count)
 *   11  a float is infinite or not a number (place: its position in the row)
 *   12  a corner is not below the count of vertices (place: its position in the row)
 *    1  the size would be over 1,048,576 (place 0)
 *   15  out_len is below the size (place: the size)
 *
 * A place that would not fit in 32 bits is given as 2^32 - 1. What it writes is accepted by every
 * call above, and reads back to the same name, floats (bit for bit) and corners.
 */
uint64_t tds_write(const uint8_t *name, size_t name_len, const float *vertices,
                   size_t vertices_count, const uint16_t *corners, size_t corners_count,
                   uint8_t *out, size_t out_len);

/*
 * Writes a figure with many objects and materials, described by flat rows. CAREFUL: a `..._count`
 * is in numbers, not bytes (TDS_ROW), and these rows are the machine's own numbers; names, colours
 * and out are bytes, with their `..._len`.
 *
 *   names      all names without their zeros, one after another: of the objects, of the materials,
 *              of the face groups
 *   objects    five numbers an object: bytes of its name, floats, corners, smoothing words, groups
 *   vertices, corners, smoothing   those of all objects, one after another
 *   groups     two numbers a face group, in the order of the objects: bytes of its name, and how
 *              many face numbers
 *   faces      the face numbers of all groups, one after another
 *   materials  one number a material: bytes of its name
 *   colours    nine bytes a material: ambient, diffuse, specular, each red, green, blue
 *
 * Fills the file from the start of `out`, which overlaps none of the others, and answers its size
 * in bytes; the bytes behind keep their contents. Or it refuses, changing nothing; before all else
 *
 *   13  a row's length is not what the description says (place: that length; tds_write_row of
 *       tds_words.h tells which row), in this order:
 *       objects (no multiple of 5), groups (two for each that the objects have), names, vertices,
 *       corners, smoothing, faces, colours
 *
 * and then with the first of these, each over all objects, then over all materials; a position
 * counts within its own name, row or group:
 *
 *    9  a name of an object or material holds a zero byte (place: its position)
 *   24  such a name does not fit the label (place: as for tds_write)
 *   29  two objects, or two materials, have the same name (place: the number of the later one)
 *   30  a face group has the name of no material (place: its number in the figure)
 *   13  of one object its floats, its corners (both as for tds_write), its smoothing words (neither
 *       none nor one a face), or the face numbers of a group (over 65,535) (place: that length)
 *   11  a float is infinite or not a number (place: its position)
 *   12  a corner is not below the count of vertices, or a face number not below that of faces
 *       (place: its position)
 *    1  the size would be over 1,048,576 (place 0)
 *   15  out_len is below the size (place: the size)
 *
 * A place that would not fit in 32 bits is given as 2^32 - 1. What it writes is accepted by every
 * call above, and reads back to the same tables, names, colours, groups and words, in order. For
 * the time that it takes see COST. A triangle A with a material B on its face:
 *
 *     const uint32_t objects[] = {1, 9, 3, 0, 1}, groups[] = {1, 1}, materials[] = {1};
 *     const float vertices[] = {0, 0, 0, 1, 0, 0, 0, 1, 0};
 *     const uint16_t corners[] = {0, 1, 2}, faces[] = {0};
 *     const uint8_t colours[] = {10, 10, 10, 200, 160, 90, 255, 255, 255};
 *     uint8_t out[256];
 *     uint64_t size = tds_write_figure((const uint8_t *)"ABB", 3, TDS_ROW(objects),
 *                                      TDS_ROW(vertices), TDS_ROW(corners), NULL, 0,
 *                                      TDS_ROW(groups), TDS_ROW(faces), TDS_ROW(materials),
 *                                      colours, sizeof colours, out, sizeof out);
 */
uint64_t tds_write_figure(const uint8_t *names, size_t names_len, const uint32_t *objects,
                          size_t objects_count, const float *vertices, size_t vertices_count,
                          const uint16_t *corners, size_t corners_count, const uint32_t *smoothing,
                          size_t smoothing_count, const uint32_t *groups, size_t groups_count,
                          const uint16_t *faces, size_t faces_count, const uint32_t *materials,
                          size_t materials_count, const uint8_t *colours, size_t colours_len,
                          uint8_t *out, size_t out_len);

/*
 * CALIGARI FIGURES: binary .cob files, little-endian, with the chunks END 1.0, Grou 0.01, PolH 0.02
 * and Mat1 0.05. A chunk of another type or version is stepped over by its size, but its identifier
 * and parent count. What is said at the top of slices, answers and what is filled holds here too;
 * names are not judged. The four files of other houses that were tried break the rule of 21
 * (docs/REAL_FILES.md), so try yours. Each of the five calls needs 850 kilobytes of stack, however
 * short the file: too much for a thread with a small one.
 *
 * TWO THINGS A VIEWER MUST KNOW, or it shows half a figure calmly:
 *   Vertices are in the mesh's own space. The chunk's Current Position carries them to the world:
 * three rows of four floats, x = row 1 of (x, y, z, 1), and so on. Drawn without it, all meshes
 * fall together at one place. tds_cob_meshes tells where it stands.
 *   The tables have only the faces with three corners and no holes; all others are left out.
 * tds_cob_meshes tells how many faces there are in all, and how many of them the tables have: where
 * these two differ, do not show the mesh as if it were whole.
 *
 * The refusals of a file, in their order:
 *
 *    1  as for a figure (place 0)
 *   20  the first 32 bytes are not "Caligari V00.01BLH", 13 spaces and a newline (place 0)
 *
 * then for each chunk, in file order and at its offset, the first of these:
 *
 *    5  its header or its stated size passes the end of the file
 *   21  its identifier is 0 or that of an earlier chunk, or its parent is neither 0 nor the
 *       identifier of an earlier chunk (of END neither is looked at)
 *   22  its size is negative, and not the -1 that END, Grou and PolH may have
 *   10  its body does not fill its size, or does not fit; or a count, a string's length or a
 *       dupecount is negative
 *   11  a coordinate of a vertex or of a texture vertex is infinite or not a number
 *   12  an index of a face is not that of a vertex or texture vertex, or a hole comes first
 *
 * and 3 where bytes follow END, or 14 where the file ends without it (place: the offset reached);
 * after all that 16 and 15.
 */

/* Is this file a Caligari figure? Answers the count of its records, 1 at least, or a refusal. */
uint64_t tds_cob_check(const uint8_t *file, size_t file_len);

/*
 * The chunks of the four types, in file order, one record each.
 *
 * Answers the count of records and fills as many, from the start of the slice; or refuses with the
 * file's faults, or 15 with the records needed (place). Room is records_len / TDS_COB_RECORD_BYTES
 * records. A record is six numbers, in the order of enum tds_cob_record; tds_get_cob_record reads
 * one of them.
 */
uint64_t tds_cob_list(const uint8_t *file, size_t file_len, uint8_t *records, size_t records_len);

#define TDS_COB_RECORD_NUMBERS 6
#define TDS_COB_RECORD_BYTES (4 * TDS_COB_RECORD_NUMBERS)

enum tds_cob_record {
    TDS_COB_TYPE = 0,       /* its four letters, the first in the lowest byte */
    TDS_COB_OFFSET = 1,     /* where its header begins */
    TDS_COB_LENGTH = 2,     /* its length, the 20 bytes of the header counted */
    TDS_COB_IDENTIFIER = 3, /* 0 for END, as are the next two */
    TDS_COB_PARENT = 4,     /* the identifier of its parent, or 0 */
    TDS_COB_OWNER = 5       /* the identifier of its topmost owner: its own where the parent is 0 */
};

/* The four types as numbers of a record. */
#define TDS_COB_END 0x20444E45u
#define TDS_COB_GROUP 0x756F7247u
#define TDS_COB_MESH 0x486C6F50u
#define TDS_COB_MATERIAL 0x3174614Du

/*
 * How large are the tables of a mesh? Meshes are the PolH chunks, from number 0, in file order.
 *
 * Answers 2 and fills two numbers: how many vertices the mesh has, and how many faces with three
 * corners and no holes: the others are not counted (see above). Or refuses with the file's faults,
 * 16 with the count of meshes (place), or 15 with 2 (place).
 */
uint64_t tds_cob_sizes(const uint8_t *file, size_t file_len, uint32_t mesh, uint8_t *sizes,
                       size_t sizes_len);

/*
 * The tables of a mesh: three floats a vertex, in the mesh's own space, and of each face with three
 * corners and no holes its three corners, indices of vertices; four bytes each number. See above
 * for the way to the world, and for the faces that are left out.
 *
 * Answers the count of vertices. Or refuses with the file's faults, 16 with the count of meshes
 * (place), or 15 with the numbers needed (place), of the vertices where both slices are too small.
 */
uint64_t tds_cob_tables(const uint8_t *file, size_t file_len, uint32_t mesh, uint8_t *vertices,
                        size_t vertices_len, uint8_t *corners, size_t corners_len);

/*
 * All meshes of a Caligari figure, in one call and for the cost of one.
 *
 * Fills eight numbers a mesh, 32 bytes, in the order of enum tds_cob_mesh; tds_get_cob_mesh reads
 * one of them. Meshes are in file order, as tds_cob_sizes and tds_cob_tables number them. Every
 * offset is one in the file: name, Current Position and floats are read where they stand, and all
 * of them lie in it. Names are not judged: any bytes, and no zero at the end.
 * Answers the count of meshes, which may be 0, and fills as many from the start of the slice; or
 * refuses with the file's faults, or 15 with the meshes needed (place). Room is meshes_len /
 * TDS_COB_MESH_BYTES meshes.
 */
uint64_t tds_cob_meshes(const uint8_t *file, size_t file_len, uint8_t *meshes, size_t meshes_len);

#define TDS_COB_MESH_NUMBERS 8
#define TDS_COB_MESH_BYTES (4 * TDS_COB_MESH_NUMBERS)

enum tds_cob_mesh {
    TDS_COB_MESH_NAME = 0,        /* where its name begins */
    TDS_COB_MESH_NAME_LENGTH = 1, /* how many bytes it has */
    TDS_COB_MESH_POSITION = 2,    /* where its Current Position is: three rows of four floats */
    TDS_COB_MESH_VERTICES = 3,    /* how many vertices: x, y, z of each, 12 bytes */
    TDS_COB_MESH_VERTICES_AT = 4, /* where the first of these floats is */
    TDS_COB_MESH_FACES = 5,       /* how many faces in all; a hole is none */
    TDS_COB_MESH_TABLED = 6,      /* how many of them tds_cob_tables gives */
    TDS_COB_MESH_RECORD = 7       /* the number of its chunk's record in tds_cob_list */
};

/*
 * THE SLIP OF A STICK: one small file that says which files are on the stick, with the length and
 * the sums of each, so that a damaged file is found. The calls below take any files, not only
 * figures (tds_sums none over 1,048,576 bytes: for such a file add up its parts with tds_sum_add,
 * whose answer % 65536 is the sums). docs/SLIP.md says what the sums find and what they miss: one
 * turned bit is always found, a byte 0 turned into 255 is not.
 *
 * To make one, call tds_sums for each file, lay the names one after another in memory and an entry
 * for each in a row, and call tds_slip_write. To check a stick, call tds_slip_read on its slip, and
 * for each entry hand the file of that name to tds_matches, or in parts to tds_sum_add, and what
 * comes of that to tds_sum_matches.
 *
 * SUMS are the two 8-bit Fletcher sums of RFC 1146: the sum of all bytes, and the sum of the
 * running first sums, both as remainders modulo 255, so from 0 to 254. They go in and out as one
 * number, first sum + 256 * second sum. An empty file has 0.
 */
#define TDS_FIRST_SUM(sums) ((uint32_t)(sums) % 256)
#define TDS_SECOND_SUM(sums) ((uint32_t)(sums) / 256 % 256)

/*
 * The sums of a file, for making its entry.
 *
 * Answers the sums, below 65,536; or refuses with 1 (place 0) a file of over 1,048,576 bytes.
 */
uint64_t tds_sums(const uint8_t *file, size_t file_len);

/*
 * One file against one entry: is it still the file that the entry was made of?
 *
 * Takes the length and the sums of the entry; its name is not looked at. Answers 0 if both are the
 * file's; or refuses with 19, place 0 if the length is another, else place 1 if the sums are. The
 * file may have any length. Sums that no file has (a byte 255, or a number over 65,535) are 19 at 1
 * where the length is right.
 */
uint64_t tds_matches(const uint8_t *file, size_t file_len, uint32_t length, uint32_t sums);

/*
 * A FILE IN PARTS, in file order, cut anywhere. What has been read so far is one 64-bit number,
 * which you keep: its sums + 65536 * its length. Begin with 0, the number of nothing. Of these two
 * calls no answer is a refusal, and every number stands for something: a sum byte 255 counts as 0,
 * and a length over 2^48 - 1 as 2^48 - 1.
 *
 * tds_sum_add answers the number of what stood before followed by these bytes; an empty part adds
 * nothing. tds_sum_join answers the number of two parts joined, from theirs, so that parts
 * may be summed apart; joining is associative as long as the lengths stay below 2^48.
 */
uint64_t tds_sum_add(uint64_t before, const uint8_t *part, size_t part_len);
uint64_t tds_sum_join(uint64_t first, uint64_t second);

/* As tds_matches, of all that was added: the same answer, however the file was cut. */
uint64_t tds_sum_matches(uint64_t sum, uint32_t length, uint32_t sums);

/*
 * An ENTRY is four numbers, 16 bytes, in the order of enum tds_entry; tds_get_entry reads one of
 * them. Little-endian both ways: put them in with tds_put4 before tds_slip_write. The name stands
 * elsewhere: an entry says where it begins, and how long it is. Names have 1 to TDS_LONGEST_NAME
 * bytes, each from 32 to 126, and no two entries of a slip have the same. A slip has at most
 * TDS_MOST_ENTRIES entries, so at most TDS_LONGEST_SLIP bytes.
 */
#define TDS_ENTRY_NUMBERS 4
#define TDS_ENTRY_BYTES (4 * TDS_ENTRY_NUMBERS)
#define TDS_MOST_ENTRIES 1000
#define TDS_LONGEST_SLIP 70007

enum tds_entry {
    TDS_ENTRY_NAME = 0,        /* where the name begins: an offset in the slip, or in `names` */
    TDS_ENTRY_NAME_LENGTH = 1, /* how many bytes it has */
    TDS_ENTRY_LENGTH = 2,      /* the length of the file */
    TDS_ENTRY_SUMS = 3         /* its sums */
};

/*
 * The entries of a slip, in order; a name's offset is one in the slip.
 *
 * Answers the count of entries, which may be 0, and fills as many, from the start of the slice; or
 * refuses with 18, then 24, then 15 with the entries needed (place). Room is entries_len /
 * TDS_ENTRY_BYTES entries. The place of 18 is 0 for the first 7 bytes of the slip (fewer than
 * those, another version than 1, a length that is not that of the rest, a count over 1,000); else
 * the offset of the first bad entry (one that passes the slip's end, has no name, a sum byte 255,
 * or the name of an earlier one; a missing entry is bad where it would begin), or of the first byte
 * left over. The place of 24 is the offset of the first entry whose name does not fit the label.
 */
uint64_t tds_slip_read(const uint8_t *slip, size_t slip_len, uint8_t *entries, size_t entries_len);

/*
 * Writes a slip of entries_len / TDS_ENTRY_BYTES entries, in their order.
 *
 * A name's offset is one in `names`, which may hold other bytes too, and names may overlap there.
 * So what tds_slip_read filled in can be written again with the slip itself as `names`: the same
 * bytes come out. Fills the slip from the start of `out` and answers its size in bytes, 7 for the
 * slip and 7 + the name's length for each entry; the bytes behind keep their contents. Or it
 * refuses, changing nothing, with the first of these that holds:
 *
 *   18  an entry is bad (place: its number, from 0, of the first such): it is number 1,000, so one
 *       too many; its name does not lie in `names`, or has not 1 to 255 bytes; its sums have a byte
 *       255, or are over 65,535; an earlier entry has the same name; or it is a part of an entry,
 *       at the end of the slice
 *   24  a name does not fit the label (place: the number of the first such entry)
 *   15  out_len is below the size (place: the size)
 *
 * What it writes is accepted by tds_slip_read, with the same names, lengths and sums.
 */
uint64_t tds_slip_write(const uint8_t *names, size_t names_len, const uint8_t *entries,
                        size_t entries_len, uint8_t *out, size_t out_len);

/*
 * A GOOD STICK. Walk the folder of the stick and hand over what was met: one item for the folder
 * itself, which is item 0, and one for each name that was listed in it and in the folders below.
 * tds_stick_judge holds all of it against the slip, and answers 1 where the stick is good.
 *
 * Of each item: zero its TDS_ITEM_BYTES first, set where its path stands in `names`, and leave the
 * rest zero where anything fails, for a zeroed item never passes. Of a folder set its kind and,
 * once all of its names were listed, its size. Of a file call tds_stick_file, and tds_stick_more
 * with each further part, to its end: they set all the rest. Never leave an item out.
 * examples/launch.c does just this.
 *
 * Seven numbers an item, eight bytes each, little-endian.
 */
#define TDS_ITEM_NUMBERS 7
#define TDS_ITEM_BYTES 56
enum tds_item {
    TDS_ITEM_NAME = 0,        /* where its path begins in `names`: the path below the stick's
                                 folder, with '/'; empty for that folder itself */
    TDS_ITEM_NAME_LENGTH = 1, /* how long the path is */
    TDS_ITEM_KIND = 2,        /* an enum tds_item_kind */
    TDS_ITEM_SIZE = 3,        /* of a file its length, as the system tells it; of a folder 1 + the
                                 names listed in it, without . and .., or 0 */
    TDS_ITEM_SUM = 4,         /* of a file: tds_sum_add over all its bytes */
    TDS_ITEM_READER = 5,      /* of a file: which reader had its bytes, by the ending of its path
                                 (0 none, 1 .3ds, 2 .cob, 3 .c4d) */
    TDS_ITEM_ANSWER = 6       /* and what that answered */
};
enum tds_item_kind {
    TDS_ITEM_UNKNOWN = 0, /* anything else too: not checked */
    TDS_ITEM_FILE = 1,
    TDS_ITEM_FOLDER = 2
};

/*
 * The judge of a stick. What must be there is the slip's own file (stick.slip, of the length and
 * sums of these very bytes), number 0, and the slip's entries, numbered from 1. Names are compared
 * with ASCII letters of either case alike.
 *
 * Answers 1 where the stick is good, and 1 is nothing else; or the first problem, in this order:
 *   18, 24  of the slip, with the place of tds_slip_read
 *   31  items_len is no multiple of TDS_ITEM_BYTES (place: the whole items)
 *   item 0 (place 0): 31 it is no folder; 33 its path is not empty; 31 it was not listed
 *   each other item in turn (place: its number; where its path is not within `names`: 31)
 *     a file: 33 its path is empty, not on the slip, or that of an earlier file; 37 its size is not
 *       the entry's; 31 it was not read whole; 31 its reader is not that of its ending; 37 other
 *       sums; 32 its reader refused it
 *     any other: 31 it is no folder; 33 its path is empty, over 63 bytes, is the name of a file on
 *       the slip, leads to none, or came before; 31 it was not listed
 *   35  the items are not as many as 1 + the names listed (place 0)
 *   34  a file of the slip is not there (place: its number)
 *   36  there is no figure (place 0)
 *
 * It needs 90 kilobytes of stack.
 */
uint64_t tds_stick_judge(const uint8_t *slip, size_t slip_len, const uint8_t *names,
                         size_t names_len, const uint8_t *items, size_t items_len);

/*
 * The evidence for a file: fills kind, size, sum, reader and answer of its item, from its path, its
 * length as the system tells it, and its bytes: all of them, or the first part. A figure of up to
 * TDS_LONGEST_FILE bytes must come in one part. Leaves the two numbers of its name. Answers 0, or
 * 15 with 56 where item_len is not TDS_ITEM_BYTES, and then changes nothing. It needs 850 kilobytes
 * of stack, whatever file it is.
 */
uint64_t tds_stick_file(const uint8_t *path, size_t path_len, uint64_t size, const uint8_t *bytes,
                        size_t bytes_len, uint8_t *item, size_t item_len);

/*
 * Goes on with a further part of the file: the sum grows, and a figure of which there is more is
 * refused as TOO LONG. Answers as tds_stick_file does.
 */
uint64_t tds_stick_more(const uint8_t *part, size_t part_len, uint8_t *item, size_t item_len);

/*
 * CINEMA 4D FIGURES (.c4d). Of these the structure alone is read, as strictly: the sizes of all
 * chunks and sub-chunks; PLTF as the very first chunk or not at all, MAT4 before OBJ5, each at most
 * once; materials up to MAT_END; objects from T_OBJECT to T_END, each with the sub-chunks of one of
 * the nine combinations that the format has, and none of them twice but textures. Chunks and
 * sub-chunks of unknown kinds are stepped over. A file with none of these is accepted, and has no
 * objects. docs/FORMAT.md has the rules.
 *
 * Refusals: 1; 25; then the first fault met in file order, at its chunk or sub-chunk, and at one
 * place in this order: 5, also for what is too short to be a header; 10 for a texture that is not
 * of 64 bytes; 26 for what is out of order, or a chunk that is repeated; 28; 27 at the T_END, also
 * for a sub-chunk that is repeated. A missing end is 26 at its MAT4 or OBJ5. Then 15.
 */

/* Answers the count of objects, which may be 0, or refuses. */
uint64_t tds_c4d_check(const uint8_t *file, size_t file_len);

/*
 * An OBJECT is three numbers, 12 bytes, in the order of enum tds_c4d_object; tds_get_c4d_object
 * reads one of them.
 */
#define TDS_C4D_OBJECT_NUMBERS 3
#define TDS_C4D_OBJECT_BYTES (4 * TDS_C4D_OBJECT_NUMBERS)

enum tds_c4d_object {
    TDS_C4D_OBJECT_OFFSET = 0,  /* where its T_OBJECT begins */
    TDS_C4D_OBJECT_KIND = 1,    /* an enum tds_c4d_kind */
    TDS_C4D_OBJECT_TEXTURES = 2 /* how many textures it has */
};

/* The nine combinations of sub-chunks, in the format's order. */
enum tds_c4d_kind {
    TDS_C4D_MESH = 1,
    TDS_C4D_POLYGON = 2,
    TDS_C4D_LIGHT = 3,
    TDS_C4D_CAMERA = 4,
    TDS_C4D_GROUND = 5,
    TDS_C4D_SKY = 6,
    TDS_C4D_SPHERE = 7,
    TDS_C4D_ENVIRONMENT = 8,
    TDS_C4D_OTHER = 9 /* none of these */
};

/* The same by their names before version 2.8, which say nothing of Cinema 4D. */
#define TDS_OBJECT_NUMBERS TDS_C4D_OBJECT_NUMBERS
#define TDS_OBJECT_BYTES TDS_C4D_OBJECT_BYTES

enum tds_object {
    TDS_OBJECT_OFFSET = TDS_C4D_OBJECT_OFFSET,
    TDS_OBJECT_COMBINATION = TDS_C4D_OBJECT_KIND,
    TDS_OBJECT_TEXTURES = TDS_C4D_OBJECT_TEXTURES
};

/*
 * The objects, in order; and the materials of the textures of all objects, one after another, four
 * bytes each: the first belong to the first object, and so on. No material (-1) is 0xFFFFFFFF.
 *
 * Answers the count of objects and fills as many, from the start of each slice; or refuses as
 * tds_c4d_check does, or with 15 and the objects needed (place), then with 15 and the materials
 * needed. Rooms are objects_len / TDS_C4D_OBJECT_BYTES objects and materials_len / 4 materials.
 */
uint64_t tds_c4d_list(const uint8_t *file, size_t file_len, uint8_t *objects, size_t objects_len,
                      uint8_t *materials, size_t materials_len);

/* The words below are what C89, C99 and C++ call a function that lives in a header. */
#if defined(__cplusplus) || (defined(__STDC_VERSION__) && __STDC_VERSION__ >= 199901L)
#define TDS_INLINE static inline
#elif defined(__GNUC__)
#define TDS_INLINE static __inline__
#else
#define TDS_INLINE static
#endif

/* Two bytes of a filled slice, or of a .3ds file, as a number. */
TDS_INLINE uint16_t tds_get2(const uint8_t *at) {
    return (uint16_t)(at[0] | (uint16_t)(at[1] << 8));
}

/* Four such bytes as a number. */
TDS_INLINE uint32_t tds_get4(const uint8_t *at) {
    return (uint32_t)at[0] | (uint32_t)at[1] << 8 | (uint32_t)at[2] << 16 | (uint32_t)at[3] << 24;
}

/* Four such bytes as a float. */
TDS_INLINE float tds_get_float(const uint8_t *at) {
    uint32_t bits = tds_get4(at);
    float number;
    memcpy(&number, &bits, sizeof number);
    return number;
}

/* A number as two, and as four bytes of a slice: for the entries of tds_slip_write. */
TDS_INLINE void tds_put2(uint8_t *at, uint16_t number) {
    at[0] = (uint8_t)(number & 255);
    at[1] = (uint8_t)(number >> 8);
}

TDS_INLINE void tds_put4(uint8_t *at, uint32_t number) {
    tds_put2(at, (uint16_t)(number & 65535));
    tds_put2(at + 2, (uint16_t)(number >> 16));
}

/*
 * Which format a file has, by its first bytes alone: which check to ask. Whether it is a good file
 * of that format the check tells. (A .cob file in text form is TDS_KIND_COB, and refused with 20.)
 */
enum tds_file_kind {
    TDS_KIND_UNKNOWN = 0,
    TDS_KIND_3DS = 1, /* begins with 4D 4D: tds_check */
    TDS_KIND_COB = 2, /* begins with "Caligari ": tds_cob_check */
    TDS_KIND_C4D = 3  /* begins with "FORM", a size and "MC4D": tds_c4d_check */
};

TDS_INLINE enum tds_file_kind tds_kind(const uint8_t *file, size_t file_len) {
    if (file_len >= 2 && file[0] == 0x4D && file[1] == 0x4D) {
        return TDS_KIND_3DS;
    }
    if (file_len >= 9 && memcmp(file, "Caligari ", 9) == 0) {
        return TDS_KIND_COB;
    }
    if (file_len >= 12 && memcmp(file, "FORM", 4) == 0 && memcmp(file + 8, "MC4D", 4) == 0) {
        return TDS_KIND_C4D;
    }
    return TDS_KIND_UNKNOWN;
}

/* One number of one entry of a slip. */
TDS_INLINE uint32_t tds_get_entry(const uint8_t *entries, size_t entry, enum tds_entry number) {
    return tds_get4(entries + entry * TDS_ENTRY_BYTES + 4 * (size_t)number);
}

/* One number of one item of a stick: read, and set. */
TDS_INLINE uint64_t tds_get_item(const uint8_t *items, size_t item, enum tds_item number) {
    const uint8_t *at = items + item * TDS_ITEM_BYTES + 8 * (size_t)number;
    return tds_get4(at) | (uint64_t)tds_get4(at + 4) << 32;
}

TDS_INLINE void tds_set_item(uint8_t *items, size_t item, enum tds_item number, uint64_t value) {
    uint8_t *at = items + item * TDS_ITEM_BYTES + 8 * (size_t)number;
    int i;
    for (i = 0; i < 8; i++) {
        at[i] = (uint8_t)(value >> (8 * i) & 255);
    }
}

/* One number of one mesh. */
TDS_INLINE uint32_t tds_get_mesh(const uint8_t *meshes, size_t mesh, enum tds_mesh number) {
    return tds_get4(meshes + mesh * TDS_MESH_BYTES + 4 * (size_t)number);
}

/* One number of one mesh of a Caligari figure. */
TDS_INLINE uint32_t tds_get_cob_mesh(const uint8_t *meshes, size_t mesh, enum tds_cob_mesh number) {
    return tds_get4(meshes + mesh * TDS_COB_MESH_BYTES + 4 * (size_t)number);
}

/* One number of one part. */
TDS_INLINE uint32_t tds_get_part(const uint8_t *parts, size_t part, enum tds_part number) {
    return tds_get4(parts + part * TDS_PART_BYTES + 4 * (size_t)number);
}

/* One number of one cut. */
TDS_INLINE uint32_t tds_get_cut(const uint8_t *cuts, size_t cut, enum tds_cut number) {
    return tds_get4(cuts + cut * TDS_CUT_BYTES + 4 * (size_t)number);
}

/* One number of one object of a Cinema 4D figure. */
TDS_INLINE uint32_t tds_get_c4d_object(const uint8_t *objects, size_t object,
                                       enum tds_c4d_object number) {
    return tds_get4(objects + object * TDS_C4D_OBJECT_BYTES + 4 * (size_t)number);
}

/* The same by its name before version 2.8. */
TDS_INLINE uint32_t tds_get_object(const uint8_t *objects, size_t object, enum tds_object number) {
    return tds_get4(objects + object * TDS_OBJECT_BYTES + 4 * (size_t)number);
}

/* One number of one record of a filled list of a Caligari figure. */
TDS_INLINE uint32_t tds_get_cob_record(const uint8_t *records, size_t record,
                                       enum tds_cob_record number) {
    return tds_get4(records + record * TDS_COB_RECORD_BYTES + 4 * (size_t)number);
}

/* One number of one record of a filled list. */
TDS_INLINE uint32_t tds_get_record(const uint8_t *records, size_t record, enum tds_record number) {
    return tds_get4(records + record * TDS_RECORD_BYTES + 4 * (size_t)number);
}

#ifdef __cplusplus
}
#endif

#endif
