/* The refusals at length, and what to do about each; their short words are in tds_words.h. */
#include "refusals.h"

#include <stddef.h>
#include <strings.h>

#include "tds_words.h"

#define AGAIN "copy this figure again"
#define ADVICE                                                                                     \
    "Copy this figure again from the master and check it once more. If the new\n"                  \
    "copy is refused with the same number at the same place, the copying is not to\n"              \
    "blame: the master is damaged, or a program made it that keeps other rules.\n"                 \
    "Leave it off the stick and tell whoever made the figure.\n"
#define OTHERS "copy this figure again, or it is another program's file"
#define OTHERS_ADVICE                                                                              \
    "Copy this figure again from the master and check it once more. If the new\n"                  \
    "copy is refused with the same number at the same place, another program wrote\n"              \
    "it in its own way, as trueSpace does with most of its .cob files: ask whoever\n"              \
    "made the figure for one that keeps the rules of the edition.\n"
#define PROGRAM "tell whoever looks after this program"
#define PROGRAM_ADVICE                                                                             \
    "The figure is good; the program that asked made the mistake. Tell whoever\n"                  \
    "looks after it. Checking a stick never ends with this refusal.\n"
#define WRITER_ADVICE                                                                              \
    "The program that wanted the figure written made the mistake. Tell whoever\n"                  \
    "looks after it. Checking a stick never ends with this refusal.\n"
#define STICK "see the other lines of the check"
#define STICK_ADVICE                                                                               \
    "This is what the library says of a whole stick. The check has a line for each\n"              \
    "problem, with what to do about it: do that, and check again.\n"

static const struct refusal table[] = {
    {TDS_TOO_LONG,
     "A figure has at most 1,048,576 bytes (1 MB). This file is longer, and was\n"
     "not looked at any further. The place is always byte 0.\n",
     "see that the right file was copied",
     "See that the right file was copied under this name. If it was, the figure is\n"
     "too big for the edition: tell whoever made it.\n"},
    {TDS_NOT_A_FIGURE,
     "A figure begins with the bytes 4D 4D and has at least 6 bytes. This file is\n"
     "empty, cut off, overwritten, or something else that was given the name of a\n"
     "figure. The place is always byte 0.\n",
     AGAIN, ADVICE},
    {TDS_TRAILING,
     "The figure says at its start how long it is, and the file goes on behind\n"
     "that. Either the length was damaged or something was added to the file. The\n"
     "place is where the left-over bytes begin.\n",
     AGAIN, ADVICE},
    {TDS_SHORT,
     "Each chunk says how long it is, and its own header counts: no length can be\n"
     "below 6. This one is, so it was damaged. The place is where the chunk\n"
     "begins.\n",
     AGAIN, ADVICE},
    {TDS_OVERRUN,
     "Each chunk says how long it is, and must end before or where the chunk around\n"
     "it ends (or the file). This one says that it goes on behind that. A single\n"
     "turned bit in a length does this, and so does a file that was cut off. The\n"
     "place is where the chunk begins.\n",
     AGAIN, ADVICE},
    {TDS_STRAY,
     "Inside a chunk the next ones follow each other without a gap, up to its end.\n"
     "Here 1 to 5 bytes are left, too few to be a chunk. Mostly a length nearby was\n"
     "damaged. The place is the first of these bytes.\n",
     AGAIN, ADVICE},
    {TDS_MISPLACED,
     "Every known kind of chunk has its place: vertices stand in a mesh, a mesh in\n"
     "an object. This one stands inside another kind of chunk. Mostly a length\n"
     "before it was damaged, or the mark that says what kind of chunk it is. The\n"
     "place is where the chunk begins.\n",
     AGAIN, ADVICE},
    {TDS_TWICE,
     "Some chunks may stand only once in the chunk around them: a mesh has one list\n"
     "of vertices, a figure one editor part. This is a second one. The place is\n"
     "where the second one begins.\n",
     AGAIN, ADVICE},
    {TDS_NAME,
     "A name ends with a zero byte, and there is none in the chunk that holds this\n"
     "name. The place is where the chunk begins.\n",
     AGAIN, ADVICE},
    {TDS_LENGTH,
     "What a chunk holds says how long the chunk must be: three vertices take 38\n"
     "bytes, not 37 or 50. Mostly the length of this one, or the count inside it,\n"
     "was damaged. The place is where the chunk begins.\n",
     AGAIN, ADVICE},
    {TDS_NUMBER,
     "The coordinates of a vertex, or of its mapping, must be numbers that can be\n"
     "drawn. One in this chunk is infinite or no number at all. The place is where\n"
     "the chunk that holds it begins.\n",
     AGAIN, ADVICE},
    {TDS_INDEX,
     "Each face names three vertices of its mesh by number, and each group of faces\n"
     "with one material names its faces. Here one is named that does not exist:\n"
     "part of the figure would be missing or drawn wrongly. The place is where the\n"
     "list of faces, or the group, begins.\n",
     AGAIN, ADVICE},
    {TDS_COUNT,
     "A mesh may say for each of its vertices which spot of a picture belongs there.\n"
     "Then there must be one for each vertex (in a figure older than version 3 at\n"
     "most one), and here there are more or fewer. The place is where the list of\n"
     "mapping coordinates begins.\n",
     AGAIN, ADVICE},
    {TDS_MISSING,
     "A figure must have an editor part, which holds everything that is shown, and a\n"
     "material must have a name. Here it is missing, or its mark was damaged so that\n"
     "it is not known any more. The place is where the chunk begins that should hold\n"
     "it.\n",
     AGAIN, ADVICE},
    {TDS_NO_ROOM,
     "A program asked the reader for a list or a table and lent it too little room.\n"
     "The place says how much is needed.\n",
     PROGRAM, PROGRAM_ADVICE},
    {TDS_NO_SUCH_MESH,
     "A program asked the reader for a mesh that the figure does not have. The\n"
     "place says how many it has; they are counted from 0.\n",
     PROGRAM, PROGRAM_ADVICE},
    {TDS_EMPTY,
     "A program asked the reader for the box around a mesh without vertices. The\n"
     "place is always 0.\n",
     PROGRAM, PROGRAM_ADVICE},
    {TDS_SLIP,
     "The slip is the small file on a stick that says what is on it. It begins with\n"
     "the byte 1, says how long it is and how many files it speaks of, and has a name,\n"
     "a length and two sums for each. Here something of that is not so, or a name is\n"
     "there twice. The place is where the bad entry begins, or 0 for the first bytes.\n",
     "copy the slip again",
     "Copy the slip again from the master and check once more. If the new copy is\n"
     "broken too, delete it on the master and write it anew (--write-slip).\n"},
    {TDS_DIFFERS,
     "The slip has the length and two sums of each file. Of this file one of them is\n"
     "another (place 0: the length, 1: the sums), so at least one of its bytes is. A\n"
     "single turned bit is always found so.\n",
     "copy it again",
     "Copy this file again from the master and check once more. If the new copy\n"
     "differs too, the slip is older than the file: see that both are of one edition.\n"
     "A byte 0 that became 255 keeps both sums: the slip misses it, --against sees it.\n"},
    {20,
     "A Caligari figure (.cob) begins with 32 bytes that say what it is, and how its\n"
     "numbers are written. Here they are others, or the file is shorter. The place is\n"
     "always byte 0.\n",
     OTHERS, OTHERS_ADVICE},
    {21,
     "Each chunk of a Caligari figure has a number of its own, which is not 0, and\n"
     "names by number the chunk that it hangs on, or 0. Here a number is 0 or there\n"
     "twice, or a chunk hangs on one that does not stand before it. The place is where\n"
     "the chunk begins.\n",
     OTHERS, OTHERS_ADVICE},
    {22,
     "Each chunk of a Caligari figure says how many bytes follow. Some may say -1 and\n"
     "leave it to what they hold; no other size may be below 0. The place is where the\n"
     "chunk begins.\n",
     AGAIN, ADVICE},
    {23,
     "A figure that moves says for each part which other part it hangs on, by number,\n"
     "and that one must stand before it. Here it names itself, a later part or none\n"
     "that there is. The place is where the chunk begins that says so.\n",
     AGAIN, ADVICE},
    {24,
     "A name must fit on the label: at most 63 characters, each a letter without an\n"
     "accent, a digit, a space or a sign that every keyboard has. The place is where\n"
     "the chunk with the name begins, or the entry of the slip.\n",
     AGAIN,
     "Copy this figure again from the master and check it once more. If the new\n"
     "copy is refused with the same number at the same place, the name was given so:\n"
     "ask whoever made the figure for a plainer one.\n"},
    {25,
     "A Cinema 4D figure (.c4d) begins with FORM, the size of the rest, and MC4D. Here\n"
     "one of these is another, or the size is not that of the file: mostly the file\n"
     "was cut off. The place is always byte 0.\n",
     AGAIN, ADVICE},
    {26,
     "The chunks of a Cinema 4D figure have their order: materials before objects,\n"
     "each at most once, and everything that is begun has its end. Here something of\n"
     "that is not so. The place is where the chunk begins.\n",
     AGAIN, ADVICE},
    {27,
     "An object of a Cinema 4D figure is made of parts, as points, faces or a sphere,\n"
     "and only nine ways to put them together are allowed, with each part there only\n"
     "once (but for textures). The place is where the object ends.\n",
     AGAIN, ADVICE},
    {28,
     "A texture of a Cinema 4D figure says by number which material it is made of.\n"
     "Here there is none of that number. The place is where the texture begins.\n",
     AGAIN, ADVICE},
    {29,
     "A program wanted a figure written in which two objects have the same name, or\n"
     "two materials. The place is the number of the later one, from 0.\n",
     PROGRAM, WRITER_ADVICE},
    {30,
     "A program wanted a figure written in which a group of faces names a material\n"
     "that it did not give. The place is the number of the group in the figure, from\n"
     "0.\n",
     PROGRAM, WRITER_ADVICE},
    {31,
     "Something on the stick could not be looked at, or a file could not be read to\n"
     "its end. The place is the number of the item, as the check met them.\n",
     STICK, STICK_ADVICE},
    {32,
     "A figure on the stick is refused by the reader of its format; a line of its own\n"
     "says with which number. The place is the number of the item.\n",
     STICK, STICK_ADVICE},
    {33,
     "There is a file or a folder on the stick that the slip does not have, or the\n"
     "same one twice. The place is the number of the item.\n",
     STICK, STICK_ADVICE},
    {34,
     "A file that the slip has is not on the stick. The place is its number on the\n"
     "slip, from 1; 0 is the slip itself.\n",
     STICK, STICK_ADVICE},
    {35,
     "The stick listed names that were then not looked at: the check broke off, or\n"
     "the stick changed while it was read.\n",
     STICK, STICK_ADVICE},
    {36, "There is no figure on the stick at all.\n", STICK, STICK_ADVICE},
    {37,
     "A file on the stick has another length than the slip says, or other sums. The\n"
     "place is the number of the item.\n",
     STICK, STICK_ADVICE},
};

_Static_assert(sizeof table / sizeof table[0] == TDS_LAST_REFUSAL, "a refusal has no row");

const struct refusal *refusal_of(int number) {
    return number >= 1 && number <= TDS_LAST_REFUSAL ? &table[number - 1] : NULL;
}

const struct refusal *refusal_named(const char *name) {
    for (int number = 1; number <= TDS_LAST_REFUSAL; number++) {
        if (strcasecmp(tds_refusal_name(number), name) == 0) {
            return refusal_of(number);
        }
    }
    return NULL;
}

void refusal_explain(FILE *out, const struct refusal *refusal) {
    fprintf(out, "Refusal %d, %s: %s.\n\n", refusal->number, tds_refusal_name(refusal->number),
            tds_refusal_words(refusal->number));
    fprintf(out, "%s\n", refusal->explanation);
    fprintf(out,
            "(A figure is made of chunks, one inside the other like boxes. Each begins with a\n"
            "mark that says what it is and a length that says where it ends. Places are\n"
            "bytes of the file, counted from 0, unless it says otherwise above.)\n\n");
    fprintf(out, "What to do: %s.\n\n%s", refusal->remedy, refusal->advice);
}
