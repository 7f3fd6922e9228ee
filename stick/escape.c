/* Writing out names from a stick: one line each, and nothing that a terminal would obey or hide. */
#include "escape.h"

#include <stdbool.h>
#include <stdint.h>

/* How many bytes the character takes that begins with this byte; 0 if none begins so. */
static size_t bytes_of(unsigned char first) {
    if (first < 0x80) {
        return 1;
    }
    if (first < 0xC2 || first > 0xF4) {
        return 0;
    }
    return first < 0xE0 ? 2 : first < 0xF0 ? 3 : 4;
}

static bool readable(uint32_t character) {
    static const uint32_t hidden[][2] = {
        {0x0000, 0x001F},   /* control characters */
        {0x007F, 0x009F},   /* more of them */
        {0x00AD, 0x00AD},   /* a hyphen that is not shown */
        {0x034F, 0x034F},   /* a joiner without width */
        {0x061C, 0x061C},   /* a direction of writing */
        {0x115F, 0x1160},   /* letters that are blank */
        {0x180B, 0x180F},   /* variants, a vowel separator without width */
        {0x200B, 0x200F},   /* spaces and joiners without width, directions of writing */
        {0x2028, 0x202E},   /* ends of lines, directions of writing */
        {0x2060, 0x206F},   /* joiners without width, signs that are not seen, directions */
        {0x3164, 0x3164},   /* a letter that is blank */
        {0xD800, 0xDFFF},   /* no characters */
        {0xFE00, 0xFE0F},   /* variants */
        {0xFEFF, 0xFEFF},   /* a space without width */
        {0xFFA0, 0xFFA0},   /* a letter that is blank */
        {0xFFF0, 0xFFFB},   /* marks around notes */
        {0x1D173, 0x1D17A}, /* signs of music that are not seen */
        {0xE0000, 0xE0FFF}, /* tags, variants */
    };
    for (size_t i = 0; i < sizeof hidden / sizeof hidden[0]; i++) {
        if (character >= hidden[i][0] && character <= hidden[i][1]) {
            return false;
        }
    }
    return character <= 0x10FFFF;
}

/* How many bytes from `at` on are one readable character; 0 if they are not one. */
static size_t character_at(const unsigned char *at) {
    static const uint32_t least[] = {0, 0, 0x80, 0x800, 0x10000};
    size_t bytes = bytes_of(at[0]);
    uint32_t character = bytes <= 1 ? at[0] : at[0] & (0x7Fu >> bytes);
    for (size_t i = 1; i < bytes; i++) {
        if ((at[i] & 0xC0) != 0x80) {
            return 0; /* the zero at the end of the name is caught here too */
        }
        character = character << 6 | (at[i] & 0x3F);
    }
    return bytes != 0 && character >= least[bytes] && readable(character) ? bytes : 0;
}

/* A space at the end of a name cannot be seen either. */
static bool is_last_space(const unsigned char *at) {
    return at[0] == ' ' && (at[1] == '\0' || at[1] == '/');
}

void text_escaped(struct text *text, const char *name) {
    const unsigned char *at = (const unsigned char *)name;
    if (*name == '\0') {
        text_add(text, "''");
    }
    while (*at != '\0') {
        size_t bytes = is_last_space(at) ? 0 : character_at(at);
        if (*at == '\\') {
            text_add(text, "\\\\");
        } else if (bytes == 0) {
            text_format(text, "\\x%02X", *at);
        } else {
            text_add_bytes(text, (const char *)at, bytes);
        }
        at += bytes == 0 ? 1 : bytes;
    }
}
