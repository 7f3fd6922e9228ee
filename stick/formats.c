/* The formats of figures: the one table of them. Which reader has a file is the library's to say.
 */
#include "formats.h"

#include <stdbool.h>
#include <string.h>
#include <stddef.h>
#include <strings.h>

static const struct format formats[] = {
    {".3ds", "chunk", "chunks"},
    {".cob", "chunk", "chunks"},
    {".c4d", "object", "objects"},
};
enum { FORMATS = sizeof formats / sizeof formats[0] };

const struct format *studio_format(void) {
    return &formats[0];
}

/* The length of a name without the slashes that may stand behind that of a folder. */
static size_t length_of(const char *name) {
    return strcspn(name, "/");
}

const struct format *format_of(const char *name) {
    size_t length = length_of(name);
    for (size_t i = 0; i < FORMATS; i++) {
        size_t ending = strlen(formats[i].ending);
        if (length >= ending &&
            strncasecmp(name + length - ending, formats[i].ending, ending) == 0) {
            return &formats[i];
        }
    }
    return NULL;
}

static bool is_letter(char byte) {
    return (byte >= 'a' && byte <= 'z') || (byte >= 'A' && byte <= 'Z');
}

/* With a letter behind it, the ending would be part of another word: notes.cobalt.txt. */
bool name_holds(const char *name, const char *ending) {
    size_t length = strlen(ending);
    for (; *name != '\0'; name++) {
        if (strncasecmp(name, ending, length) == 0 && !is_letter(name[length])) {
            return true;
        }
    }
    return false;
}

const struct format *format_near(const char *name) {
    for (size_t i = 0; i < FORMATS; i++) {
        if (name_holds(name, formats[i].ending)) {
            return &formats[i];
        }
    }
    return NULL;
}
