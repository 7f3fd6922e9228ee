/* Lines that fit on a terminal: a verdict is read at its start, and what it rests on below it. */
#include "fold.h"

#include <stdbool.h>
#include <string.h>

enum { WIDTH = 80 };

/* The words up to the next comma, colon or semicolon, and this too. */
static size_t piece_of(const char *words) {
    static const char stops[] = ",:;";
    size_t length = strcspn(words, stops);
    while (words[length] != '\0' && words[length + 1] != ' ') { /* as in 1,000 */
        length += 1 + strcspn(words + length + 1, stops);
    }
    return words[length] == '\0' ? length : length + 1;
}

static size_t new_line(struct text *lines, size_t columns) {
    text_format(lines, "\n%*s", (int)columns, "");
    return columns;
}

void add_folded(struct text *lines, size_t column, const char *words) {
    bool first = true; /* in its line */
    while (*words != '\0') {
        size_t length = piece_of(words);
        bool ends = words[length - 1] == ';';
        if (!first && column + 1 + length > WIDTH) {
            column = new_line(lines, 4);
        } else if (!first) {
            text_add(lines, " ");
            column++;
        }
        text_add_bytes(lines, words, length - ends);
        column = ends ? new_line(lines, 2) : column + length;
        first = ends;
        words += length + strspn(words + length, " ");
    }
    text_add(lines, "\n");
}
