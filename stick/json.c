/* One JSON object a line. All strings are printable UTF-8 already, so only two signs are escaped.
 */
#include "json.h"

#include "escape.h"

void json_begin(struct text *line) {
    text_add(line, "{");
}

void json_end(struct text *line) {
    text_add(line, "}\n");
}

static void add_quoted(struct text *line, const char *string) {
    text_add(line, "\"");
    for (; *string != '\0'; string++) {
        if (*string == '"' || *string == '\\') {
            text_add(line, "\\");
        }
        text_add_bytes(line, string, 1);
    }
    text_add(line, "\"");
}

static void add_key(struct text *line, const char *key) {
    text_add(line, line->bytes[line->length - 1] == '{' ? "" : ",");
    add_quoted(line, key);
    text_add(line, ":");
}

void json_string(struct text *line, const char *key, const char *string) {
    if (string != NULL && *string != '\0') {
        add_key(line, key);
        add_quoted(line, string);
    }
}

void json_path(struct text *line, const char *key, const char *path) {
    struct text escaped = {0};
    text_escaped(&escaped, path);
    json_string(line, key, escaped.bytes);
    text_free(&escaped);
}

void json_number(struct text *line, const char *key, unsigned long number) {
    add_key(line, key);
    text_format(line, "%lu", number);
}
