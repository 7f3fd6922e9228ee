/* A text that grows as needed, and the one place where memory may run out. */
#include "text.h"

#include <stdarg.h>
#include <stdio.h>
#include <stdlib.h>
#include <string.h>

void *need_memory(void *old, size_t size) {
    void *memory = realloc(old, size == 0 ? 1 : size);
    if (memory == NULL) {
        fflush(stdout);
        fputs("stick: this computer has not enough memory for the check; it was not finished\n",
              stderr);
        exit(2);
    }
    return memory;
}

char *need_copy(const char *string) {
    size_t size = strlen(string) + 1;
    return memcpy(need_memory(NULL, size), string, size);
}

static void make_room(struct text *text, size_t more) {
    size_t needed = text->length + more + 1;
    if (needed > text->room) {
        text->room = 2 * needed;
        text->bytes = need_memory(text->bytes, text->room);
    }
}

void text_add_bytes(struct text *text, const char *more, size_t length) {
    make_room(text, length);
    memcpy(text->bytes + text->length, more, length);
    text->length += length;
    text->bytes[text->length] = '\0';
}

void text_add(struct text *text, const char *more) {
    text_add_bytes(text, more, strlen(more));
}

void text_format(struct text *text, const char *format, ...) {
    va_list arguments, again;
    int length;
    va_start(arguments, format);
    va_copy(again, arguments);
    length = vsnprintf(NULL, 0, format, arguments);
    if (length > 0) {
        make_room(text, (size_t)length);
        vsnprintf(text->bytes + text->length, (size_t)length + 1, format, again);
        text->length += (size_t)length;
    }
    va_end(again);
    va_end(arguments);
}

void text_cut(struct text *text, size_t length) {
    make_room(text, 0);
    text->length = length;
    text->bytes[length] = '\0';
}

void text_path(struct text *text, const char *folder, const char *name) {
    size_t length = strlen(folder);
    text_cut(text, 0);
    text_add(text, folder);
    if (length > 0 && folder[length - 1] != '/') {
        text_add(text, "/");
    }
    text_add(text, name);
}

void text_free(struct text *text) {
    free(text->bytes);
    *text = (struct text){0};
}
