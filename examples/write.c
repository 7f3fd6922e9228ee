/*
 * Writes a small figure to a file: a mallet with two materials, its head and its handle.
 *
 *     cc write.c $(pkg-config --cflags --libs tds) -o write && ./write mallet.3ds
 */
#include <stdio.h>

#include <tds_words.h>

int main(int count, char **words) {
    /* two objects, two materials, and the group of the head: names one after another */
    static const uint8_t names[] = "headhandlesteelashsteel";
    /* bytes of the name, floats, corners, smoothing words, groups */
    static const uint32_t objects[] = {4, 9, 3, 1, 1, 6, 6, 0, 0, 0};
    static const float vertices[] = {0, 0, 0, 1, 0, 0, 0, 1, 0, 0, 0, 0, 0, 0, 3};
    static const uint16_t corners[] = {0, 1, 2}, faces[] = {0};
    static const uint32_t smoothing[] = {1}, groups[] = {5, 1}, materials[] = {5, 3};
    static const uint8_t colours[] = {40, 40, 44, 150, 150, 160, 255, 255, 255,
                                      60, 40, 20, 200, 160, 90,  90,  90,  80};
    static uint8_t out[1024];
    uint64_t size =
        tds_write_figure(names, sizeof names - 1, TDS_ROW(objects), TDS_ROW(vertices),
                         TDS_ROW(corners), TDS_ROW(smoothing), TDS_ROW(groups), TDS_ROW(faces),
                         TDS_ROW(materials), colours, sizeof colours, out, sizeof out);
    FILE *file;
    if (TDS_REFUSED(size)) { /* tds_write_row tells which row, if it is 13 */
        fprintf(stderr, "refused: %s, at %u\n", tds_write_words(TDS_REFUSAL(size)),
                (unsigned)TDS_PLACE(size));
        return 1;
    }
    file = count == 2 ? fopen(words[1], "wb") : NULL;
    if (file == NULL || fwrite(out, 1, size, file) != size || fclose(file) != 0) {
        fprintf(stderr, "usage: write FILE\n");
        return 2;
    }
    printf("%s: %u bytes\n", words[1], (unsigned)size);
    return 0;
}
