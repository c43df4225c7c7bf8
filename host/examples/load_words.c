/* load_words WORDS: loads the words of a file at once and tells how many they are. They stand one to a line, in the order
 * of their bytes, each once and without blanks at their edges: `LC_ALL=C sort -u` gives that order. The words are put into
 * an image, which the library checks record by record, and a pool of the size that it asks for. */
#include "fetlockice.h"
#include <stdio.h>
#include <stdlib.h>
#include <string.h>

static uint8_t *put(uint8_t *at, size_t value, size_t bytes) {
    while (bytes-- > 0) *at++ = (uint8_t)value, value >>= 8;
    return at;
}

/* The image of the lines of a file, each with class 0. A line of n bytes takes n + 8. */
static uint8_t *image_of(FILE *file, size_t *size) {
    static char line[2048];
    size_t words = 0, room = 1 << 16;
    uint8_t *image = malloc(room), *at = image; /* room for the next line and the last record */
    while (image != NULL && fgets(line, sizeof line, file) != NULL) {
        size_t n = strcspn(line, "\n"), used = (size_t)(at - image);
        if (used + sizeof line + 18 > room && (image = realloc(image, room *= 2)) == NULL) break;
        at = image + used;
        at = put(put(put(at, 4 + n, 4), 1, 2), 0, 2);
        memcpy(at, line, n);
        at += n, words++;
    }
    if (image == NULL) exit((perror("load_words"), 1));
    at = put(put(put(at, 6, 4), 0, 2), words, 4);
    *size = (size_t)(at - image);
    return image;
}

int main(int argc, char **argv) {
    FILE *file = argc == 2 ? fopen(argv[1], "rb") : NULL;
    if (file == NULL) return fputs("usage: load_words WORDS\n", stderr), 2;
    size_t size, count, detail, cells = FETLOCKICE_NODE_CELLS;
    uint8_t *image = image_of(file, &size);
    uint32_t root[FETLOCKICE_NODE_CELLS], *pool = root, number;
    fetlockice_fresh(root, cells, &count, &detail);
    number = fetlockice_read_image(root, cells, image, size, &count, &detail);
    if (number == FETLOCKICE_TOO_FEW_NODES) { /* a pool of a node was lent: the detail says how many more it takes */
        cells *= 1 + detail;
        if ((pool = malloc(cells * sizeof *pool)) == NULL) return perror("load_words"), 1;
        fetlockice_fresh(pool, cells, &count, &detail);
        number = fetlockice_read_image(pool, cells, image, size, &count, &detail);
    }
    if (number != 0) return fprintf(stderr, "load_words: refusal %u, detail %zu\n", (unsigned)number, detail), 1;
    printf("%zu words in %zu nodes\n", count, (size_t)pool[0]);
    return 0;
}
