/* cut_sheet WORDS SHEET: writes the lines of the file SHEET with | between tokens, cut in safe mode by the words of the
 * file WORDS, one to a line. All lines are cut in one call. */
#include "fetlockice.h"
#include <stdio.h>
#include <stdlib.h>
#include <string.h>

static size_t count, detail;

static void accepted(uint32_t number, size_t detail) {
    if (number == FETLOCKICE_ACCEPTED) return;
    fprintf(stderr, "cut_sheet: refusal %u, detail %zu\n", (unsigned)number, detail);
    exit(1);
}

static void *room(size_t cells) {
    void *row = malloc((cells + 1) * sizeof(uint32_t));
    if (row == NULL) exit(1);
    return row;
}

/* The bytes of a file, and a line feed behind the last line. */
static char *read_file(const char *path, size_t *size) {
    FILE *file = fopen(path, "rb");
    if (file == NULL || fseek(file, 0, SEEK_END) != 0) exit((perror(path), 2));
    long length = ftell(file);
    char *bytes = length < 0 ? NULL : malloc((size_t)length + 1);
    rewind(file);
    if (bytes == NULL || fread(bytes, 1, (size_t)length, file) != (size_t)length) exit((perror(path), 2));
    fclose(file);
    *size = (size_t)length;
    if (*size > 0 && bytes[*size - 1] != '\n') bytes[(*size)++] = '\n';
    return bytes;
}

/* Decodes the line at *at, steps behind its line feed, and gives the number of its scalars. */
static size_t next_line(const char *bytes, size_t size, size_t *at, uint32_t *out, uint32_t *positions, size_t len) {
    const char *line = bytes + *at;
    size_t length = (size_t)((const char *)memchr(line, '\n', size - *at) - line);
    uint32_t number = fetlockice_decode((const uint8_t *)line, length, out, len, positions, len, &count, &detail);
    accepted(number, detail);
    *at += length + 1;
    return count;
}

/* Adds the words of a file to a fresh pool that grows with them. */
static uint32_t *read_words(const char *path, size_t *cells) {
    size_t size, most = (size_t)FETLOCKICE_MAX_NODES * FETLOCKICE_NODE_CELLS;
    char *bytes = read_file(path, &size);
    uint32_t *pool = room(most), *word = room(size), *positions = room(size), number;
    *cells = 1024 * FETLOCKICE_NODE_CELLS;
    accepted(fetlockice_fresh(pool, *cells, &count, &detail), detail);
    for (size_t at = 0; at < size;) {
        size_t n = next_line(bytes, size, &at, word, positions, size);
        while ((number = fetlockice_add(pool, *cells, word, n, &count, &detail)) == FETLOCKICE_TOO_FEW_NODES &&
               *cells < most) {
            memset(pool + *cells, 0, *cells * sizeof *pool); /* nodes that aren't in use are zero */
            *cells *= 2;
        }
        accepted(number, detail);
    }
    free(bytes), free(word), free(positions);
    return pool;
}

/* Writes a line with | between its tokens. An end in bytes is the position row's cell at that end. */
static void show(const char *line, const uint32_t *positions, const uint32_t *ends, size_t tokens) {
    for (size_t token = 0, start = 0; token < tokens; token++) {
        size_t end = positions[ends[token]];
        if (token > 0) putchar('|');
        fwrite(line + start, 1, end - start, stdout);
        start = end;
    }
    putchar('\n');
}

int main(int argc, char **argv) {
    if (argc != 3) return fputs("usage: cut_sheet WORDS SHEET\n", stderr), 2;
    size_t cells, size, lines = 0, characters = 0, longest = 0;
    uint32_t *pool = read_words(argv[1], &cells);
    char *sheet = read_file(argv[2], &size);
    uint32_t *texts = room(size), *positions = room(size), *text_ends = room(size), *out = room(size);
    for (size_t at = 0; at < size; lines++) { /* a line has a position for each character and one for its end */
        size_t used = characters + lines, n;
        n = next_line(sheet, size, &at, texts + characters, positions + used, size - used);
        if (longest < n) longest = n;
        text_ends[lines] = (uint32_t)(characters += n);
    }
    size_t answer_cells = FETLOCKICE_ANSWER_CELLS * lines, scratch_cells = FETLOCKICE_SCRATCH_CELLS(longest);
    uint32_t *answers = room(answer_cells), *scratch = room(scratch_cells);
    accepted(fetlockice_cut_many_safe(texts, characters, text_ends, lines, pool, cells, answers, answer_cells, out,
                                      size, scratch, scratch_cells, &count, &detail),
             detail);
    const char *line = sheet;
    const uint32_t *ends = out, *places = positions;
    for (size_t i = 0, start = 0; i < lines; start = text_ends[i++]) {
        const uint32_t *told = answers + FETLOCKICE_ANSWER_CELLS * i;
        size_t n = text_ends[i] - start;
        accepted(told[0], told[3]);
        show(line, places, ends, told[1]);
        ends += told[1];
        line += places[n] + 1;
        places += n + 1;
    }
    free(pool), free(sheet), free(texts), free(positions), free(text_ends), free(out), free(answers), free(scratch);
    return 0;
}
