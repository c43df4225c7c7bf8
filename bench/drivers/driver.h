/* What the C drivers share: a command line, texts, and the timing loop. The Rust driver has the same.
 *
 *   DRIVER answers OP TEXTS [WORDS]   writes the answer for each text, a line each
 *   DRIVER time OP TEXTS [WORDS]      writes the nanoseconds of a pass over all texts: the best of three repetitions
 *   DRIVER once OP TEXTS [WORDS]      makes one pass, for a tool that counts the instructions of bench_pass
 *
 * TEXTS is a file: a text on each line if its name ends in .lines, else all of it is one text.
 */
#ifndef DRIVER_H
#define DRIVER_H

#include <stddef.h>
#include <stdint.h>
#include <stdio.h>
#include <stdlib.h>
#include <string.h>
#include <time.h>

struct text {
    const uint8_t *bytes;
    size_t len;
};

static struct text *texts;
static size_t text_count;

/* Makes one pass over all texts. */
void bench_pass(void);

static void die(const char *what) {
    fprintf(stderr, "driver: %s\n", what);
    exit(1);
}

static void *room(size_t bytes) {
    void *p = calloc(bytes ? bytes : 1, 1);
    if (!p) die("no memory");
    return p;
}

static uint8_t *read_file(const char *path, size_t *len) {
    FILE *f = fopen(path, "rb");
    if (!f) die(path);
    fseek(f, 0, SEEK_END);
    *len = (size_t)ftell(f);
    rewind(f);
    uint8_t *bytes = room(*len);
    if (fread(bytes, 1, *len, f) != *len) die(path);
    fclose(f);
    return bytes;
}

static int ends_in(const char *s, const char *end) {
    size_t n = strlen(s), k = strlen(end);
    return k <= n && strcmp(s + n - k, end) == 0;
}

static struct text *read_texts(const char *path, size_t *count) {
    size_t len, made = 0, start = 0;
    const uint8_t *bytes = read_file(path, &len);
    if (!ends_in(path, ".lines")) {
        struct text *whole = room(sizeof *whole);
        *whole = (struct text){bytes, len};
        *count = 1;
        return whole;
    }
    for (size_t i = 0; i < len; i++) made += bytes[i] == '\n';
    struct text *row = room(made * sizeof *row);
    made = 0;
    for (size_t i = 0; i < len; i++) {
        if (bytes[i] != '\n') continue;
        row[made++] = (struct text){bytes + start, i - start};
        start = i + 1;
    }
    *count = made;
    return row;
}

/* The processor time of this program, so that other programs on the machine disturb less. */
static double now_ns(void) {
    struct timespec t;
    clock_gettime(CLOCK_PROCESS_CPUTIME_ID, &t);
    return 1e9 * (double)t.tv_sec + (double)t.tv_nsec;
}

/* The best of three repetitions of at least 0.1 s, fewer once two seconds are over. */
static double best_ns(void) {
    double best = 0, all = now_ns();
    size_t passes = 1;
    for (int i = 0; i < 3 && (i == 0 || now_ns() - all < 2e9); i++) {
        double start = now_ns(), took;
        size_t made = 0;
        do {
            for (size_t k = 0; k < passes; k++) bench_pass();
            made += passes;
            took = now_ns() - start;
            if (took < 2e7) passes *= 2;
        } while (took < 1e8);
        if (i == 0 || took / (double)made < best) best = took / (double)made;
    }
    return best;
}

/* The memory that is resident, in bytes. */
__attribute__((unused)) static size_t resident(void) {
    unsigned long all, held;
    FILE *f = fopen("/proc/self/statm", "r");
    if (!f || fscanf(f, "%lu %lu", &all, &held) != 2) die("no statm");
    fclose(f);
    return held * 4096;
}

#endif
