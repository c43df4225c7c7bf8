/* libthai's side: word breaks by its own dictionary and rules. WORDS is its dictionary's file. */
#include "driver.h"
#include <thai/thbrk.h>
#include <thai/thwbrk.h>

static ThBrk *brk;
static thwchar_t **wide;
static int *breaks;
static size_t longest;
static volatile size_t kept;

static thwchar_t *decode(const struct text *t) {
    thwchar_t *row = room((t->len + 1) * sizeof *row);
    size_t n = 0;
    for (size_t i = 0; i < t->len;) {
        uint8_t b = t->bytes[i];
        int more = b < 0x80 ? 0 : b < 0xE0 ? 1 : b < 0xF0 ? 2 : 3;
        uint32_t c = more == 0 ? b : b & (0x3Fu >> more);
        for (int k = 1; k <= more; k++) c = c << 6 | (t->bytes[i + (size_t)k] & 0x3F);
        row[n++] = (thwchar_t)c;
        i += (size_t)more + 1;
    }
    return row;
}

__attribute__((noinline)) void bench_pass(void) {
    for (size_t i = 0; i < text_count; i++) kept += (size_t)th_brk_wc_find_breaks(brk, wide[i], breaks, longest);
}

int main(int argc, char **argv) {
    if (argc < 5 || strcmp(argv[2], "plain")) die("HOW plain TEXTS DICTIONARY");
    texts = read_texts(argv[3], &text_count);
    size_t before = resident();
    double start = now_ns();
    if (!(brk = th_brk_new(argv[4]))) die(argv[4]);
    double took = now_ns() - start;
    size_t held = resident() - before;
    wide = room(text_count * sizeof *wide);
    for (size_t i = 0; i < text_count; i++) {
        if (longest < texts[i].len) longest = texts[i].len;
        wide[i] = decode(&texts[i]);
    }
    breaks = room((longest + 1) * sizeof *breaks);
    if (!strcmp(argv[1], "time")) printf("%.1f\n", best_ns());
    else if (!strcmp(argv[1], "memory")) printf("%.0f %zu\n", took, held);
    else bench_pass();
    return 0;
}
