/* ICU's side: word breaks by its own dictionary and rules, and decoding to UTF-16. */
#include "driver.h"
#include <unicode/ubrk.h>
#include <unicode/ustring.h>

static UBreakIterator *words;
static UChar **wide, *room_for_one;
static int32_t *lengths;
static int decoding;
static volatile size_t kept;

static int32_t decode(size_t i, UChar *to) {
    UErrorCode e = U_ZERO_ERROR;
    int32_t n;
    u_strFromUTF8(to, (int32_t)texts[i].len + 1, &n, (const char *)texts[i].bytes, (int32_t)texts[i].len, &e);
    if (U_FAILURE(e)) die(u_errorName(e));
    return n;
}

static size_t breaks(size_t i) {
    UErrorCode e = U_ZERO_ERROR;
    size_t count = 0;
    ubrk_setText(words, wide[i], lengths[i], &e);
    if (U_FAILURE(e)) die(u_errorName(e));
    while (ubrk_next(words) != UBRK_DONE) count++;
    return count;
}

__attribute__((noinline)) void bench_pass(void) {
    for (size_t i = 0; i < text_count; i++) kept += decoding ? (size_t)decode(i, room_for_one) : breaks(i);
}

int main(int argc, char **argv) {
    UErrorCode e = U_ZERO_ERROR;
    if (argc < 4) die("HOW decode|plain TEXTS");
    decoding = !strcmp(argv[2], "decode");
    texts = read_texts(argv[3], &text_count);
    wide = room(text_count * sizeof *wide);
    lengths = room(text_count * sizeof *lengths);
    size_t longest = 0;
    for (size_t i = 0; i < text_count; i++) {
        if (longest < texts[i].len) longest = texts[i].len;
        wide[i] = room((texts[i].len + 1) * sizeof **wide);
        lengths[i] = decode(i, wide[i]);
    }
    room_for_one = room((longest + 1) * sizeof *room_for_one);
    size_t before = resident();
    double start = now_ns();
    words = ubrk_open(UBRK_WORD, "th", wide[0], lengths[0], &e);
    if (U_FAILURE(e)) die(u_errorName(e));
    breaks(0);
    double took = now_ns() - start;
    if (!strcmp(argv[1], "time")) printf("%.1f\n", best_ns());
    else if (!strcmp(argv[1], "memory")) printf("%.0f %zu\n", took, resident() - before);
    else bench_pass();
    return 0;
}
