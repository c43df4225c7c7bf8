#include "model.h"
#include <errno.h>
#include <iconv.h>
#include <stdlib.h>

struct refusal utf8_refusal(const uint8_t *bytes, size_t size, uint32_t *scalars, size_t room, size_t *count) {
    static iconv_t to = (iconv_t)-1;
    if (to == (iconv_t)-1 && (to = iconv_open("UTF-32LE", "UTF-8")) == (iconv_t)-1) abort();
    char *in = (char *)(uintptr_t)bytes, *out = (char *)scalars;
    size_t left = size, free = 4 * room;
    iconv(to, NULL, NULL, NULL, NULL);
    size_t done = iconv(to, &in, &left, &out, &free);
    if (done == (size_t)-1 && errno == E2BIG) abort();
    *count = (4 * room - free) / 4;
    if (done == (size_t)-1) return (struct refusal){1, size - left};
    if (*count > 65535) return (struct refusal){2, *count};
    return (struct refusal){0, 0};
}

size_t utf8_size(uint32_t scalar) { return 1 + (scalar > 0x7F) + (scalar > 0x7FF) + (scalar > 0xFFFF); }

int is_scalar(uint32_t x) { return x < 0xD800 || (x > 0xDFFF && x <= 0x10FFFF); }

int is_blank(uint32_t x) {
    static const uint32_t white_space[] = {0x09,   0x0A,   0x0B,   0x0C,   0x0D,   0x20,   0x85,   0xA0,   0x1680,
                                           0x2000, 0x2001, 0x2002, 0x2003, 0x2004, 0x2005, 0x2006, 0x2007, 0x2008,
                                           0x2009, 0x200A, 0x2028, 0x2029, 0x202F, 0x205F, 0x3000};
    for (size_t i = 0; i < sizeof white_space / sizeof *white_space; i++)
        if (x == white_space[i]) return 1;
    return 0;
}

struct refusal text_refusal(const uint32_t *text, size_t n) {
    if (n > 65535) return (struct refusal){2, n};
    for (size_t i = 0; i < n; i++)
        if (!is_scalar(text[i])) return (struct refusal){3, i};
    return (struct refusal){0, 0};
}

size_t nodes_of(size_t cells) { return cells / 8 < 1048576 ? cells / 8 : 1048576; }

/* Rules 4 to 9 of a node in use. */
static int node_ok(const uint32_t *pool, size_t i) {
    const uint32_t *node = pool + 8 * i;
    for (size_t k = node[1]; k < (size_t)node[1] + node[2]; k++) {
        if (k > node[1] && pool[8 * k] <= pool[8 * k - 8]) return 0;
        if (i == 0 && is_blank(pool[8 * k])) return 0;
    }
    if (i == 0) return 1;
    if (!is_scalar(node[0]) || node[3] > 65536) return 0;
    if (node[2] == 0 && node[3] == 0) return 0;
    return node[3] == 0 || !is_blank(node[0]);
}

/* Rules 11 and 13: which cells are 0. */
static int zeros_ok(const uint32_t *pool, size_t used, size_t nodes) {
    if (pool[3] != 0) return 0;
    for (size_t i = 0; i < nodes; i++)
        for (size_t k = i < used ? 4 : 0; k < 8; k++)
            if (pool[8 * i + k] != 0) return 0;
    return 1;
}

/* Rule 10: the levels below the root. */
static size_t levels(const uint32_t *pool) {
    size_t depth = 0;
    for (size_t end = 1;; depth++) {
        const uint32_t *last = pool + 8 * (end - 1);
        size_t next = (size_t)last[1] + last[2];
        if (next == end) return depth;
        end = next;
    }
}

int is_dictionary(const uint32_t *pool, size_t cells) {
    size_t nodes = nodes_of(cells);
    if (nodes == 0) return 0;
    size_t used = pool[0], next = 1;
    if (used < 1 || used > nodes) return 0;
    for (size_t i = 0; i < used; i++) {
        if (pool[8 * i + 1] != next || (pool[8 * i + 2] != 0 && next <= i)) return 0;
        next += pool[8 * i + 2];
        if (next > used) return 0;
    }
    if (next != used) return 0;
    for (size_t i = 0; i < used; i++)
        if (!node_ok(pool, i)) return 0;
    return zeros_ok(pool, used, nodes) && levels(pool) <= 255;
}

void trimmed(const uint32_t *word, size_t n, size_t *start, size_t *end) {
    for (*end = n; *end > 0 && is_blank(word[*end - 1]);) (*end)--;
    for (*start = 0; *start < *end && is_blank(word[*start]);) (*start)++;
}

size_t lacking(const uint32_t *pool, const uint32_t *word, size_t n, uint32_t *mark) {
    size_t node = 0;
    *mark = 0;
    for (size_t i = 0; i < n; i++) {
        size_t child = pool[8 * node + 1], end = child + pool[8 * node + 2];
        while (child < end && pool[8 * child] != word[i]) child++;
        if (child == end) return n - i;
        node = child;
    }
    *mark = pool[8 * node + 3];
    return 0;
}

/* The characters from the start of a text that pass a test. */
static size_t leading(const uint32_t *text, size_t n, int (*passes)(uint32_t)) {
    size_t k = 0;
    while (k < n && passes(text[k])) k++;
    return k;
}

static int is_letter(uint32_t x) { return x == '-' || (x >= 'a' && x <= 'z') || (x >= 'A' && x <= 'Z'); }
static int is_digit(uint32_t x) { return x >= '0' && x <= '9'; }
static int is_thai_digit(uint32_t x) { return x >= 0xE50 && x <= 0xE59; }
static int is_space(uint32_t x) { return x == ' ' || x == '\t'; }

/* Digits, and then commas or points that digits follow. */
static size_t number(const uint32_t *text, size_t n, int (*digit)(uint32_t)) {
    size_t k = leading(text, n, digit), more;
    while (k > 0 && k < n && (text[k] == ',' || text[k] == '.') && (more = leading(text + k + 1, n - k - 1, digit)) > 0)
        k += 1 + more;
    return k;
}

/* The length of the first of the five alternatives of a run that isn't Thai, 0 for none. */
static size_t non_thai(const uint32_t *text, size_t n) {
    size_t k;
    if ((k = leading(text, n, is_letter)) > 0) return k;
    if ((k = number(text, n, is_digit)) > 0) return k;
    if ((k = number(text, n, is_thai_digit)) > 0) return k;
    if ((k = leading(text, n, is_space)) > 0) return k;
    if (n > 1 && text[0] == '\r' && text[1] == '\n') return 2;
    return n > 0 && text[0] == '\n';
}

/* What the words that start at b and end at a cluster end come to: how many end at e; how many there are; and how many
 * of these aren't one or two of the letters U+0E01 to U+0E2E. */
struct words {
    size_t here, all, stopping;
};

static struct words words_at(const uint32_t *text, size_t n, const unsigned char *is_end, const uint32_t *pool,
                             size_t b, size_t e) {
    struct words found = {0, 0, 0};
    size_t node = 0, letters = 0;
    for (size_t p = b; p < n; p++) {
        size_t child = pool[8 * node + 1], end = child + pool[8 * node + 2];
        while (child < end && pool[8 * child] != text[p]) child++;
        if (child == end) break;
        node = child;
        letters += text[p] >= 0xE01 && text[p] <= 0xE2E;
        if (pool[8 * node + 3] == 0 || !is_end[p + 1]) continue;
        found.here += p + 1 == e;
        found.all++;
        found.stopping += p + 1 - b > 2 || letters < p + 1 - b;
    }
    return found;
}

static size_t other_end(const uint32_t *text, size_t n, const unsigned char *is_end, const uint32_t *pool, size_t b) {
    size_t k = non_thai(text + b, n - b);
    if (k > 0) return b + k;
    for (size_t p = b + 1; p < n; p++)
        if (is_end[p] && (non_thai(text + p, n - p) > 0 || words_at(text, n, is_end, pool, p, 0).stopping > 0))
            return p;
    return n;
}

long wrong_token(const uint32_t *text, size_t n, const unsigned char *is_end, const uint32_t *pool,
                 const uint32_t *claim, size_t ends) {
    size_t b = 0;
    for (size_t k = 0; k < ends; b = claim[k++]) {
        if (claim[k] <= b || claim[k] > n) return (long)k;
        struct words found = words_at(text, n, is_end, pool, b, claim[k]);
        if (found.here == 0 && (found.all > 0 || claim[k] != other_end(text, n, is_end, pool, b))) return (long)k;
    }
    return b == n ? -1 : (long)ends;
}

uint32_t reason_of(const uint32_t *text, size_t n, const unsigned char *is_end, const uint32_t *pool, size_t b,
                   size_t e) {
    if (words_at(text, n, is_end, pool, b, e).all > 0) return 1;
    if (non_thai(text + b, n - b) > 0) return 2;
    if (e == n) return 5;
    return words_at(text, n, is_end, pool, e, 0).stopping > 0 ? 3 : 4;
}

size_t words_of(const uint32_t *pool) {
    size_t n = 0;
    for (size_t i = 1; i < pool[0]; i++) n += pool[8 * i + 3] != 0;
    return n;
}

uint64_t marks_of(const uint32_t *pool) {
    uint64_t sum = 0;
    for (size_t i = 1; i < pool[0]; i++) sum += pool[8 * i + 3];
    return sum;
}
