#include "inputs.h"
#include "rows.h"
#include <string.h>

struct living living[LIVING];
struct living *drawn;

static const uint32_t letters[] = {0xE01, 0xE02, 0xE04, 0xE07, 0xE22, 0xE23, 0xE2D};
static const uint32_t signs[] = {0xE30, 0xE31, 0xE32, 0xE34, 0xE35, 0xE38, 0xE40, 0xE44, 0xE47, 0xE48, 0xE49, 0xE4C};
static const uint32_t others[] = {' ', '\t', '\r', '\n', '1',    '2',     0xE52,    'a', 'Z',
                                  '-', ',',  '.',  0xA0, 0xFEFF, 0x1F600, 0x10FFFF, 0};
/* What trimming strips and what stands beside it; U+200B, U+FEFF, U+180E and U+001C to U+001F only look like it. */
static const uint32_t edges[] = {' ',    '\t',   0x0D,   0xA0,   0x3000, 0x08,   0x09,   0x0A,   0x0B,   0x0C,   0x0E,
                                 0x1C,   0x1D,   0x1E,   0x1F,   0x21,   0x84,   0x85,   0x86,   0x9F,   0xA1,   0x167F,
                                 0x1680, 0x1681, 0x180E, 0x1FFF, 0x2000, 0x2001, 0x2002, 0x2003, 0x2004, 0x2005, 0x2006,
                                 0x2007, 0x2008, 0x2009, 0x200A, 0x200B, 0x2027, 0x2028, 0x2029, 0x202A, 0x202E, 0x202F,
                                 0x2030, 0x205E, 0x205F, 0x2060, 0x2FFF, 0x3001, 0xFEFF};
static const uint32_t wrong[] = {0xD800, 0xDFFF, 0x110000, 0x7FFFFFFF, 0x80000000, 0xFFFFFFFF};

#define ONE_OF(row) row[below(sizeof row / sizeof *row)]

static uint32_t character(void) {
    size_t kind = below(10);
    return kind < 5 ? ONE_OF(letters) : kind < 8 ? ONE_OF(signs) : ONE_OF(others);
}

static size_t length(void) {
    size_t kind = below(1000);
    if (kind < 80) return 0;
    if (kind < 160) return 1;
    if (kind < 850) return 2 + below(40);
    if (kind < 997) return 95 + below(200);
    return kind < 999 ? 1000 + below(2000) : 65533 + below(5);
}

static void spoil(uint32_t *text, size_t n) {
    if (n == 0 || below(8) != 0) return;
    for (size_t k = below(3) + 1; k > 0; k--) text[below(n)] = below(4) == 0 ? (uint32_t)draw() : ONE_OF(wrong);
}

/* A cluster that the look-ahead makes shorter: drawn characters hardly ever give one. */
static void put_shortened(uint32_t *text, size_t n) {
    static const uint32_t cluster[] = {0xE40, 0xE14, 0xE34, 0xE22, 0xE01, 0xE4C};
    const size_t size = sizeof cluster / sizeof *cluster;
    if (n >= size && below(8) == 0) memcpy(text + below(n - size + 1), cluster, sizeof cluster);
}

size_t make_text(uint32_t *text) {
    size_t n = length(), same = below(6) == 0;
    for (size_t i = 0; i < n; i++) text[i] = same && i > 0 ? text[0] : character();
    put_shortened(text, n);
    spoil(text, n);
    return n;
}

size_t make_word(uint32_t *word) {
    if (below(20) == 0) return make_text(word);
    size_t n = below(10) == 0 ? 253 + below(6) : below(7), kinds = 1 + below(3);
    for (size_t i = 0; i < n; i++) word[i] = below(15) == 0 ? character() : letters[below(kinds)];
    for (size_t k = below(8) == 0 ? below(4) : 0; k > 0; k--) word[n++] = ONE_OF(edges);
    if (n > 0 && below(10) == 0) word[0] = ONE_OF(edges);
    spoil(word, n);
    return n;
}

/* Walks down a dictionary from the root, and stops at a word's end or at any place. */
static size_t walk(uint32_t *text, size_t room, const uint32_t *pool) {
    size_t node = 0, n = 0;
    while (n < room && pool[8 * node + 2] != 0 && (pool[8 * node + 3] == 0 || below(3) != 0)) {
        node = pool[8 * node + 1] + below(pool[8 * node + 2]);
        text[n++] = pool[8 * node];
        if (below(30) == 0) break;
    }
    return n;
}

size_t make_sheet(uint32_t *text, const uint32_t *pool, int is_dictionary) {
    if (!is_dictionary || pool[2] == 0 || below(3) == 0) return make_text(text);
    size_t most = length(), n = 0;
    while (n < most) {
        n += walk(text + n, most - n, pool);
        while (n < most && below(3) == 0) text[n++] = character();
    }
    spoil(text, n);
    return n;
}

static size_t encode(uint8_t *to, uint32_t x) {
    if (x < 0x80) return to[0] = (uint8_t)x, 1;
    size_t size = x < 0x800 ? 2 : x < 0x10000 ? 3 : 4;
    for (size_t i = size - 1; i > 0; i--, x >>= 6) to[i] = (uint8_t)(0x80 | (x & 0x3F));
    to[0] = (uint8_t)((0xF00u >> size) | x);
    return size;
}

size_t make_bytes(uint8_t *bytes) {
    static uint32_t text[TEXT_ROOM];
    size_t n = 0, scalars = make_text(text);
    if (below(4) == 0) {
        for (; n < scalars; n++) bytes[n] = (uint8_t)draw();
        return n;
    }
    for (size_t i = 0; i < scalars; i++) n += encode(bytes + n, text[i] & 0x1FFFFF);
    for (size_t k = below(2) * below(4); k > 0 && n > 0; k--) bytes[below(n)] = (uint8_t)draw();
    if (n > 0 && below(4) == 0) n -= 1 + below(n < 4 ? n : 4);
    return n;
}

size_t make_positions(uint32_t *row) {
    size_t n = length();
    for (size_t i = 0, at = 0; i < n; at += 1 + below(4)) row[i++] = below(20) == 0 ? (uint32_t)draw() : (uint32_t)at;
    return n;
}

uint16_t make_class(void) {
    size_t kind = below(4);
    return (uint16_t)(kind == 0 ? below(3) : kind == 1 ? 65535 - below(3) : draw());
}

void reclass(uint32_t *pool) {
    for (size_t i = 1; i < pool[0]; i++)
        if (pool[8 * i + 3] != 0) pool[8 * i + 3] = 1 + (uint32_t)make_class();
}

size_t make_room(size_t needed) {
    size_t kind = below(8);
    if (kind == 0) return 0;
    if (kind == 1) return 1;
    if (kind < 4) return needed + below(3) - (needed > 0 ? 1 : 0);
    return kind < 7 ? needed + below(8) : below(2 * needed + 2);
}

size_t make_number(size_t near) {
    size_t kind = below(8);
    if (kind == 0) return (size_t)draw();
    return kind < 4 ? below(near + 2) : near + below(3) - (near > 0 ? 1 : 0);
}

/* Changes some cells of the nodes in use and of the one behind them, or the length. */
static size_t damage(uint32_t *pool, size_t n) {
    size_t used = n >= 8 && pool[0] < n / 8 ? pool[0] + 1 : n / 8;
    for (size_t k = 1 + below(2); k > 0 && used > 0; k--) {
        uint32_t *cell = pool + 8 * below(used) + below(8);
        size_t kind = below(6);
        if (kind == 0)
            *cell = (uint32_t)draw();
        else if (kind == 1)
            *cell = 0;
        else if (kind == 2)
            *cell += 1;
        else if (kind == 3)
            *cell -= 1;
        else if (kind == 4)
            *cell = ONE_OF(edges);
        else
            *cell = pool[below(8 * used)];
    }
    if (below(4) == 0) n = below(2) == 0 ? below(n + 1) : n - n / 8;
    return n;
}

size_t make_pool(uint32_t *pool) {
    drawn = &living[below(LIVING)];
    size_t n = drawn->length, kind = below(20);
    memcpy(pool, drawn->cells, n * sizeof *pool);
    if (kind < 13) return n;
    drawn = NULL;
    if (kind < 18) return damage(pool, n);
    n = below(200);
    for (size_t i = 0; i < n; i++)
        pool[i] = kind == 18 ? (uint32_t)draw() : (uint32_t)(below(4) == 0 ? below(n / 8 + 2) : 0);
    return n;
}

/* A cell that is near a position of the text, or any. */
static uint32_t claimed(size_t n) {
    size_t kind = below(6);
    return kind == 0 ? 0 : kind == 1 ? (uint32_t)(n + below(3)) : kind == 2 ? (uint32_t)draw() : (uint32_t)below(n + 2);
}

size_t make_claim(uint32_t *claim, const uint32_t *ends, size_t count, size_t n) {
    size_t kind = below(10), at = below(count + 1), m = count;
    if (count > 0) memcpy(claim, ends, count * sizeof *claim);
    if (kind < 3) return m;
    if (kind == 3) return at;
    if (kind == 4 && at < m) {
        memmove(claim + at, claim + at + 1, (--m - at) * sizeof *claim);
    } else if (kind == 5 && at < m) {
        claim[at] += below(2) == 0 ? 1 : (uint32_t)-1;
    } else if (kind == 6 && at < m) {
        claim[at] = claimed(n);
    } else if (kind == 7) {
        memmove(claim + at + 1, claim + at, (m++ - at) * sizeof *claim);
        claim[at] = claimed(n);
    } else if (kind == 8) {
        for (size_t k = 1 + below(4); k > 0; k--) claim[m++] = claimed(n);
    } else {
        m = length() % (n + 20);
        for (size_t i = 0; i < m; i++) claim[i] = claimed(n);
    }
    return m;
}
