#include "clusters.h"
#include <uchar.h>

/* 01's shorthand: c a consonant, t an optional tone mark, k a group that is optional as a whole, ? an optional item. */
static const char32_t *const alternatives[] = {
    U"เc็ck",     U"เcctาะk", U"เccีtยะk",    U"เcc็ck",          U"เcิc์ck",          U"เcิtck", U"เcีtยะ?k", U"เcืtอะ?k",
    U"เctา?ะ?k", U"cัtวะk",   U"c[ัื]tc[ุิะ]?k", U"c[ิุู]์k",           U"c[ะ-ู]tk",        U"cรรc์ ็", U"c็",       U"ct[ะาำ]?k",
    U"ck",       U"แc็c",     U"แcc์",        U"แctะ",           U"แcc็c",           U"แccc์",  U"โctะ",    U"[เ-ไ]ct",
    U"ก็",        U"อึ",       U"หึ",          U"เccีtย[เ-ไก-ฮ]k", U"เc[ิีุู]tย[เ-ไก-ฮ]k"};
enum { ALTERNATIVES = sizeof alternatives / sizeof *alternatives, AHEAD = ALTERNATIVES - 2 };
static const char32_t group[] = U"cc?[ิุู]?์";

/* Whether the item at *at has the character; *at is then behind the item. */
static int item_has(const char32_t **at, uint32_t x) {
    const char32_t *p = *at;
    int has = 0;
    if (*p == U'c') {
        has = x >= 0xE01 && x <= 0xE2E;
    } else if (*p == U't') {
        has = x >= 0xE48 && x <= 0xE4B;
    } else if (*p == U'[') {
        for (p++; *p != U']'; p++) {
            has |= x == *p;
            if (p[1] == U'-') has |= x >= p[0] && x <= p[2], p += 2;
        }
    } else {
        has = x == *p;
    }
    *at = p + 1;
    return has;
}

/* Where the match of a pattern at p ends, n + 1 for no match. An optional item is tried first with and then without a
 * character. */
static size_t match(const char32_t *pattern, const uint32_t *text, size_t n, size_t p) {
    if (*pattern == 0) return p;
    if (*pattern == U'k') {
        size_t end = match(group, text, n, p);
        return end <= n ? end : p;
    }
    int optional = *pattern == U't';
    const char32_t *rest = pattern;
    int has = item_has(&rest, p < n ? text[p] : 0);
    if (*rest == U'?') optional = 1, rest++;
    if (p < n && has) {
        size_t end = match(rest, text, n, p + 1);
        if (end <= n) return end;
    }
    return optional ? match(rest, text, n, p) : n + 1;
}

/* The number of the first alternative behind the first k that matches, and its end; 0 for none. */
static uint32_t first(size_t k, const uint32_t *text, size_t n, size_t p, size_t *end) {
    for (; k < ALTERNATIVES; k++)
        if ((*end = match(alternatives[k], text, n, p)) <= n) return (uint32_t)k + 1;
    return 0;
}

size_t clusters_of(const uint32_t *text, size_t n, uint32_t *ends, uint32_t *winners) {
    size_t count = 0, end, other;
    for (size_t p = 0; p < n; p = end) {
        winners[count] = first(0, text, n, p, &end);
        if (winners[count] == 0)
            end = p + 1;
        else if (first(AHEAD, text, end, p, &other) != 0)
            end--;
        ends[count++] = (uint32_t)end;
    }
    return count;
}
