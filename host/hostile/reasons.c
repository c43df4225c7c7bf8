#include "reasons.h"
#include "inputs.h"
#include "model.h"
#include "parts.h"
#include "rows.h"
#include <string.h>

static uint32_t pairs[2 * TEXT_ROOM];
static unsigned char is_end[TEXT_ROOM + 1];

/* A flag for each position of n characters of the text from start on: whether a cluster ends there. */
static void mark_ends(const struct call *c, size_t start, size_t n) {
    struct call clusters = {.op = CLUSTERS, .text = (const uint32_t *)c->text + start, .n = n, .room = n};
    struct answer a = call_twice(&clusters);
    memset(is_end, 0, n + 1);
    for (size_t i = 0; i < a.count; i++) is_end[a.out[i]] = 1;
}

static void check_tokens(const struct call *c, size_t count, size_t edges) {
    struct call cut = *c;
    cut.op = cut_of(c->op);
    cut.room = c->n;
    struct answer a = call_twice(&cut);
    must(a.number == 0 && a.count == count && a.edges == edges, "another number of tokens or edges than the cut has");
    for (size_t i = 0; i < count; i++) must(a.out[i] == pairs[2 * i], "a token ends elsewhere than in the cut");
}

void check_reasons(const struct call *c, const struct answer *a) {
    size_t start = 0, done = 0, sampled = 0, count = a->count;
    memcpy(pairs, a->out, 8 * count);
    check_tokens(c, count, a->edges);
    if (c->op != REASONS_PLAIN && c->n > LONGEST) return;
    while (start < c->n) {
        size_t n = part_size(c, start, &sampled);
        const uint32_t *part = (const uint32_t *)c->text + start;
        mark_ends(c, start, n);
        for (size_t b = 0; b < n; done++) {
            must(done < count, "fewer tokens than the parts have");
            size_t e = pairs[2 * done] - start;
            must(e > b && e <= n, "a token of no part");
            must(pairs[2 * done + 1] == reason_of(part, n, is_end, c->pool, b, e), "another reason than the rule's");
            b = e;
        }
        start += n;
    }
    must(done == count, "more tokens than the parts have");
}
