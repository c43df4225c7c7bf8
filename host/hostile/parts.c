#include "parts.h"
#include "rows.h"

enum { BEGIN = 100, END = 140 };

/* The plain cut of n characters of the text, from start on. */
static struct answer plain_cut(const struct call *c, size_t start, size_t n) {
    struct call part = *c;
    part.op = CUT_PLAIN;
    part.text = (const uint32_t *)c->text + start;
    part.n = part.room = n;
    part.scratch = 9 * n + 128;
    struct answer a = call_twice(&part);
    must(a.number == 0, "a part is refused");
    return a;
}

/* Where the longest token starts, the last of equals. */
static size_t longest(const struct answer *a) {
    size_t start = 0, most = 0, from = 0;
    for (size_t i = 0; i < a->count; from = a->out[i++])
        if (a->out[i] - from >= most) most = a->out[i] - from, start = from;
    return start;
}

size_t part_size(const struct call *c, size_t start, size_t *edges) {
    const uint32_t *rest = (const uint32_t *)c->text + start;
    enum op cut = cut_of(c->op);
    if (cut == CUT_PLAIN || c->n - start < END) return c->n - start;
    for (size_t i = END; i > BEGIN; i--)
        if (rest[i - 1] == ' ') return cut == CUT_SHEET ? i : i - BEGIN;
    struct answer sample = plain_cut(c, start + BEGIN, END - BEGIN);
    *edges += sample.edges;
    return BEGIN + longest(&sample);
}

void check_parts(const struct call *c, const struct answer *a, const uint32_t *ends) {
    size_t start = 0, done = 0, edges = 0;
    if (c->op == CUT_PLAIN || c->n < END || c->n > LONGEST) return;
    while (start < c->n) {
        size_t n = part_size(c, start, &edges);
        struct answer part = plain_cut(c, start, n);
        must(part.count <= a->count - done, "fewer ends than the parts have");
        for (size_t i = 0; i < part.count; i++)
            must(ends[done++] == start + part.out[i], "an end isn't that of its part");
        edges += part.edges;
        start += n;
    }
    must(done == a->count && edges == a->edges, "more ends or edges than the parts have");
}
