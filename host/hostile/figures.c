#include "figures.h"
#include "../include/fetlockice.h"
#include "calls.h"
#include "inputs.h"
#include "model.h"
#include "rows.h"
#include <string.h>

unsigned long figure_calls[FIGURE_OPS], figures_full;

/* What a call is given, and the figures that it has to add. */
struct given {
    enum figure_op op;
    struct call text; /* of a text that is fed: its call with reasons */
    uint32_t number;  /* of a refused text */
    uint64_t figures[FETLOCKICE_FIGURES], more[FETLOCKICE_FIGURES];
};

struct told {
    uint32_t number;
    size_t count, edges, detail;
};

struct figure_rows {
    struct row figures, more, text, pool, pairs, scratch;
};

static struct given g;
static struct told due;
static uint32_t pool[POOL_ROOM], text[TEXT_ROOM], pairs[2 * TEXT_ROOM];

static int feeds(void) { return g.op <= FEED_SHEET; }

/* ---- what the rules say */

static uint64_t limit(size_t i) { return i == FETLOCKICE_TEXTS ? UINT32_MAX : UINT64_MAX; }

/* A figure of both would pass its limit. Of the most edges the larger stays, which never does. */
static int full(void) {
    for (size_t i = 0; i < FETLOCKICE_FIGURES; i++)
        if (i != FETLOCKICE_MOST_EDGES && (g.more[i] > limit(i) || g.figures[i] > limit(i) - g.more[i])) return 1;
    return 0;
}

static uint64_t joined(size_t i) {
    if (i != FETLOCKICE_MOST_EDGES) return g.figures[i] + g.more[i];
    return g.figures[i] < g.more[i] ? g.more[i] : g.figures[i];
}

/* The figures of a text that is refused with a number; none are added for one that is no text's. */
static void of_refused(uint32_t number) {
    memset(g.more, 0, sizeof g.more);
    if (number < FETLOCKICE_ILL_FORMED || number > FETLOCKICE_OUTPUT_TOO_SHORT) return;
    g.more[FETLOCKICE_TEXTS] = 1;
    g.more[FETLOCKICE_REFUSED_ILL_FORMED + number - FETLOCKICE_ILL_FORMED] = 1;
}

static void of_cut(size_t characters, size_t tokens, size_t edges) {
    memset(g.more, 0, sizeof g.more);
    g.more[FETLOCKICE_TEXTS] = 1;
    g.more[FETLOCKICE_CHARACTERS] = characters;
    g.more[FETLOCKICE_TOKENS] = tokens;
    for (size_t i = 0; i < tokens; i++) g.more[FETLOCKICE_TOKENS_WORD + pairs[2 * i + 1] - FETLOCKICE_WORD]++;
    g.more[FETLOCKICE_EDGES] = g.more[FETLOCKICE_MOST_EDGES] = edges;
}

/* ---- what a call is given */

static void make_fed(void) {
    g.text = (struct call){.op = (enum op)(REASONS_PLAIN + (int)g.op), .text = text, .pool = pool};
    g.text.cells = make_pool(pool);
    g.text.n = make_sheet(text, pool, is_dictionary(pool, g.text.cells));
    g.text.room = make_room(2 * g.text.n);
    g.text.scratch = below(4) == 0 ? make_room(9 * g.text.n + 128) : 9 * g.text.n + 128 + below(4);
    struct answer a = call_twice(&g.text);
    memcpy(pairs, a.out, 8 * a.count);
    due = (struct told){a.number, a.count, a.edges, a.detail};
    if (a.number == 0)
        of_cut(g.text.n, a.count, a.edges);
    else
        of_refused(a.number);
}

static uint64_t any_figure(size_t i) {
    switch (below(8)) {
    case 0: return draw();
    case 1: return limit(i) - below(3);
    case 2: return (uint64_t)1 << below(64);
    case 3: return i == FETLOCKICE_TEXTS ? below(3) : draw() >> 1;
    default: return below(1000);
    }
}

/* Any figures; or small ones, one of which is just filled by what is added, or by one less. */
static void make_figures(void) {
    size_t cell = below(FETLOCKICE_FIGURES);
    int any = below(3) == 0;
    for (size_t i = 0; i < FETLOCKICE_FIGURES; i++) g.figures[i] = any ? any_figure(i) : below(1000);
    if (!any && below(3) != 0) g.figures[cell] = limit(cell) - g.more[cell] + below(2);
}

static void make(void) {
    g.op = (enum figure_op)below(FIGURE_OPS);
    g.text = (struct call){.op = REASONS_PLAIN};
    due = (struct told){0, 0, 0, 0};
    if (feeds())
        make_fed();
    else if (g.op == FEED_REFUSED)
        of_refused(g.number = below(4) != 0 ? (uint32_t)below(15) : (uint32_t)draw());
    else
        for (size_t i = 0; i < FETLOCKICE_FIGURES; i++) g.more[i] = below(4) == 0 ? any_figure(i) : below(1000);
    make_figures();
}

/* ---- the calls */

static struct told call(struct figure_rows *rows) {
    size_t numbers[7] = {draw(), draw(), draw(), draw(), draw(), draw(), draw()}, before[7];
    size_t *count = &numbers[1], *edges = &numbers[3], *detail = &numbers[5];
    uint64_t *figures = lend_at(&rows->figures, g.figures, sizeof g.figures, 8);
    uint64_t *more = lend_at(&rows->more, g.more, sizeof g.more, 8);
    uint32_t *cells = lend(&rows->text, g.text.text, 4 * g.text.n);
    uint32_t *nodes = lend(&rows->pool, g.text.pool, 4 * g.text.cells);
    uint32_t *out = lend(&rows->pairs, NULL, 4 * g.text.room), number;
    uint32_t *scratch = lend(&rows->scratch, NULL, 4 * g.text.scratch);
    memcpy(before, numbers, sizeof before);
    calls++;
    figure_calls[g.op]++;
    if (g.op == FEED_REFUSED)
        number = fetlockice_feed_refused(figures, g.number, detail);
    else if (g.op == JOIN_FIGURES)
        number = fetlockice_join_figures(figures, more, detail);
    else
        number =
            (g.op == FEED_PLAIN  ? fetlockice_feed_plain
             : g.op == FEED_SAFE ? fetlockice_feed_safe
                                 : fetlockice_feed_sheet)(figures, cells, g.text.n, nodes, g.text.cells, out,
                                                          g.text.room, scratch, g.text.scratch, count, edges, detail);
    for (size_t i = 0; i < 7; i += 2) must(numbers[i] == before[i], "a guard between two numbers was written");
    must(feeds() || (*count == before[1] && *edges == before[3]), "a number was set that the call has not");
    return (struct told){number, feeds() ? *count : 0, feeds() ? *edges : 0, *detail};
}

/* Scratch is in every case as the call with reasons leaves it. */
static void check_scratch(const struct row *scratch) {
    if (!feeds() || (due.number >= 2 && due.number <= 5)) {
        check_kept(scratch, 0, "scratch was written that must be kept");
        return;
    }
    check_kept(scratch, scratch->size, "scratch was written that must be kept");
    for (size_t i = 0; i < scratch->size; i++) must(scratch->lent[i] == 0, "scratch isn't all zero");
}

static void check_call(struct figure_rows *rows) {
    struct told t = call(rows);
    int is_full = full() && (g.op != FEED_REFUSED || g.more[FETLOCKICE_TEXTS] != 0);
    struct told expected = is_full ? (struct told){FETLOCKICE_FIGURES_FULL, 0, 0, 0} : due;
    must(t.number == expected.number && t.detail == expected.detail, "another refusal of figures than is due");
    must(t.count == expected.count && t.edges == expected.edges, "a text that is fed is told otherwise");
    check_kept(&rows->figures, is_full ? 0 : rows->figures.size, "figures were written that must be kept");
    const uint64_t *figures = (const uint64_t *)(const void *)rows->figures.lent;
    for (size_t i = 0; !is_full && i < FETLOCKICE_FIGURES; i++) must(figures[i] == joined(i), "a figure is wrong");
    check_kept(&rows->more, 0, "a batch was written");
    check_kept(&rows->text, 0, "a text was written");
    check_kept(&rows->pool, 0, "a pool was written that must be kept");
    check_kept(&rows->pairs, 8 * t.count, "an output was written that must be kept");
    must(memcmp(rows->pairs.lent, pairs, 8 * t.count) == 0, "other tokens than without figures");
    check_scratch(&rows->scratch);
    figures_full += is_full;
}

void figure_step(void) {
    static struct figure_rows rows[2];
    make();
    for (int k = 0; k < 2; k++) check_call(&rows[k]);
}
