#include "calls.h"
#include "../include/fetlockice.h"
#include "model.h"
#include "rows.h"
#include <string.h>

unsigned long calls_of[OPS];

/* Each function's refusals, a bit for each number. */
static const unsigned refusals[OPS] = {
    [DECODE] = 1 << 1 | 1 << 2 | 1 << 6,
    [CLUSTERS] = 1 << 2 | 1 << 3 | 1 << 6,
    [WINNERS] = 1 << 2 | 1 << 3 | 1 << 6,
    [FRESH] = 1 << 8,
    [ADD] = 1 << 2 | 1 << 3 | 1 << 4 | 1 << 7 | 1 << 8,
    [ADD_CLASS] = 1 << 2 | 1 << 3 | 1 << 4 | 1 << 7 | 1 << 8,
    [REMOVE] = 1 << 2 | 1 << 3 | 1 << 4 | 1 << 7,
    [CONTAINS] = 1 << 2 | 1 << 3 | 1 << 4,
    [CONTAINS_CLASS] = 1 << 2 | 1 << 3 | 1 << 4,
    [PREFIX_LENGTHS] = 1 << 2 | 1 << 3 | 1 << 4 | 1 << 6,
    [WORD_COUNT] = 1 << 4,
    [CUT_PLAIN] = 1 << 2 | 1 << 3 | 1 << 4 | 1 << 5 | 1 << 6,
    [CUT_SAFE] = 1 << 2 | 1 << 3 | 1 << 4 | 1 << 5 | 1 << 6,
    [CUT_SHEET] = 1 << 2 | 1 << 3 | 1 << 4 | 1 << 5 | 1 << 6,
    [REASONS_PLAIN] = 1 << 2 | 1 << 3 | 1 << 4 | 1 << 5 | 1 << 6,
    [REASONS_SAFE] = 1 << 2 | 1 << 3 | 1 << 4 | 1 << 5 | 1 << 6,
    [REASONS_SHEET] = 1 << 2 | 1 << 3 | 1 << 4 | 1 << 5 | 1 << 6,
    [CHECK_CLAIM] = 1 << 2 | 1 << 3 | 1 << 4 | 1 << 5,
};

int writes_output(enum op op) {
    return op == DECODE || op == CLUSTERS || op == WINNERS || op == PREFIX_LENGTHS || cuts(op) || tells_reasons(op);
}
int writes_pool(enum op op) { return op == FRESH || adds(op) || op == REMOVE; }
int adds(enum op op) { return op == ADD || op == ADD_CLASS; }
int cuts(enum op op) { return op == CUT_PLAIN || op == CUT_SAFE || op == CUT_SHEET; }
int tells_reasons(enum op op) { return op == REASONS_PLAIN || op == REASONS_SAFE || op == REASONS_SHEET; }
int uses_scratch(enum op op) { return cuts(op) || tells_reasons(op) || op == CHECK_CLAIM; }
enum op cut_of(enum op op) { return tells_reasons(op) ? (enum op)(op - REASONS_PLAIN + CUT_PLAIN) : op; }
size_t cells_of(enum op op, size_t count) { return tells_reasons(op) ? 2 * count : count; }

/* Edges, a token or a place beside the count. */
static int tells_two(enum op op) { return uses_scratch(op) || op == END_IN_BYTES; }

/* The cells of the second output that a call writes: positions or winners. */
static size_t second(const struct call *c, const struct answer *a) {
    if (a->number != 0) return 0;
    return c->op == DECODE ? a->count + 1 : c->op == WINNERS ? a->count : 0;
}

/* The rows of one call. */
struct rows {
    struct row text, pool, claim, out, more, scratch;
};

/* The numbers that a call sets, with guards between them. */
struct numbers {
    size_t guard0, count, guard1, word_class, guard2, edges, guard3, detail, guard4;
};

/* add_class as a caller sees it that leaves anything in the register above the class's sixteen bits. */
typedef uint32_t wide_add_class(uint32_t *, size_t, const uint32_t *, size_t, uint64_t, size_t *, size_t *);

static uint32_t add_class(const struct call *c, uint32_t *pool, const void *word, struct numbers *to) {
    wide_add_class *wide = (wide_add_class *)(void (*)(void))fetlockice_add_class;
    if (below(2) == 0) return wide(pool, c->cells, word, c->n, draw() << 16 | c->word_class, &to->count, &to->detail);
    return fetlockice_add_class(pool, c->cells, word, c->n, c->word_class, &to->count, &to->detail);
}

/* With reasons, in each mode, half of the even rows as rows of records. */
static uint32_t told(const struct call *c, const void *text, uint32_t *pool, uint32_t *out, uint32_t *scratch,
                     struct numbers *to) {
    struct fetlockice_record *records = (struct fetlockice_record *)out;
    int mode = (int)(c->op - REASONS_PLAIN);
    if (c->room % 4 == 0)
        return (mode == 0   ? fetlockice_records_plain
                : mode == 1 ? fetlockice_records_safe
                            : fetlockice_records_sheet)(text, c->n, pool, c->cells, records, c->room / 2, scratch,
                                                        c->scratch, &to->count, &to->edges, &to->detail);
    return (mode == 0   ? fetlockice_reasons_plain
            : mode == 1 ? fetlockice_reasons_safe
                        : fetlockice_reasons_sheet)(text, c->n, pool, c->cells, out, c->room, scratch, c->scratch,
                                                    &to->count, &to->edges, &to->detail);
}

static uint32_t exported(const struct call *c, const void *text, uint32_t *pool, const uint32_t *claim, uint32_t *out,
                         uint32_t *more, uint32_t *scratch, struct numbers *to) {
    if (tells_reasons(c->op)) return told(c, text, pool, out, scratch, to);
    switch (c->op) {
    case DECODE: return fetlockice_decode(text, c->n, out, c->room, more, c->more, &to->count, &to->detail);
    case END_IN_BYTES: return fetlockice_end_in_bytes(text, c->n, c->characters, c->end, &to->count, &to->edges);
    case CLUSTERS: return fetlockice_clusters(text, c->n, out, c->room, &to->count, &to->detail);
    case WINNERS: return fetlockice_winners(text, c->n, out, c->room, more, c->more, &to->count, &to->detail);
    case FRESH: return fetlockice_fresh(pool, c->cells, &to->count, &to->detail);
    case ADD: return fetlockice_add(pool, c->cells, text, c->n, &to->count, &to->detail);
    case ADD_CLASS: return add_class(c, pool, text, to);
    case REMOVE: return fetlockice_remove(pool, c->cells, text, c->n, &to->count, &to->detail);
    case CONTAINS: return fetlockice_contains(pool, c->cells, text, c->n, &to->count, &to->detail);
    case CONTAINS_CLASS:
        return fetlockice_contains_class(pool, c->cells, text, c->n, &to->count, &to->word_class, &to->detail);
    case PREFIX_LENGTHS:
        return fetlockice_prefix_lengths(pool, c->cells, text, c->n, out, c->room, &to->count, &to->detail);
    case WORD_COUNT: return fetlockice_word_count(pool, c->cells, &to->count, &to->detail);
    case CUT_PLAIN:
        return fetlockice_cut_plain(text, c->n, pool, c->cells, out, c->room, scratch, c->scratch, &to->count,
                                    &to->edges, &to->detail);
    case CHECK_CLAIM:
        return fetlockice_check_claim(text, c->n, pool, c->cells, claim, c->ends, scratch, c->scratch, &to->count,
                                      &to->edges, &to->detail);
    case CUT_SAFE:
        return fetlockice_cut_safe(text, c->n, pool, c->cells, out, c->room, scratch, c->scratch, &to->count,
                                   &to->edges, &to->detail);
    default:
        return fetlockice_cut_sheet(text, c->n, pool, c->cells, out, c->room, scratch, c->scratch, &to->count,
                                    &to->edges, &to->detail);
    }
}

static int all_zero(const struct row *row) {
    for (size_t i = 0; i < row->size; i++)
        if (row->lent[i] != 0) return 0;
    return 1;
}

/* What every call keeps, by its answer. */
static void check_rows(const struct call *c, const struct rows *rows, const struct answer *a) {
    check_kept(&rows->text, 0, "a text was written");
    check_kept(&rows->claim, 0, "a claim was written");
    size_t pool_kept = writes_pool(c->op) && a->number == 0 ? 32 * nodes_of(c->cells) : 0;
    check_kept(&rows->pool, pool_kept, "a pool was written that must be kept");
    size_t written = writes_output(c->op) ? cells_of(c->op, a->count) : 0;
    must(written <= c->room, "more was told of than the output has cells");
    check_kept(&rows->out, 4 * written, "an output was written that must be kept");
    must(second(c, a) <= c->more, "more was told of than the second output has cells");
    check_kept(&rows->more, 4 * second(c, a), "a second output was written that must be kept");
    int untouched = !uses_scratch(c->op) || (a->number >= 2 && a->number <= 5);
    check_kept(&rows->scratch, untouched ? 0 : rows->scratch.size, "scratch was written that must be kept");
    must(untouched || all_zero(&rows->scratch), "scratch isn't all zero");
}

static void check_numbers(const struct call *c, const struct answer *a, const struct numbers *before,
                          const struct numbers *after) {
    must(before->guard0 == after->guard0 && before->guard1 == after->guard1 && before->guard2 == after->guard2 &&
             before->guard3 == after->guard3 && before->guard4 == after->guard4,
         "a guard between two numbers was written");
    must(c->op == CONTAINS_CLASS || before->word_class == after->word_class, "a class was told of where none is");
    must(tells_two(c->op) || before->edges == after->edges, "edges were told of where none are");
    must(c->op != END_IN_BYTES || before->detail == after->detail, "a detail was told of where none is");
    must(a->number == 0 || (a->number < 32 && (refusals[c->op] >> a->number & 1) != 0),
         "a refusal that the function doesn't have");
    must(a->number == 0 ? a->detail == 0 : a->count == 0 && a->word_class == 0 && a->edges == 0,
         "a number isn't 0 that must be");
}

static struct answer call_once(const struct call *c, struct rows *rows) {
    size_t size = c->op == DECODE ? 1 : 4;
    void *text = lend(&rows->text, c->text, size * c->n);
    uint32_t *pool = lend(&rows->pool, c->op == FRESH ? NULL : c->pool, 4 * c->cells);
    uint32_t *claim = lend(&rows->claim, c->claim, 4 * c->ends);
    uint32_t *out = lend(&rows->out, NULL, 4 * c->room);
    uint32_t *more = lend(&rows->more, NULL, 4 * c->more);
    uint32_t *scratch = lend(&rows->scratch, NULL, 4 * c->scratch);
    struct numbers before = {draw(), draw(), draw(), draw(), draw(), draw(), draw(), draw(), draw()}, after = before;
    calls++;
    calls_of[c->op]++;
    struct answer a = {.out = out, .more = more, .pool = pool};
    a.number = exported(c, text, pool, claim, out, more, scratch, &after);
    a.count = after.count;
    a.word_class = c->op == CONTAINS_CLASS ? after.word_class : 0;
    a.edges = tells_two(c->op) ? after.edges : 0;
    a.detail = c->op == END_IN_BYTES ? 0 : after.detail;
    check_numbers(c, &a, &before, &after);
    check_rows(c, rows, &a);
    return a;
}

struct answer call_twice(const struct call *c) {
    static struct rows rows[5][2];
    static size_t turn;
    struct rows *own = rows[turn++ % 5];
    struct answer a = call_once(c, &own[0]), b = call_once(c, &own[1]);
    must(a.number == b.number && a.count == b.count && a.word_class == b.word_class && a.edges == b.edges &&
             a.detail == b.detail,
         "two calls told different numbers");
    must(!writes_output(c->op) || memcmp(a.out, b.out, 4 * cells_of(c->op, a.count)) == 0,
         "two calls wrote different outputs");
    must(memcmp(a.more, b.more, 4 * second(c, &a)) == 0, "two calls wrote different second outputs");
    size_t same = c->op == FRESH ? (a.number == 0 ? 32 * nodes_of(c->cells) : 0) : 4 * c->cells;
    must(memcmp(a.pool, b.pool, same) == 0, "two calls left different pools");
    return a;
}
