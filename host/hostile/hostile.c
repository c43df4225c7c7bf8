/* hostile CALLS SEED: calls every exported function with hostile inputs until CALLS calls were made, and holds each
 * answer to the rules. The first thing that isn't as it must be ends the run. */
#include "calls.h"
#include "clusters.h"
#include "figures.h"
#include "images.h"
#include "inputs.h"
#include "many.h"
#include "maps.h"
#include "model.h"
#include "parts.h"
#include "plants.h"
#include "reasons.h"
#include "rows.h"
#include <signal.h>
#include <stdio.h>
#include <stdlib.h>
#include <string.h>
#include <unistd.h>

static uint32_t pool[POOL_ROOM], text[TEXT_ROOM], scalars[TEXT_ROOM * 4], ends[TEXT_ROOM], claim[2 * TEXT_ROOM];
static uint8_t bytes[TEXT_ROOM * 4];
static unsigned long answers[9];

/* A decoding has two outputs: the scalar row is looked at first. */
static struct refusal decode_due(const struct call *c) {
    size_t count;
    struct refusal r = utf8_refusal(c->text, c->n, scalars, TEXT_ROOM * 4, &count);
    if (r.number != 0) return r;
    if (c->room < count) return (struct refusal){6, count};
    return c->more < count + 1 ? (struct refusal){6, count + 1} : r;
}

/* The refusal that is due by the model, 6 left out but for a decoding. */
static struct refusal due(const struct call *c, int is_dict) {
    size_t start, end;
    uint32_t mark;
    if (c->op == DECODE) return decode_due(c);
    if (c->op == END_IN_BYTES) return (struct refusal){0, 0};
    if (c->op == FRESH) return (struct refusal){c->cells < 8 ? 8 : 0, c->cells < 8};
    struct refusal r = c->op == WORD_COUNT ? (struct refusal){0, 0} : text_refusal(c->text, c->n);
    if (r.number != 0 || c->op == CLUSTERS || c->op == WINNERS) return r;
    if (!is_dict) return (struct refusal){4, 0};
    if (uses_scratch(c->op) && c->scratch < 9 * c->n + 128) return (struct refusal){5, 9 * c->n + 128};
    if (!adds(c->op) && c->op != REMOVE) return r;
    trimmed(c->text, c->n, &start, &end);
    if (end - start > 255) return (struct refusal){7, end - start};
    size_t nodes = c->pool[0] + lacking(c->pool, (const uint32_t *)c->text + start, end - start, &mark);
    if (adds(c->op) && nodes > nodes_of(c->cells)) return (struct refusal){8, nodes - nodes_of(c->cells)};
    return r;
}

/* Refusal 6 is given exactly where the output, or the second one, is a cell too short. */
static void check_fit(const struct call *c, const struct answer *a) {
    struct call fit = *c;
    size_t needed = a->number == 6 ? a->detail : a->count, cells = cells_of(c->op, needed);
    size_t room = c->op == WINNERS && c->more < c->room ? c->more : c->room;
    must(a->number != 6 || cells > room, "6 where the output has the room");
    fit.room = fit.more = cells;
    struct answer b = call_twice(&fit);
    must(b.number == 0 && b.count == needed && (a->number == 6 || b.edges == a->edges),
         "an output with just the room is refused");
    must(a->number == 6 || memcmp(a->out, b.out, 4 * cells) == 0, "the room changes the answer");
    if (needed == 0) return;
    fit.room = cells - 1;
    b = call_twice(&fit);
    must(b.number == 6 && b.detail == needed, "an output a cell too short is not refused");
    if (c->op != WINNERS) return;
    fit.room = needed, fit.more = needed - 1;
    b = call_twice(&fit);
    must(b.number == 6 && b.detail == needed, "a second output a cell too short is not refused");
}

static void check_ends(const struct call *c, const struct answer *a) {
    must((a->count == 0) == (c->n == 0), "no end, or ends of nothing");
    for (size_t i = 0; i < a->count; i++) must(a->out[i] > (i > 0 ? a->out[i - 1] : 0), "ends don't rise");
    must(a->count == 0 || a->out[a->count - 1] == c->n, "the last end isn't the length");
    must(a->edges <= 51 * c->n, "more edges than can be recorded");
}

/* Cutting doesn't read classes. */
static void check_classes(const struct call *c, const struct answer *a) {
    static uint32_t reclassed[POOL_ROOM];
    struct call other = *c;
    memcpy(reclassed, c->pool, 4 * c->cells);
    reclass(reclassed);
    other.pool = reclassed;
    struct answer b = call_twice(&other);
    must(b.number == 0 && b.count == a->count && b.edges == a->edges && memcmp(a->out, b.out, 4 * a->count) == 0,
         "classes change a cut");
}

/* The clusters are the model's, and so are the winners where they are told. */
static void check_clusters(const struct call *c, const struct answer *a) {
    static uint32_t model[TEXT_ROOM], winners[TEXT_ROOM];
    size_t count = clusters_of(c->text, c->n, model, winners);
    check_ends(c, a);
    must(a->count == count && memcmp(a->out, model, 4 * count) == 0, "other clusters than the patterns have");
    must(c->op != WINNERS || memcmp(a->more, winners, 4 * count) == 0, "another alternative won");
}

static void check_cut(const struct call *c, const struct answer *a) {
    struct call other = *c;
    check_ends(c, a);
    check_classes(c, a);
    other.op = CUT_PLAIN + (c->op - CUT_PLAIN + 1 + below(2)) % 3;
    struct answer b = call_twice(&other);
    must(b.number == 0 || b.number == 6, "the other mode is refused");
    must(c->n >= 140 ||
             (b.number == 0 && b.edges == a->edges && b.count == a->count && memcmp(a->out, b.out, 4 * a->count) == 0),
         "modes differ below 140");
    other.scratch = 9 * c->n + 127;
    b = call_twice(&other);
    must(b.number == 5 && b.detail == 9 * c->n + 128, "scratch a cell too short is not refused");
}

/* The verdict is the model's, by the text's clusters, and the ends of the plain cut are right. */
static void check_verdict(const struct call *c, const struct answer *a) {
    static unsigned char is_end[TEXT_ROOM + 1];
    struct call other = {.op = CLUSTERS, .text = c->text, .n = c->n, .room = c->n};
    struct answer b = call_twice(&other);
    memset(is_end, 0, c->n + 1);
    for (size_t i = 0; i < b.count; i++) is_end[b.out[i]] = 1;
    long token = wrong_token(c->text, c->n, is_end, c->pool, c->claim, c->ends);
    must(a->count == (token < 0) && a->edges == (token < 0 ? 0 : (size_t)token), "the verdict is wrong");
    other = *c;
    other.op = CUT_PLAIN;
    other.room = c->n;
    b = call_twice(&other);
    must(b.number == 0, "the plain cut is refused");
    other.op = CHECK_CLAIM;
    other.claim = b.out;
    other.ends = b.count;
    b = call_twice(&other);
    must(b.number == 0 && b.count == 1, "the ends of the plain cut are not right");
    other.scratch = 9 * c->n + 127;
    b = call_twice(&other);
    must(b.number == 5 && b.detail == 9 * c->n + 128, "scratch a cell too short is not refused");
}

static void check_prefixes(const struct call *c, const struct answer *a) {
    size_t k = 0;
    uint32_t mark;
    for (size_t n = 1; n <= c->n && n <= 255; n++) {
        if (lacking(c->pool, c->text, n, &mark) == 0 && mark != 0)
            must(k < a->count && a->out[k++] == n, "a prefix length is missing");
    }
    must(k == a->count, "a prefix length of no word");
}

/* An accepted add or remove changes its word and class alone, and undoing it leaves the pool as it was, bit by bit. */
static void check_change(const struct call *c, const struct answer *a) {
    static uint32_t changed[POOL_ROOM];
    size_t start, end;
    uint32_t before, after, wanted = adds(c->op) ? 1 + (uint32_t)c->word_class : 0;
    trimmed(c->text, c->n, &start, &end);
    const uint32_t *word = (const uint32_t *)c->text + start;
    size_t n = end - start;
    lacking(c->pool, word, n, &before);
    must(a->count == (n > 0 && before != wanted), "the report is wrong");
    must(is_dictionary(a->pool, c->cells), "the new pool is no dictionary");
    lacking(a->pool, word, n, &after);
    must(n == 0 || after == wanted, "the word or its class was not changed");
    must(words_of(a->pool) + (before != 0) == words_of(c->pool) + (after != 0) &&
             marks_of(a->pool) + before == marks_of(c->pool) + after,
         "another word or class was changed");
    memcpy(changed, a->pool, 4 * c->cells);
    if (a->count == 1) {
        struct call back = *c;
        back.op = before == 0 ? REMOVE : before == 1 ? ADD : ADD_CLASS;
        back.word_class = (uint16_t)(before == 0 ? 0 : before - 1);
        back.pool = changed;
        struct answer b = call_twice(&back);
        must(b.number == 0 && b.count == 1 && memcmp(b.pool, c->pool, 4 * c->cells) == 0,
             "undoing a change leaves another pool");
    }
    if (drawn != NULL) memcpy(drawn->cells, changed, 4 * c->cells);
}

/* Scalars and positions are those of the bytes, in rows of any length that is enough, and in no shorter ones. */
static void check_decoded(const struct call *c, const struct answer *a) {
    size_t count, at = 0;
    utf8_refusal(c->text, c->n, scalars, TEXT_ROOM * 4, &count);
    must(a->count == count && memcmp(a->out, scalars, 4 * count) == 0, "other scalars than the bytes have");
    for (size_t i = 0; i <= count; i++) {
        must(a->more[i] == at, "a position is wrong");
        if (i < count) at += utf8_size(scalars[i]);
    }
    must(at == c->n, "the last position isn't the number of bytes");
    struct call fit = *c;
    fit.room = count;
    fit.more = count + 1;
    struct answer b = call_twice(&fit);
    must(b.number == 0 && memcmp(a->out, b.out, 4 * count) == 0 && memcmp(a->more, b.more, 4 * (count + 1)) == 0,
         "the room changes the answer");
    fit.more = count;
    b = call_twice(&fit);
    must(b.number == 6 && b.detail == count + 1, "a position row a cell too short is not refused");
    if (count == 0) return;
    fit.room = count - 1;
    b = call_twice(&fit);
    must(b.number == 6 && b.detail == count, "the scalar row isn't looked at first");
}

static void check_accepted(const struct call *c, const struct answer *a) {
    const uint32_t *row = c->text;
    uint32_t mark;
    int found;
    switch (c->op) {
    case DECODE: check_decoded(c, a); break;
    case END_IN_BYTES:
        found = c->end <= c->characters && c->end < c->n;
        must(a->count == (size_t)found && a->edges == (found ? row[c->end] : 0), "an end in bytes is wrong");
        break;
    case CLUSTERS:
    case WINNERS: check_clusters(c, a); break;
    case FRESH:
        must(a->count == 0 && is_dictionary(a->pool, c->cells) && a->pool[0] == 1, "a fresh pool isn't the root alone");
        break;
    case CONTAINS:
    case CONTAINS_CLASS:
        lacking(c->pool, c->text, c->n, &mark);
        must(a->count == (mark != 0), "contains is wrong");
        must(a->word_class == (c->op == CONTAINS_CLASS && mark != 0 ? mark - 1 : 0), "the class is wrong");
        break;
    case PREFIX_LENGTHS: check_prefixes(c, a); break;
    case WORD_COUNT: must(a->count == words_of(c->pool), "the word count is wrong"); break;
    case CUT_PLAIN:
    case CUT_SAFE:
    case CUT_SHEET: check_cut(c, a); break;
    case REASONS_PLAIN:
    case REASONS_SAFE:
    case REASONS_SHEET: check_reasons(c, a); break;
    case CHECK_CLAIM: check_verdict(c, a); break;
    default: check_change(c, a); break;
    }
}

/* A claim near the ends of the plain cut, where there are any. */
static void claim_for(struct call *c) {
    struct call plain = *c;
    plain.op = CUT_PLAIN;
    plain.room = c->n;
    plain.scratch = 9 * c->n + 128;
    struct answer a = c->n <= 65535 ? call_twice(&plain) : (struct answer){.count = 0};
    c->claim = claim;
    c->ends = make_claim(claim, a.out, a.count, c->n);
}

static struct call make_call(enum op op, int *is_dict) {
    struct call c = {.op = op, .text = text, .pool = pool};
    if (op != DECODE && op != END_IN_BYTES && op != CLUSTERS && op != WINNERS) c.cells = make_pool(pool);
    *is_dict = is_dictionary(pool, c.cells);
    if (op == DECODE)
        c.text = bytes, c.n = make_bytes(bytes), c.more = make_room(c.n + 1);
    else if (op == END_IN_BYTES)
        c.n = make_positions(text), c.characters = make_number(c.n), c.end = make_number(c.characters);
    else if (adds(op) || op == REMOVE || op == CONTAINS || op == CONTAINS_CLASS)
        c.n = make_word(text);
    else if (op != FRESH && op != WORD_COUNT)
        c.n = make_sheet(text, pool, *is_dict);
    if (op == ADD_CLASS) c.word_class = make_class();
    if (writes_output(op)) c.room = make_room(op == PREFIX_LENGTHS ? below(4) : cells_of(op, c.n));
    if (op == WINNERS) c.more = make_room(c.n);
    if (uses_scratch(op)) c.scratch = below(4) == 0 ? make_room(9 * c.n + 128) : 9 * c.n + 128 + below(4);
    if (op == CHECK_CLAIM) claim_for(&c);
    return c;
}

static void step(void) {
    int is_dict;
    struct call c = make_call((enum op)below(OPS), &is_dict);
    struct refusal r = due(&c, is_dict);
    struct answer a = call_twice(&c);
    answers[a.number]++;
    must(r.number == 0 ? a.number == 0 || (a.number == 6 && writes_output(c.op))
                       : a.number == r.number && a.detail == r.detail,
         "another refusal than is due");
    if (a.number == 6 && c.op != DECODE) check_fit(&c, &a);
    if (a.number != 0) return;
    if (cuts(c.op)) memcpy(ends, a.out, 4 * a.count);
    if (writes_output(c.op) && c.op != DECODE) check_fit(&c, &a);
    check_accepted(&c, &a);
    if (cuts(c.op)) check_parts(&c, &a, ends);
}

/* A trap, or a call that doesn't end. */
static void stopped(int signal) {
    printf("hostile: call %lu: signal %d\n", calls, signal);
    fflush(stdout);
    _exit(1);
}

int main(int argc, char **argv) {
    static const size_t nodes[LIVING] = {0, 1, 2, 5, 12, 40, 120, 260, 300, 600, 1500, 4500};
    unsigned long most = argc > 1 ? strtoul(argv[1], NULL, 10) : 100000;
    seed = argc > 2 ? strtoul(argv[2], NULL, 10) : 1;
    printf("hostile: %lu calls, seed %lu\n", most, (unsigned long)seed);
    signal(SIGSEGV, stopped);
    signal(SIGALRM, stopped);
    for (size_t i = 0; i < LIVING; i++) {
        struct call fresh = {.op = FRESH, .cells = living[i].length = 8 * nodes[i] + below(8)};
        struct answer a = call_twice(&fresh);
        memcpy(living[i].cells, a.pool, 4 * living[i].length);
    }
    start_plants();
    while (calls < most) {
        alarm(300);
        for (size_t k = 0; k < 100 && calls < most; k++) {
            size_t which = below(OPS + 15);
            if (which < OPS)
                step();
            else if (which < OPS + 3)
                many_step();
            else
                which < OPS + 5   ? map_step()
                : which < OPS + 7 ? figure_step()
                : which < OPS + 9 ? image_step()
                                  : plant_step();
        }
    }
    printf("hostile: calls of each function:");
    for (size_t i = 0; i < OPS; i++) printf(" %lu", calls_of[i]);
    printf(", of many texts:");
    for (size_t i = 0; i < MANY_OPS * MODES; i++) printf(" %lu", many_calls[i / MODES][i % MODES]);
    printf(", %lu of them refused, of maps:", many_refused);
    for (size_t i = 0; i < MAP_OPS; i++) printf(" %lu", map_calls[i]);
    printf(", %lu of them refused, of figures:", map_refused);
    for (size_t i = 0; i < FIGURE_OPS; i++) printf(" %lu", figure_calls[i]);
    printf(", %lu of them full, of images:", figures_full);
    for (size_t i = 0; i < IMAGE_OPS; i++) printf(" %lu", image_calls[i]);
    printf(", %lu of them refused, of plants:", image_refused);
    for (size_t i = 0; i < PLANT_OPS; i++) printf(" %lu", plant_calls[i]);
    printf(", %lu of them refused", plants_refused);
    printf("\nhostile: answers 0 to 8:");
    for (size_t i = 0; i < 9; i++) printf(" %lu", answers[i]);
    printf("\nhostile: %lu calls, no error\n", calls);
    return 0;
}
