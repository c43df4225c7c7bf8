#include "plants.h"
#include "../include/fetlockice.h"
#include "calls.h"
#include "inputs.h"
#include "model.h"
#include "rows.h"
#include <string.h>

#define IMAGE_ROOM ((size_t)1 << 18)

unsigned long plant_calls[PLANT_OPS], plants_refused;

/* The pools of two plants that the run keeps; the one that was drawn, NULL where none was as it is. */
#define PLANTED 10
static struct living planted[PLANTED], *taken;

/* What a call is given. */
struct given {
    enum plant_op op;
    bool plant_b;
    struct call call; /* its text or word, class, output and scratch; the plain call of the same name */
    size_t limit_a, limit_b;
    size_t cells, size, room; /* of the pool, of the image, of the output that an image is written to */
    uint32_t pool[POOL_ROOM], text[TEXT_ROOM];
    uint8_t image[IMAGE_ROOM];
};

struct told {
    uint32_t number;
    size_t count, word_class, edges, detail;
};

struct plant_rows {
    struct row pool, text, out, scratch;
};

/* What is due: the numbers, and the rows that the call leaves. */
struct due {
    struct told told;
    uint32_t pool[POOL_ROOM];
    const uint32_t *out; /* the first cells of the output */
    uint8_t image[IMAGE_ROOM];
};

static struct given g;
static struct due due;

static int is_image(void) { return g.op == PLANT_READ_IMAGE || g.op == PLANT_WRITE_IMAGE; }
static int changes_pool(void) {
    return g.op == PLANTS_START || g.op == PLANT_ADD || g.op == PLANT_REMOVE || g.op == PLANT_READ_IMAGE;
}

/* ---- a pool of two plants as two pools */

static size_t at(bool plant_b) { return plant_b ? 4 : 0; }
static size_t room_of(const uint32_t *pool, bool plant_b) { return pool[at(plant_b) + 3]; }

/* Puts the half of a plant into a plain pool of so many nodes. */
static void take_half(uint32_t *plain, const uint32_t *pool, bool plant_b, size_t nodes) {
    memset(plain, 0, 32 * nodes);
    for (size_t i = 0; i < nodes; i++) memcpy(plain + 8 * i, pool + 8 * i + at(plant_b), 16);
    plain[3] = 0;
}

/* Puts the nodes of a plain pool into the half of a plant; its limit stays. */
static void put_half(uint32_t *pool, const uint32_t *plain, bool plant_b, size_t nodes) {
    uint32_t room = pool[at(plant_b) + 3];
    for (size_t i = 0; i < nodes; i++) memcpy(pool + 8 * i + at(plant_b), plain + 8 * i, 16);
    pool[at(plant_b) + 3] = room;
}

size_t plant_alone(uint32_t *plain, const uint32_t *pool, bool plant_b) {
    size_t nodes = room_of(pool, plant_b);
    take_half(plain, pool, plant_b, nodes);
    return 8 * nodes;
}

int is_plants(const uint32_t *pool, size_t cells) {
    static uint32_t plain[POOL_ROOM];
    size_t nodes = nodes_of(cells);
    if (nodes == 0 || room_of(pool, false) + room_of(pool, true) > nodes + 1) return 0;
    for (int b = 0; b < 2; b++) {
        take_half(plain, pool, b != 0, nodes);
        if (!is_dictionary(plain, 8 * nodes) || plain[0] > room_of(pool, b != 0)) return 0;
    }
    return 1;
}

/* ---- what is given */

void start_plants(void) {
    static const size_t nodes[PLANTED] = {1, 2, 3, 6, 14, 40, 120, 300, 700, 2000};
    for (size_t i = 0; i < PLANTED; i++) {
        size_t count, detail, limit = below(nodes[i]);
        planted[i].length = 8 * nodes[i] + below(8);
        must(fetlockice_plants_start(planted[i].cells, planted[i].length, limit, nodes[i] - 1 - limit, &count,
                                     &detail) == 0,
             "a start is refused");
    }
}

static void damage_cells(void) {
    for (size_t k = 1 + below(2), used = g.cells / 8; k > 0 && used > 0; k--) {
        size_t most = g.pool[0] < g.pool[4] ? g.pool[4] : g.pool[0];
        uint32_t *cell = g.pool + 8 * below(most < used ? most + 1 : used) + below(8);
        size_t kind = below(5);
        *cell = kind == 0   ? (uint32_t)draw()
                : kind == 1 ? 0
                : kind == 2 ? *cell + 1
                : kind == 3 ? *cell - 1
                            : *(g.pool + below(8));
    }
}

/* One of the run's pools of two plants; or a damaged one, one that is lent shorter or with zeros behind it, a plain one,
 * its halves exchanged, or cells that are none. */
static void make_plants(void) {
    size_t kind = below(20);
    taken = &planted[below(PLANTED)];
    g.cells = taken->length;
    memcpy(g.pool, taken->cells, 4 * g.cells);
    if (kind < 13) return;
    if (kind == 13) {
        g.cells = make_pool(g.pool);
    } else if (kind == 14) {
        g.cells = below(g.cells + 1);
    } else if (kind == 15) {
        size_t more = below(40), whole = g.cells / 8 * 8;
        memset(g.pool + whole, 0, 4 * (g.cells - whole + more));
        g.cells += more;
    } else if (kind == 16) {
        for (size_t i = 0; i < g.cells / 8; i++)
            for (size_t k = 0; k < 4; k++) {
                uint32_t cell = g.pool[8 * i + k];
                g.pool[8 * i + k] = g.pool[8 * i + 4 + k], g.pool[8 * i + 4 + k] = cell;
            }
    } else if (kind == 17) {
        g.cells = below(100);
        for (size_t i = 0; i < g.cells; i++) g.pool[i] = (uint32_t)(below(3) == 0 ? draw() : below(4));
    } else {
        damage_cells();
    }
    taken = NULL;
}

size_t make_shared(uint32_t *pool) {
    make_plants();
    memcpy(pool, g.pool, 4 * g.cells);
    return g.cells;
}

/* A limit about the one given, 0, or near the largest number. */
static size_t make_limit(size_t near) {
    size_t kind = below(8);
    if (kind == 0) return 0;
    if (kind == 1) return SIZE_MAX - below(3);
    if (kind == 2) return (size_t)draw();
    return kind < 6 && near < SIZE_MAX ? below(near + 1) : near + below(3) - (near > 0 ? 1 : 0);
}

static void make_limits(void) {
    size_t nodes = nodes_of(g.cells), free = nodes > 0 ? nodes - 1 : 0;
    g.limit_a = make_limit(free);
    size_t rest = g.limit_a <= free ? free - g.limit_a : below(2) == 0 ? 0 - g.limit_a : 0;
    g.limit_b = below(3) == 0 ? make_limit(rest) : rest;
}

/* The image of one of the run's dictionaries, as it is or with a byte changed or less. */
static void make_image(void) {
    const struct living *from = &living[below(LIVING)];
    size_t count = 0, detail;
    if (from->length >= 8) fetlockice_write_image(from->cells, from->length, g.image, IMAGE_ROOM, &count, &detail);
    g.size = count;
    if (g.size > 0 && below(6) == 0) g.image[below(g.size)] ^= (uint8_t)(1u << below(8));
    if (g.size > 0 && below(10) == 0) g.size = below(g.size);
}

static const enum op plain_op[PLANT_OPS] = {FRESH,        ADD_CLASS,     REMOVE,     CONTAINS_CLASS, PREFIX_LENGTHS,
                                            WORD_COUNT,   CUT_PLAIN,     CUT_SAFE,   CUT_SHEET,      REASONS_PLAIN,
                                            REASONS_SAFE, REASONS_SHEET, WORD_COUNT, WORD_COUNT};

/* A word that one of the plants holds, or the start of one. */
static size_t held_word(uint32_t *word) {
    const uint32_t *half = g.pool + at(below(2) == 0);
    size_t n = 0;
    for (size_t node = 0; half[8 * node + 2] != 0 && (node == 0 || half[8 * node + 3] == 0 || below(3) != 0);) {
        node = half[8 * node + 1] + below(half[8 * node + 2]);
        word[n++] = half[8 * node];
    }
    return n;
}

/* A word that takes all that the plant has left, as far as a word can. */
static size_t filling_word(uint32_t *word) {
    size_t left = room_of(g.pool, g.plant_b) - g.pool[at(g.plant_b)], n = left < 255 ? left : 255;
    for (size_t i = 0; i < n; i++) word[i] = 0xE10 + (uint32_t)below(i == 0 ? 30 : 2);
    return n;
}

/* The text, word, class and rows of a call, as those of the plain call on a plain pool. */
static void make_rows(const uint32_t *plain, int passes) {
    struct call *c = &g.call;
    *c = (struct call){.op = plain_op[g.op], .text = g.text};
    if (g.op == PLANT_ADD || g.op == PLANT_REMOVE || g.op == PLANT_CONTAINS)
        c->n = !passes || below(2) == 0 ? make_word(g.text) : below(6) == 0 ? filling_word(g.text) : held_word(g.text);
    else if (g.op == PLANT_PREFIX_LENGTHS || (g.op >= PLANT_CUT_PLAIN && g.op <= PLANT_REASONS_SHEET))
        c->n = make_sheet(g.text, plain, passes);
    if (g.op == PLANT_ADD) c->word_class = make_class();
    if (writes_output(c->op)) c->room = make_room(c->op == PREFIX_LENGTHS ? below(4) : cells_of(c->op, c->n));
    if (uses_scratch(c->op)) c->scratch = below(4) == 0 ? make_room(9 * c->n + 128) : 9 * c->n + 128 + below(4);
}

/* ---- what is due */

static void due_start(void) {
    size_t nodes = nodes_of(g.cells);
    due.told = (struct told){0, 0, 0, 0, 0};
    if (nodes == 0)
        due.told.number = 8, due.told.detail = 1;
    else if (g.limit_a > nodes - 1 || g.limit_b > nodes - 1 - g.limit_a)
        due.told.number = 12;
    if (due.told.number != 0) return;
    memset(due.pool, 0, 32 * nodes);
    uint32_t roots[8] = {1, 1, 0, (uint32_t)(g.limit_a + 1), 1, 1, 0, (uint32_t)(g.limit_b + 1)};
    memcpy(due.pool, roots, sizeof roots);
}

/* A call on the plant's words alone, in a plain pool of its limit and a root. */
static void due_alone(uint32_t *plain, size_t cells) {
    if (is_image()) {
        struct told *t = &due.told;
        if (g.op == PLANT_READ_IMAGE)
            t->number = fetlockice_read_image(plain, cells, g.image, g.size, &t->count, &t->detail);
        else
            t->number = fetlockice_write_image(plain, cells, due.image, g.room, &t->count, &t->detail);
        return;
    }
    g.call.pool = plain, g.call.cells = cells;
    struct answer a = call_twice(&g.call);
    due.told = (struct told){a.number, a.count, a.word_class, a.edges, a.detail};
    due.out = a.out;
    if (changes_pool()) memcpy(plain, a.pool, 4 * cells);
}

/* The refusals 2 to 4, or what the plant by itself answers; the other half stays. */
static void due_call(uint32_t *plain, size_t cells, int passes) {
    due.told = (struct told){0, 0, 0, 0, 0};
    struct refusal r = is_image() || g.op == PLANT_WORD_COUNT ? (struct refusal){0, 0} : text_refusal(g.text, g.call.n);
    if (r.number == 0 && !passes) r = (struct refusal){4, 0};
    if (r.number != 0) {
        due.told.number = r.number, due.told.detail = r.detail;
        return;
    }
    due_alone(plain, cells);
    if (due.told.number == 0 && changes_pool()) put_half(due.pool, plain, g.plant_b, cells / 8);
}

/* ---- the calls */

/* The numbers that a call sets, with guards between them. */
struct numbers {
    size_t guard0, count, guard1, word_class, guard2, edges, guard3, detail, guard4;
};

/* word_count as a caller sees it that leaves anything in the register above the byte of plant_b. */
typedef uint32_t wide_word_count(const uint32_t *, size_t, uint64_t, size_t *, size_t *);

static uint32_t count_words(const uint32_t *pool, struct numbers *to) {
    wide_word_count *wide = (wide_word_count *)(void (*)(void))fetlockice_plant_word_count;
    if (below(2) == 0) return wide(pool, g.cells, draw() << 8 | g.plant_b, &to->count, &to->detail);
    return fetlockice_plant_word_count(pool, g.cells, g.plant_b, &to->count, &to->detail);
}

typedef uint32_t plant_cut(const uint32_t *, size_t, const uint32_t *, size_t, bool, uint32_t *, size_t, uint32_t *,
                           size_t, size_t *, size_t *, size_t *);

static uint32_t exported(void *text, uint32_t *pool, void *out, uint32_t *scratch, struct numbers *to) {
    static plant_cut *const cuts[] = {fetlockice_plant_cut_plain,    fetlockice_plant_cut_safe,
                                      fetlockice_plant_cut_sheet,    fetlockice_plant_reasons_plain,
                                      fetlockice_plant_reasons_safe, fetlockice_plant_reasons_sheet};
    const struct call *c = &g.call;
    size_t *count = &to->count, *detail = &to->detail;
    switch (g.op) {
    case PLANTS_START: return fetlockice_plants_start(pool, g.cells, g.limit_a, g.limit_b, count, detail);
    case PLANT_ADD: return fetlockice_plant_add(pool, g.cells, g.plant_b, text, c->n, c->word_class, count, detail);
    case PLANT_REMOVE: return fetlockice_plant_remove(pool, g.cells, g.plant_b, text, c->n, count, detail);
    case PLANT_CONTAINS:
        return fetlockice_plant_contains(pool, g.cells, g.plant_b, text, c->n, count, &to->word_class, detail);
    case PLANT_PREFIX_LENGTHS:
        return fetlockice_plant_prefix_lengths(pool, g.cells, g.plant_b, text, c->n, out, c->room, count, detail);
    case PLANT_WORD_COUNT: return count_words(pool, to);
    case PLANT_READ_IMAGE: return fetlockice_plant_read_image(pool, g.cells, g.plant_b, text, g.size, count, detail);
    case PLANT_WRITE_IMAGE: return fetlockice_plant_write_image(pool, g.cells, g.plant_b, out, g.room, count, detail);
    default:
        return cuts[g.op - PLANT_CUT_PLAIN](text, c->n, pool, g.cells, g.plant_b, out, c->room, scratch, c->scratch,
                                            count, &to->edges, detail);
    }
}

static struct told call(struct plant_rows *rows) {
    const struct call *c = &g.call;
    int reads = g.op == PLANT_READ_IMAGE, writes = g.op == PLANT_WRITE_IMAGE;
    uint32_t *pool = lend(&rows->pool, g.pool, 4 * g.cells);
    void *text = lend(&rows->text, reads ? (void *)g.image : (void *)g.text, reads ? g.size : 4 * c->n);
    void *out = lend(&rows->out, NULL, writes ? g.room : 4 * c->room);
    uint32_t *scratch = lend(&rows->scratch, NULL, 4 * c->scratch);
    struct numbers before = {draw(), draw(), draw(), draw(), draw(), draw(), draw(), draw(), draw()}, after = before;
    calls++;
    plant_calls[g.op]++;
    uint32_t number = exported(text, pool, out, scratch, &after);
    int class_told = g.op == PLANT_CONTAINS, edges_told = g.op >= PLANT_CUT_PLAIN && g.op <= PLANT_REASONS_SHEET;
    must(after.guard0 == before.guard0 && after.guard1 == before.guard1 && after.guard2 == before.guard2 &&
             after.guard3 == before.guard3 && after.guard4 == before.guard4,
         "a guard between two numbers was written");
    must(class_told || after.word_class == before.word_class, "a class was told of where none is");
    must(edges_told || after.edges == before.edges, "edges were told of where none are");
    return (struct told){number, after.count, class_told ? after.word_class : 0, edges_told ? after.edges : 0,
                         after.detail};
}

static int all_zero(const struct row *row) {
    for (size_t i = 0; i < row->size; i++)
        if (row->lent[i] != 0) return 0;
    return 1;
}

static void check(const struct told *t, const struct plant_rows *rows) {
    const struct told *d = &due.told;
    must(t->number == d->number && t->detail == d->detail, "another refusal of a plant than is due");
    must(t->count == d->count && t->word_class == d->word_class && t->edges == d->edges,
         "another answer than the plant by itself has");
    size_t bytes = t->number != 0 ? 0 : g.op == PLANT_WRITE_IMAGE ? t->count : 4 * cells_of(g.call.op, t->count);
    if (!writes_output(g.call.op) && g.op != PLANT_WRITE_IMAGE) bytes = 0;
    check_kept(&rows->text, 0, "a text or an image was written");
    check_kept(&rows->out, bytes, "an output was written that must be kept");
    const void *wanted = g.op == PLANT_WRITE_IMAGE ? (const void *)due.image : (const void *)due.out;
    must(bytes == 0 || memcmp(rows->out.lent, wanted, bytes) == 0, "another output than the plant by itself has");
    check_kept(&rows->pool, changes_pool() ? 4 * g.cells : 0, "a pool was written that must be kept");
    must(g.cells == 0 || memcmp(rows->pool.lent, due.pool, 4 * g.cells) == 0, "other cells than the plants have");
    int cleared = (t->number == 0 || t->number == 6) && uses_scratch(g.call.op);
    check_kept(&rows->scratch, cleared ? rows->scratch.size : 0, "scratch was written that must be kept");
    must(!cleared || all_zero(&rows->scratch), "scratch isn't zero");
    plants_refused += t->number != 0;
}

/* Plain calls refuse a pool of two plants with 4, but for those that a text is refused before. */
static void plain_call(void) {
    static const enum op plain[] = {ADD,           ADD_CLASS,  REMOVE,   CONTAINS,  CONTAINS_CLASS, PREFIX_LENGTHS,
                                    WORD_COUNT,    CUT_PLAIN,  CUT_SAFE, CUT_SHEET, REASONS_PLAIN,  REASONS_SAFE,
                                    REASONS_SHEET, CHECK_CLAIM};
    struct call c = {
        .op = plain[below(sizeof plain / sizeof *plain)], .text = g.text, .pool = g.pool, .cells = g.cells};
    c.claim = g.text;
    if (c.op != WORD_COUNT) c.n = make_word(g.text);
    struct refusal r = c.op == WORD_COUNT ? (struct refusal){0, 0} : text_refusal(g.text, c.n);
    struct answer a = call_twice(&c);
    must(r.number != 0 ? a.number == r.number && a.detail == r.detail : a.number == 4,
         "a plain call takes a pool of plants");
}

void plant_step(void) {
    static struct plant_rows rows[2];
    static uint32_t plain[POOL_ROOM];
    make_plants();
    int passes = is_plants(g.pool, g.cells);
    must(taken == NULL || passes, "a pool of the run isn't one of two plants");
    if (passes && below(12) == 0) {
        plain_call();
        return;
    }
    do g.op = (enum plant_op)below(PLANT_OPS);
    while (g.op == PLANTS_START && below(4) != 0);
    if (g.op == PLANTS_START && below(6) == 0) g.cells = below(12), passes = 0, taken = NULL;
    g.plant_b = below(2) == 0;
    size_t cells = passes ? plant_alone(plain, g.pool, g.plant_b) : 0;
    memcpy(due.pool, g.pool, 4 * g.cells);
    make_rows(plain, passes);
    if (g.op == PLANT_READ_IMAGE) make_image();
    if (g.op == PLANT_WRITE_IMAGE) g.room = make_room(below(400));
    if (g.op == PLANTS_START) {
        make_limits();
        due_start();
    } else {
        due_call(plain, cells, passes);
    }
    for (int k = 0; k < 2; k++) {
        struct told t = call(&rows[k]);
        check(&t, &rows[k]);
    }
    /* a start ends a plant's words: most of the run's pools go on without it */
    if (taken != NULL && due.told.number == 0 && (g.op != PLANTS_START || below(8) == 0))
        memcpy(taken->cells, due.pool, 4 * g.cells);
}
