#include "maps.h"
#include "../include/fetlockice.h"
#include "model.h"
#include "rows.h"
#include <string.h>

/* More than the longest map, and more ends than a text has. */
#define MAP_ROOM 1040
#define ENDS_ROOM 70000

unsigned long map_calls[MAP_OPS], map_refused;

/* What a call is given: the ends are those of a map that is written, the cells and the position of one that is asked. */
struct given {
    enum map_op op;
    size_t n, ends_len, cells, position;
    uint32_t ends[ENDS_ROOM];
    uint64_t map[MAP_ROOM];
};

struct told {
    uint32_t number;
    size_t first, second, detail; /* count; or found and at */
};

static struct given g;
static unsigned char is_break[FETLOCKICE_MAX_SCALARS + 66];

/* Lengths near a cell's edge, now and then near the longest text, near the largest number, and any. */
static size_t make_length(void) {
    switch (below(64)) {
    case 0: return FETLOCKICE_MAX_SCALARS - below(130);
    case 1: return FETLOCKICE_MAX_SCALARS + 1 + below(70);
    case 2: return SIZE_MAX - below(200);
    case 3: return below(FETLOCKICE_MAX_SCALARS);
    default: return below(3) == 0 ? below(3) : below(2) == 0 ? 64 * below(5) + 62 + below(4) : below(400);
    }
}

/* As many cells as the map takes, or a few less or more. */
static size_t make_cells(void) {
    size_t needed = g.n <= FETLOCKICE_MAX_SCALARS ? g.n / 64 + 1 : below(MAP_ROOM - 4);
    if (below(6) == 0) return below(needed + 1);
    return needed + below(4);
}

/* Ends that rise, some of them near one another, and now and then one that is wrong. */
static void make_ends(void) {
    size_t end = 0, step = 1 + below(below(2) == 0 ? 4 : 200);
    g.ends_len = 0;
    while (g.ends_len < ENDS_ROOM / 2) {
        end += 1 + below(step);
        if (end > g.n || below(2000) == 0) break;
        g.ends[g.ends_len++] = (uint32_t)end;
    }
    if (below(3) != 0) return;
    if (g.ends_len == 0 || below(8) == 0) {
        g.ends[g.ends_len++] = below(2) == 0 ? (uint32_t)(g.n + below(2)) : (uint32_t)draw();
        return;
    }
    uint32_t *wrong = g.ends + below(g.ends_len);
    *wrong = below(3) == 0   ? (uint32_t)below(2)
             : below(3) == 0 ? (uint32_t)draw()
             : below(2) == 0 ? (uint32_t)(g.n + 1)
                             : wrong[wrong > g.ends ? -1 : 0];
}

/* Cells with many bits, few or none; those above n mostly clear. */
static void make_map(void) {
    unsigned kind = (unsigned)below(4);
    for (size_t i = 0; i < g.cells; i++)
        g.map[i] = kind == 0 ? 0 : kind == 1 ? draw() : below(4) == 0 ? (uint64_t)1 << below(64) : 0;
    size_t last = g.n / 64, bits = g.n % 64;
    if (g.n > FETLOCKICE_MAX_SCALARS || last >= g.cells || bits == 63 || below(5) == 0) return;
    g.map[last] &= ((uint64_t)2 << bits) - 1;
    if (below(8) == 0) g.map[last] |= (uint64_t)1 << (bits + 1 + below(63 - bits));
}

static void make(void) {
    g.op = (enum map_op)below(MAP_OPS);
    g.n = make_length();
    g.cells = make_cells();
    g.position = below(g.n == SIZE_MAX ? g.n : g.n + 1);
    if (below(4) == 0) g.position = below(3) == 0 ? (size_t)draw() : g.n + below(2);
    if (g.op == BREAK_MAP)
        make_ends();
    else
        make_map();
}

/* ---- what the rules say, position by position */

static size_t needed(size_t n) {
    size_t cells = 0;
    while (64 * cells < n + 1) cells++;
    return cells;
}

static struct refusal due(void) {
    if (g.n > FETLOCKICE_MAX_SCALARS) return (struct refusal){2, g.n};
    size_t cells = needed(g.n);
    if (g.cells < cells) return (struct refusal){6, cells};
    if (g.op == BREAK_MAP) {
        for (size_t i = 0; i < g.ends_len; i++)
            if (g.ends[i] == 0 || g.ends[i] > g.n || (i > 0 && g.ends[i] <= g.ends[i - 1]))
                return (struct refusal){10, i};
        return (struct refusal){0, 0};
    }
    if (g.position > g.n) return (struct refusal){10, g.position};
    for (size_t p = g.n + 1; p < 64 * cells; p++)
        if ((g.map[p / 64] >> p % 64 & 1) != 0) return (struct refusal){11, p};
    return (struct refusal){0, 0};
}

/* A flag for each position of the cells that the map takes. */
static void mark(void) {
    memset(is_break, 0, 64 * needed(g.n));
    if (g.op == BREAK_MAP) {
        for (size_t i = 0; i < g.ends_len; i++) is_break[g.ends[i]] = 1;
        return;
    }
    for (size_t p = 0; p <= g.n; p++) is_break[p] = (unsigned char)(g.map[p / 64] >> p % 64 & 1);
}

static void check_written(const uint64_t *map) {
    for (size_t p = 0; p < 64 * needed(g.n); p++)
        must((map[p / 64] >> p % 64 & 1) == is_break[p], "a bit of a map is wrong");
}

static void check_told(const struct told *t) {
    size_t count = 0, next = g.position + 1;
    if (g.op == BREAK_MAP) {
        must(t->first == needed(g.n), "the cells of a map are wrong");
        return;
    }
    for (size_t p = 0; p <= g.position; p++) count += is_break[p];
    while (next <= g.n && !is_break[next]) next++;
    if (g.op == BREAKS_UP_TO)
        must(t->first == count, "the number of breaks is wrong");
    else
        must(t->first == (next <= g.n) && t->second == (next <= g.n ? next : 0), "the next break is wrong");
}

/* ---- the calls */

static struct told call(struct row *ends, struct row *map) {
    size_t numbers[7] = {draw(), draw(), draw(), draw(), draw(), draw(), draw()}, before[7];
    uint32_t *ends_row = lend(ends, g.ends, g.op == BREAK_MAP ? 4 * g.ends_len : 0), number;
    uint64_t *map_row = lend_at(map, g.op == BREAK_MAP ? NULL : g.map, 8 * g.cells, 8);
    size_t *first = &numbers[1], *second = &numbers[3], *detail = &numbers[5];
    memcpy(before, numbers, sizeof before);
    calls++;
    map_calls[g.op]++;
    if (g.op == BREAK_MAP)
        number = fetlockice_break_map(g.n, ends_row, g.ends_len, map_row, g.cells, first, detail);
    else if (g.op == BREAKS_UP_TO)
        number = fetlockice_breaks_up_to(g.n, map_row, g.cells, g.position, first, detail);
    else
        number = fetlockice_next_break(g.n, map_row, g.cells, g.position, first, second, detail);
    for (size_t i = 0; i < 7; i += 2) must(numbers[i] == before[i], "a guard between two numbers was written");
    must(g.op == NEXT_BREAK || *second == before[3], "a number was set that the call has not");
    return (struct told){number, *first, g.op == NEXT_BREAK ? *second : 0, *detail};
}

static void check_call(struct row *ends, struct row *map) {
    struct refusal r = due();
    struct told t = call(ends, map);
    must(t.number == r.number && t.detail == r.detail, "another refusal of a map than is due");
    must(t.number == 0 || (t.first == 0 && t.second == 0), "a number isn't 0 that must be");
    check_kept(ends, 0, "ends were written");
    check_kept(map, g.op == BREAK_MAP && t.number == 0 ? 8 * needed(g.n) : 0, "a map was written that must be kept");
    map_refused += t.number != 0;
    if (t.number != 0) return;
    mark();
    check_told(&t);
    if (g.op == BREAK_MAP) check_written((const uint64_t *)(const void *)map->lent);
}

void map_step(void) {
    static struct row ends[2], map[2];
    make();
    for (int k = 0; k < 2; k++) check_call(&ends[k], &map[k]);
}
