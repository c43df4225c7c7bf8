#include "many.h"
#include "../include/fetlockice.h"
#include "calls.h"
#include "inputs.h"
#include "model.h"
#include "plants.h"
#include "rows.h"
#include <stdbool.h>
#include <string.h>

#define TEXTS 7

unsigned long many_calls[MANY_OPS][MODES], many_refused;

struct many {
    enum many_op op;
    enum mode mode;
    bool plant_b;
    int is_dict; /* the pool is a dictionary, or one of two plants for a plant's call */
    size_t texts_len, text_count, cells, answers, room, scratch;
    uint32_t texts[TEXTS * TEXT_ROOM + 4], text_ends[TEXTS], pool[POOL_ROOM];
    uint32_t words[POOL_ROOM]; /* a plain pool of the words that the texts are cut by */
    size_t words_cells;
};

struct many_rows {
    struct row texts, text_ends, pool, answers, out, scratch;
};

static struct many m;
static struct many_rows rows[2];

static int is_plants_call(void) { return m.op == PLANT_CUT_MANY || m.op == PLANT_REASONS_MANY; }

/* The call for one text, in the same mode. */
static enum op single(void) {
    return (m.op == REASONS_MANY || m.op == PLANT_REASONS_MANY ? REASONS_PLAIN : CUT_PLAIN) + (enum op)m.mode;
}

/* Seven texts at most, some of them empty, and something behind the last one. */
static void make_texts(void) {
    size_t count = below(TEXTS + 1), longest = 0;
    m.texts_len = 0;
    for (m.text_count = 0; m.text_count < count; m.text_count++) {
        size_t n = make_sheet(m.texts + m.texts_len, m.words, m.is_dict);
        m.text_ends[m.text_count] = (uint32_t)(m.texts_len += n);
        if (longest < n && n <= FETLOCKICE_MAX_SCALARS && below(4) != 0) longest = n;
    }
    size_t all = cells_of(single(), m.texts_len), most = ROW_BYTES / 4 - 256;
    m.room = below(3) == 0 ? make_room(all) : all / (1 + below(3)) + below(4);
    if (m.room > most) m.room = most;
    m.scratch = below(6) == 0 ? make_room(9 * longest + 128) : 9 * longest + 128 + below(3);
    m.answers = below(6) == 0 ? make_room(4 * count) : 4 * count + below(3);
    for (size_t k = below(4); k > 0; k--) m.texts[m.texts_len++] = (uint32_t)draw();
}

static void make_words(void) {
    if (is_plants_call()) {
        m.cells = make_shared(m.pool);
        m.is_dict = is_plants(m.pool, m.cells);
        m.words_cells = m.is_dict ? plant_alone(m.words, m.pool, m.plant_b) : 0;
        return;
    }
    m.cells = m.words_cells = below(12) == 0 ? make_shared(m.pool) : make_pool(m.pool);
    m.is_dict = is_dictionary(m.pool, m.cells);
    memcpy(m.words, m.pool, 4 * m.cells);
}

static void make_many(void) {
    m.op = (enum many_op)below(MANY_OPS);
    m.mode = (enum mode)below(MODES);
    m.plant_b = below(2) == 0;
    make_words();
    make_texts();
    if (m.text_count == 0 || below(8) != 0) return;
    uint32_t *end = m.text_ends + below(m.text_count);
    *end = below(3) == 0 ? (uint32_t)draw() : below(2) == 0 ? (uint32_t)m.texts_len + 1 : *end - (*end > 0);
}

/* 10, then 6. */
static struct refusal whole_refusal(void) {
    for (size_t i = 0; i < m.text_count; i++)
        if (m.text_ends[i] > m.texts_len || (i > 0 && m.text_ends[i] < m.text_ends[i - 1]))
            return (struct refusal){10, i};
    size_t needed = 4 * m.text_count;
    return (struct refusal){m.answers < needed ? 6 : 0, m.answers < needed ? needed : 0};
}

typedef uint32_t many_call(const uint32_t *, size_t, const uint32_t *, size_t, const uint32_t *, size_t, uint32_t *,
                           size_t, uint32_t *, size_t, uint32_t *, size_t, size_t *, size_t *);
typedef uint32_t plant_many_call(const uint32_t *, size_t, const uint32_t *, size_t, const uint32_t *, size_t, bool,
                                 uint32_t *, size_t, uint32_t *, size_t, uint32_t *, size_t, size_t *, size_t *);

static uint32_t exported(const uint32_t *texts, const uint32_t *text_ends, const uint32_t *pool, uint32_t *answers,
                         uint32_t *out, uint32_t *scratch, size_t *count, size_t *detail) {
    static many_call *const by_pool[][MODES] = {
        {fetlockice_cut_many_plain, fetlockice_cut_many_safe, fetlockice_cut_many_sheet},
        {fetlockice_reasons_many_plain, fetlockice_reasons_many_safe, fetlockice_reasons_many_sheet}};
    static plant_many_call *const by_plant[][MODES] = {
        {fetlockice_plant_cut_many_plain, fetlockice_plant_cut_many_safe, fetlockice_plant_cut_many_sheet},
        {fetlockice_plant_reasons_many_plain, fetlockice_plant_reasons_many_safe, fetlockice_plant_reasons_many_sheet}};
    if (is_plants_call())
        return by_plant[m.op - PLANT_CUT_MANY][m.mode](texts, m.texts_len, text_ends, m.text_count, pool, m.cells,
                                                       m.plant_b, answers, m.answers, out, m.room, scratch, m.scratch,
                                                       count, detail);
    return by_pool[m.op][m.mode](texts, m.texts_len, text_ends, m.text_count, pool, m.cells, answers, m.answers, out,
                                 m.room, scratch, m.scratch, count, detail);
}

static uint32_t call_once(struct many_rows *r, size_t *count, size_t *detail) {
    uint32_t *texts = lend(&r->texts, m.texts, 4 * m.texts_len);
    uint32_t *text_ends = lend(&r->text_ends, m.text_ends, 4 * m.text_count);
    uint32_t *pool = lend(&r->pool, m.pool, 4 * m.cells);
    uint32_t *answers = lend(&r->answers, NULL, 4 * m.answers);
    uint32_t *out = lend(&r->out, NULL, 4 * m.room);
    uint32_t *scratch = lend(&r->scratch, NULL, 4 * m.scratch);
    size_t numbers[5] = {draw(), draw(), draw(), draw(), draw()}, before[5];
    memcpy(before, numbers, sizeof before);
    calls++;
    many_calls[m.op][m.mode]++;
    uint32_t number = exported(texts, text_ends, pool, answers, out, scratch, &numbers[1], &numbers[3]);
    must(numbers[0] == before[0] && numbers[2] == before[2] && numbers[4] == before[4], "a guard was written");
    check_kept(&r->texts, 0, "texts were written");
    check_kept(&r->text_ends, 0, "text ends were written");
    check_kept(&r->pool, 0, "a pool was written that must be kept");
    *count = numbers[1];
    *detail = numbers[3];
    return number;
}

/* The refusal of a text, 6 left out. */
static struct refusal text_due(const uint32_t *text, size_t n) {
    struct refusal r = text_refusal(text, n);
    if (r.number != 0) return r;
    if (!m.is_dict) return (struct refusal){4, 0};
    if (m.scratch < 9 * n + 128) return (struct refusal){5, 9 * n + 128};
    return r;
}

static void check_cells(const uint32_t *told, size_t number, size_t count, size_t edges, size_t detail) {
    must(told[0] == number && told[1] == count && told[2] == edges && told[3] == detail,
         "a text is told otherwise than by itself");
}

/* Text by text; gives the cells that were written, and whether a text came past refusal 5. */
static size_t check_texts(const uint32_t *answers, const uint32_t *out, int *past) {
    size_t used = 0, start = 0;
    for (size_t i = 0; i < m.text_count; i++) {
        const uint32_t *text = m.texts + start, *told = answers + 4 * i;
        size_t n = m.text_ends[i] - start;
        struct refusal r = text_due(text, n);
        start = m.text_ends[i];
        if (r.number != 0) {
            check_cells(told, r.number, 0, 0, r.detail);
            continue;
        }
        struct call one = {.op = single(), .text = text, .n = n, .pool = m.words};
        one.cells = m.words_cells, one.room = m.room - used, one.scratch = m.scratch;
        struct answer a = call_twice(&one);
        size_t cells = cells_of(one.op, a.count);
        check_cells(told, a.number, a.count, a.edges, a.detail);
        must(memcmp(out + used, a.out, 4 * cells) == 0, "a text's ends or pairs aren't those that it has by itself");
        used += cells;
        *past = 1;
    }
    return used;
}

static void check_scratch(const struct row *scratch, int past) {
    if (!past) {
        check_kept(scratch, 0, "scratch was written that must be kept");
        return;
    }
    check_kept(scratch, scratch->size, "");
    for (size_t i = 0; i < scratch->size; i++) must(scratch->lent[i] == 0, "scratch isn't all zero");
}

void many_step(void) {
    size_t count[2], detail[2];
    make_many();
    struct refusal due = whole_refusal();
    for (int k = 0; k < 2; k++) {
        struct many_rows *r = &rows[k];
        uint32_t number = call_once(r, &count[k], &detail[k]);
        must(number == due.number && detail[k] == due.detail, "another refusal of the whole call than is due");
        must(count[k] == (number == 0 ? m.text_count : 0), "the number of texts is wrong");
        int past = 0;
        size_t used = number == 0 ? check_texts((uint32_t *)r->answers.lent, (uint32_t *)r->out.lent, &past) : 0;
        check_kept(&r->answers, number == 0 ? 16 * m.text_count : 0, "answers were written that must be kept");
        check_kept(&r->out, 4 * used, "an output was written that must be kept");
        check_scratch(&r->scratch, past);
        many_refused += number != 0;
    }
}
