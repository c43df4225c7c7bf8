/* Wrong libraries: each FAULT changes one function a little, from outside. The run must find every one. Those of the
 * calls with many texts are in faults_many.c. */
#include "../include/fetlockice.h"

#define CUT                                                                                                            \
    const uint32_t *text, size_t n, const uint32_t *pool, size_t cells, uint32_t *out, size_t room, uint32_t *scratch, \
        size_t len, size_t *count, size_t *edges, size_t *detail
#define CUT_WITH text, n, pool, cells, out, room, scratch, len, count, edges, detail
#define FEED uint64_t *figures, CUT
#define FEED_WITH figures, CUT_WITH
#define CLAIM                                                                                                          \
    const uint32_t *text, size_t n, const uint32_t *pool, size_t cells, const uint32_t *claim, size_t ends,            \
        uint32_t *scratch, size_t len, size_t *right, size_t *token, size_t *detail
#define CLAIM_WITH text, n, pool, cells, claim, ends, scratch, len, right, token, detail
#define PLANT_CUT                                                                                                      \
    const uint32_t *text, size_t n, const uint32_t *pool, size_t cells, bool plant_b, uint32_t *out, size_t room,      \
        uint32_t *scratch, size_t len, size_t *count, size_t *edges, size_t *detail
#define PLANT_CUT_OF(plant) text, n, pool, cells, plant, out, room, scratch, len, count, edges, detail

uint32_t __real_fetlockice_decode(const uint8_t *, size_t, uint32_t *, size_t, uint32_t *, size_t, size_t *, size_t *);
uint32_t __real_fetlockice_end_in_bytes(const uint32_t *, size_t, size_t, size_t, size_t *, size_t *);
uint32_t __real_fetlockice_clusters(const uint32_t *, size_t, uint32_t *, size_t, size_t *, size_t *);
uint32_t __real_fetlockice_winners(const uint32_t *, size_t, uint32_t *, size_t, uint32_t *, size_t, size_t *,
                                   size_t *);
uint32_t __real_fetlockice_fresh(uint32_t *, size_t, size_t *, size_t *);
uint32_t __real_fetlockice_add(uint32_t *, size_t, const uint32_t *, size_t, size_t *, size_t *);
uint32_t __real_fetlockice_add_class(uint32_t *, size_t, const uint32_t *, size_t, uint16_t, size_t *, size_t *);
uint32_t __real_fetlockice_remove(uint32_t *, size_t, const uint32_t *, size_t, size_t *, size_t *);
uint32_t __real_fetlockice_contains(const uint32_t *, size_t, const uint32_t *, size_t, size_t *, size_t *);
uint32_t __real_fetlockice_contains_class(const uint32_t *, size_t, const uint32_t *, size_t, size_t *, size_t *,
                                          size_t *);
uint32_t __real_fetlockice_prefix_lengths(const uint32_t *, size_t, const uint32_t *, size_t, uint32_t *, size_t,
                                          size_t *, size_t *);
uint32_t __real_fetlockice_word_count(const uint32_t *, size_t, size_t *, size_t *);
uint32_t __real_fetlockice_read_image(uint32_t *, size_t, const uint8_t *, size_t, size_t *, size_t *);
uint32_t __real_fetlockice_write_image(const uint32_t *, size_t, uint8_t *, size_t, size_t *, size_t *);
uint32_t __real_fetlockice_cut_plain(CUT);
uint32_t __real_fetlockice_cut_safe(CUT);
uint32_t __real_fetlockice_cut_sheet(CUT);
uint32_t __real_fetlockice_reasons_plain(CUT);
uint32_t __real_fetlockice_reasons_safe(CUT);
uint32_t __real_fetlockice_reasons_sheet(CUT);
uint32_t __real_fetlockice_feed_plain(FEED);
uint32_t __real_fetlockice_feed_safe(FEED);
uint32_t __real_fetlockice_feed_sheet(FEED);
uint32_t __real_fetlockice_feed_refused(uint64_t *, uint32_t, size_t *);
uint32_t __real_fetlockice_join_figures(uint64_t *, const uint64_t *, size_t *);
uint32_t __real_fetlockice_check_claim(CLAIM);
uint32_t __real_fetlockice_break_map(size_t, const uint32_t *, size_t, uint64_t *, size_t, size_t *, size_t *);
uint32_t __real_fetlockice_breaks_up_to(size_t, const uint64_t *, size_t, size_t, size_t *, size_t *);
uint32_t __real_fetlockice_next_break(size_t, const uint64_t *, size_t, size_t, size_t *, size_t *, size_t *);
uint32_t __real_fetlockice_plants_start(uint32_t *, size_t, size_t, size_t, size_t *, size_t *);
uint32_t __real_fetlockice_plant_add(uint32_t *, size_t, bool, const uint32_t *, size_t, uint16_t, size_t *, size_t *);
uint32_t __real_fetlockice_plant_remove(uint32_t *, size_t, bool, const uint32_t *, size_t, size_t *, size_t *);
uint32_t __real_fetlockice_plant_contains(const uint32_t *, size_t, bool, const uint32_t *, size_t, size_t *, size_t *,
                                          size_t *);
uint32_t __real_fetlockice_plant_prefix_lengths(const uint32_t *, size_t, bool, const uint32_t *, size_t, uint32_t *,
                                                size_t, size_t *, size_t *);
uint32_t __real_fetlockice_plant_word_count(const uint32_t *, size_t, bool, size_t *, size_t *);
uint32_t __real_fetlockice_plant_cut_plain(PLANT_CUT);
uint32_t __real_fetlockice_plant_cut_safe(PLANT_CUT);
uint32_t __real_fetlockice_plant_cut_sheet(PLANT_CUT);
uint32_t __real_fetlockice_plant_reasons_plain(PLANT_CUT);
uint32_t __real_fetlockice_plant_reasons_safe(PLANT_CUT);
uint32_t __real_fetlockice_plant_reasons_sheet(PLANT_CUT);
uint32_t __real_fetlockice_plant_read_image(uint32_t *, size_t, bool, const uint8_t *, size_t, size_t *, size_t *);
uint32_t __real_fetlockice_plant_write_image(const uint32_t *, size_t, bool, uint8_t *, size_t, size_t *, size_t *);

/* 1: the detail of a refusal is one too high; 40: the position of the end is left out; 41: the position row is looked at
 * first; 42: a position row that is too short is written as far as it goes */
uint32_t __wrap_fetlockice_decode(const uint8_t *bytes, size_t n, uint32_t *out, size_t room, uint32_t *positions,
                                  size_t places, size_t *count, size_t *detail) {
    uint32_t old = places > 0 ? positions[places - 1] : 0;
    uint32_t number = __real_fetlockice_decode(bytes, n, out, room, positions, places, count, detail);
    if (FAULT == 1 && number != 0) *detail += 1;
    if (FAULT == 40 && number == 0 && *count + 1 == places) positions[places - 1] = old;
    if (FAULT == 41 && number == FETLOCKICE_OUTPUT_TOO_SHORT && room < *detail && places <= *detail) *detail += 1;
    if (FAULT == 42 && number == FETLOCKICE_OUTPUT_TOO_SHORT && places > 0) positions[0] = 0;
    return number;
}

/* 43: an end over n has a place where the row has a cell; 44: a cell behind the row is read; 45: no place is told as the
 * number that was there */
uint32_t __wrap_fetlockice_end_in_bytes(const uint32_t *positions, size_t places, size_t n, size_t end, size_t *found,
                                        size_t *at) {
    size_t old = *at;
    if (FAULT == 44) (void)*(const volatile uint32_t *)(positions + places);
    uint32_t number = __real_fetlockice_end_in_bytes(positions, places, FAULT == 43 ? (size_t)-1 : n, end, found, at);
    if (FAULT == 45 && *found == 0) *at = old;
    return number;
}

/* 2: a refused call writes to the output */
uint32_t __wrap_fetlockice_clusters(const uint32_t *text, size_t n, uint32_t *out, size_t room, size_t *count,
                                    size_t *detail) {
    uint32_t number = __real_fetlockice_clusters(text, n, out, room, count, detail);
    if (FAULT == 2 && number != 0 && room > 0) out[room - 1] ^= 1;
    return number;
}

/* 37: a shortened cluster is told as won by none; 38: the ends are written where the second row is too short; 39: a call
 * that is refused for the second row tells of one cell more */
uint32_t __wrap_fetlockice_winners(const uint32_t *text, size_t n, uint32_t *ends, size_t ends_len, uint32_t *winners,
                                   size_t winners_len, size_t *count, size_t *detail) {
    uint32_t number = __real_fetlockice_winners(text, n, ends, ends_len, winners, winners_len, count, detail);
    if (FAULT == 37 && number == 0)
        for (size_t i = 0; i + 1 < *count; i++)
            if ((winners[i] == 6 || winners[i] == 7) && winners[i + 1] == 0) winners[i] = 0;
    int second = number == FETLOCKICE_OUTPUT_TOO_SHORT && ends_len >= *detail;
    if (FAULT == 38 && second) ends[0] ^= 1;
    if (FAULT == 39 && second) *detail += 1;
    return number;
}

/* 3: a cell of the pool keeps what it held */
uint32_t __wrap_fetlockice_fresh(uint32_t *pool, size_t cells, size_t *count, size_t *detail) {
    uint32_t old = cells >= 8 ? pool[7] : 0, number = __real_fetlockice_fresh(pool, cells, count, detail);
    if (FAULT == 3 && number == 0) pool[7] = old;
    return number;
}

/* Whether a call of contains says that the word is held, as it is. */
static int is_held(const uint32_t *pool, size_t cells, const uint32_t *word, size_t n) {
    size_t count, detail;
    return __real_fetlockice_contains(pool, cells, word, n, &count, &detail) == 0 && count == 1;
}

/* 4: a refused call writes to the pool; 22: a held word keeps its class, and nothing is reported */
uint32_t __wrap_fetlockice_add(uint32_t *pool, size_t cells, const uint32_t *word, size_t n, size_t *count,
                               size_t *detail) {
    if (FAULT == 22 && is_held(pool, cells, word, n)) return *count = *detail = 0;
    uint32_t number = __real_fetlockice_add(pool, cells, word, n, count, detail);
    if (FAULT == 4 && number == FETLOCKICE_TOO_FEW_NODES) pool[cells - 1] ^= 1;
    return number;
}

/* 23: a class has eight bits; 24: a held word's class is replaced and nothing is reported; 25: a held word is refused
 * where no node is free */
uint32_t __wrap_fetlockice_add_class(uint32_t *pool, size_t cells, const uint32_t *word, size_t n, uint16_t word_class,
                                     size_t *count, size_t *detail) {
    int held = is_held(pool, cells, word, n);
    if (FAULT == 25 && held && pool[0] == cells / 8) return *count = 0, *detail = 1, FETLOCKICE_TOO_FEW_NODES;
    uint16_t given = FAULT == 23 ? word_class & 0xFF : word_class;
    uint32_t number = __real_fetlockice_add_class(pool, cells, word, n, given, count, detail);
    if (FAULT == 24 && held) *count = 0;
    return number;
}

/* 5: a cell behind the last whole node is written; 26: another word loses its class */
uint32_t __wrap_fetlockice_remove(uint32_t *pool, size_t cells, const uint32_t *word, size_t n, size_t *count,
                                  size_t *detail) {
    uint32_t number = __real_fetlockice_remove(pool, cells, word, n, count, detail);
    if (FAULT == 5 && number == 0 && cells % 8 != 0) pool[cells - 1] ^= 1;
    if (FAULT == 26 && number == 0 && *count == 1 && pool[0] > 1 && pool[11] > 1) pool[11] = 1;
    return number;
}

/* 6: a cell behind the pool is read */
uint32_t __wrap_fetlockice_contains(const uint32_t *pool, size_t cells, const uint32_t *word, size_t n, size_t *count,
                                    size_t *detail) {
    if (FAULT == 6) (void)*(const volatile uint32_t *)(pool + cells);
    return __real_fetlockice_contains(pool, cells, word, n, count, detail);
}

/* 27: the mark is told for the class; 28: a word that isn't held has a class; 29: a refused call tells none */
uint32_t __wrap_fetlockice_contains_class(const uint32_t *pool, size_t cells, const uint32_t *word, size_t n,
                                          size_t *count, size_t *word_class, size_t *detail) {
    size_t old = *word_class;
    uint32_t number = __real_fetlockice_contains_class(pool, cells, word, n, count, word_class, detail);
    if (FAULT == 27 && number == 0 && *count == 1) *word_class += 1;
    if (FAULT == 28 && number == 0 && *count == 0) *word_class = 1;
    if (FAULT == 29 && number != 0) *word_class = old;
    return number;
}

/* 7: a refused call tells of a count */
uint32_t __wrap_fetlockice_prefix_lengths(const uint32_t *pool, size_t cells, const uint32_t *text, size_t n,
                                          uint32_t *out, size_t room, size_t *count, size_t *detail) {
    uint32_t number = __real_fetlockice_prefix_lengths(pool, cells, text, n, out, room, count, detail);
    if (FAULT == 7 && number == FETLOCKICE_OUTPUT_TOO_SHORT) *count = *detail;
    return number;
}

/* 8: the count depends on what it was before */
uint32_t __wrap_fetlockice_word_count(const uint32_t *pool, size_t cells, size_t *count, size_t *detail) {
    size_t old = *count;
    uint32_t number = __real_fetlockice_word_count(pool, cells, count, detail);
    if (FAULT == 8 && number == 0) *count += old & 1;
    return number;
}

/* 9: a cell behind the output is written; 30: a class counts as an edge */
uint32_t __wrap_fetlockice_cut_plain(CUT) {
    if (FAULT == 9) out[room] = 0;
    uint32_t number = __real_fetlockice_cut_plain(CUT_WITH);
    if (FAULT == 30 && number == 0 && n > 0 && pool[0] > 1 && pool[11] > 1) *edges += 1;
    return number;
}

/* 10: a cell of scratch is left as it was; 11: an edge too many; 12: scratch is cleared before it is refused */
uint32_t __wrap_fetlockice_cut_safe(CUT) {
    uint32_t old = len > 0 ? scratch[len - 1] : 0, number = __real_fetlockice_cut_safe(CUT_WITH);
    if (FAULT == 10 && number == 0) scratch[len - 1] = old;
    if (FAULT == 11 && number == 0) *edges += 1;
    if (FAULT == 12 && number == FETLOCKICE_SCRATCH_TOO_SHORT && len > 0) scratch[0] = 0;
    return number;
}

/* 13: the profile "sheet" is safe mode */
uint32_t __wrap_fetlockice_cut_sheet(CUT) {
    if (FAULT == 13) return __real_fetlockice_cut_safe(CUT_WITH);
    return __real_fetlockice_cut_sheet(CUT_WITH);
}

/* 14: a claim that stops short is right; 15: a cell behind the claim is read; 16: the token behind is named */
uint32_t __wrap_fetlockice_check_claim(CLAIM) {
    if (FAULT == 15) (void)*(const volatile uint32_t *)(claim + ends);
    uint32_t number = __real_fetlockice_check_claim(CLAIM_WITH);
    if (FAULT == 14 && number == 0 && *right == 0 && *token == ends) *right = 1, *token = 0;
    if (FAULT == 16 && number == 0 && *right == 0) *token += 1;
    return number;
}

/* 31: the cell behind the map is cleared; 32: an end that equals the one before it is taken for it */
uint32_t __wrap_fetlockice_break_map(size_t n, const uint32_t *ends, size_t ends_len, uint64_t *map, size_t map_len,
                                     size_t *count, size_t *detail) {
    uint32_t number = __real_fetlockice_break_map(n, ends, ends_len, map, map_len, count, detail);
    if (FAULT == 31 && number == 0 && map_len > *count) map[*count] = 0;
    if (FAULT == 32 && number == FETLOCKICE_WRONG_POSITION && *detail > 0 && ends[*detail] == ends[*detail - 1])
        return __real_fetlockice_break_map(n, ends, *detail, map, map_len, count, detail);
    return number;
}

/* 33: the position itself is left out; 34: the lowest bit above n is named by its place in the cell */
uint32_t __wrap_fetlockice_breaks_up_to(size_t n, const uint64_t *map, size_t map_len, size_t position, size_t *count,
                                        size_t *detail) {
    uint32_t number = __real_fetlockice_breaks_up_to(n, map, map_len, position, count, detail);
    if (FAULT == 33 && number == 0) *count -= map[position / 64] >> position % 64 & 1;
    if (FAULT == 34 && number == FETLOCKICE_BIT_ABOVE_END) *detail %= 64;
    return number;
}

/* 35: a break at the position itself is found; 36: a cell behind the map is read */
uint32_t __wrap_fetlockice_next_break(size_t n, const uint64_t *map, size_t map_len, size_t position, size_t *found,
                                      size_t *at, size_t *detail) {
    if (FAULT == 36) (void)*(const volatile uint64_t *)(map + map_len);
    uint32_t number = __real_fetlockice_next_break(n, map, map_len, position, found, at, detail);
    if (FAULT == 35 && number == 0 && (map[position / 64] >> position % 64 & 1) != 0) *found = 1, *at = position;
    return number;
}

/* 46: "to a non-Thai run" wherever the search stops at a word; 47: the last cell of an odd row is written */
uint32_t __wrap_fetlockice_reasons_plain(CUT) {
    uint32_t number = __real_fetlockice_reasons_plain(CUT_WITH);
    for (size_t i = 0; FAULT == 46 && number == 0 && i < *count; i++)
        if (out[2 * i + 1] == FETLOCKICE_TO_WORD) out[2 * i + 1] = FETLOCKICE_TO_NON_THAI;
    if (FAULT == 47 && number == 0 && room % 2 == 1) out[room - 1] ^= 1;
    return number;
}

/* 48: "to the end" of the text alone; 49: refusal 6 counts cells */
uint32_t __wrap_fetlockice_reasons_safe(CUT) {
    uint32_t number = __real_fetlockice_reasons_safe(CUT_WITH);
    for (size_t i = 0; FAULT == 48 && number == 0 && i + 1 < *count; i++)
        if (out[2 * i + 1] == FETLOCKICE_TO_END) out[2 * i + 1] = FETLOCKICE_TO_NON_THAI;
    if (FAULT == 49 && number == FETLOCKICE_OUTPUT_TOO_SHORT) *detail *= 2;
    return number;
}

/* 50: the profile "sheet" is safe mode */
uint32_t __wrap_fetlockice_reasons_sheet(CUT) {
    if (FAULT == 50) return __real_fetlockice_reasons_safe(CUT_WITH);
    return __real_fetlockice_reasons_sheet(CUT_WITH);
}

/* 51: a refused text adds its characters; 52: tokens that are skipped to a word count as skipped to a run */
uint32_t __wrap_fetlockice_feed_plain(FEED) {
    uint64_t to_word = figures[FETLOCKICE_TOKENS_TO_WORD];
    uint32_t number = __real_fetlockice_feed_plain(FEED_WITH);
    if (FAULT == 51 && number >= 2 && number <= 6) figures[FETLOCKICE_CHARACTERS] += n;
    if (FAULT == 52 && number == 0) {
        figures[FETLOCKICE_TOKENS_TO_NON_THAI] += figures[FETLOCKICE_TOKENS_TO_WORD] - to_word;
        figures[FETLOCKICE_TOKENS_TO_WORD] = to_word;
    }
    return number;
}

/* 53: the most edges are a sum; 54: the pairs are written before the figures are looked at */
uint32_t __wrap_fetlockice_feed_safe(FEED) {
    uint64_t most = figures[FETLOCKICE_MOST_EDGES];
    uint32_t number = __real_fetlockice_feed_safe(FEED_WITH);
    if (FAULT == 53 && number == 0) figures[FETLOCKICE_MOST_EDGES] = most + *edges;
    if (FAULT == 54 && number == FETLOCKICE_FIGURES_FULL) {
        __real_fetlockice_reasons_safe(CUT_WITH);
        *count = *edges = *detail = 0;
    }
    return number;
}

/* 55: the profile "sheet" is safe mode; 56: scratch is cleared where 13 is given before 2 to 5 */
uint32_t __wrap_fetlockice_feed_sheet(FEED) {
    if (FAULT == 55) return __real_fetlockice_feed_safe(FEED_WITH);
    uint32_t number = __real_fetlockice_feed_sheet(FEED_WITH);
    for (size_t i = 0; FAULT == 56 && number == FETLOCKICE_FIGURES_FULL && i < len; i++) scratch[i] = 0;
    return number;
}

/* 57: a number that is no text's counts a text; 58: one text more than the most is counted */
uint32_t __wrap_fetlockice_feed_refused(uint64_t *figures, uint32_t refused, size_t *detail) {
    uint32_t number = __real_fetlockice_feed_refused(figures, refused, detail);
    if (FAULT == 57 && (refused < 1 || refused > 6)) figures[FETLOCKICE_TEXTS]++;
    if (FAULT == 58 && number == FETLOCKICE_FIGURES_FULL && figures[FETLOCKICE_TEXTS] == UINT32_MAX) {
        figures[FETLOCKICE_TEXTS]++;
        return 0;
    }
    return number;
}

/* 59: texts refused with 6 are left out; 60: the most edges are those of the batch; 61: what comes before the figure that
 * is full is joined */
uint32_t __wrap_fetlockice_join_figures(uint64_t *figures, const uint64_t *more, size_t *detail) {
    uint64_t last = figures[FETLOCKICE_REFUSED_OUTPUT_TOO_SHORT];
    uint32_t number = __real_fetlockice_join_figures(figures, more, detail);
    if (FAULT == 59 && number == 0) figures[FETLOCKICE_REFUSED_OUTPUT_TOO_SHORT] = last;
    if (FAULT == 60 && number == 0) figures[FETLOCKICE_MOST_EDGES] = more[FETLOCKICE_MOST_EDGES];
    if (FAULT == 61 && number != 0 && figures[FETLOCKICE_TEXTS] + more[FETLOCKICE_TEXTS] <= UINT32_MAX)
        figures[FETLOCKICE_TEXTS] += more[FETLOCKICE_TEXTS];
    return number;
}

/* 62: a class has eight bits; 63: what stands behind the last record is left out; 64: a call that is refused with 8 has
 * emptied the pool; 65: the words that are held count for 8; 66: 9 names the place behind the record's length; 67: a
 * byte behind the image is read */
uint32_t __wrap_fetlockice_read_image(uint32_t *pool, size_t cells, const uint8_t *image, size_t size, size_t *count,
                                      size_t *detail) {
    if (FAULT == 67) (void)*(const volatile uint8_t *)(image + size);
    uint32_t held = cells > 0 ? pool[0] : 0;
    uint32_t number = __real_fetlockice_read_image(pool, cells, image, size, count, detail);
    for (size_t i = 1; FAULT == 62 && number == 0 && i < pool[0]; i++)
        if (pool[8 * i + 3] > 256) pool[8 * i + 3] = 1 + (pool[8 * i + 3] - 1) % 256;
    if (FAULT == 63 && number == FETLOCKICE_BAD_IMAGE && *detail > 0) {
        size_t at = *detail;
        if (__real_fetlockice_read_image(pool, cells, image, at, count, detail) == 0) return 0;
        *count = 0, *detail = at;
    }
    if (FAULT == 64 && number == FETLOCKICE_TOO_FEW_NODES) {
        size_t none, nothing;
        __real_fetlockice_fresh(pool, cells, &none, &nothing);
    }
    if (FAULT == 65 && number == FETLOCKICE_TOO_FEW_NODES) *detail += held - 1;
    if (FAULT == 66 && number == FETLOCKICE_BAD_IMAGE) *detail += 4;
    return number;
}

/* 68: a class has its high byte first; 69: refusal 6 leaves the last record out; 70: a byte behind the image is written */
uint32_t __wrap_fetlockice_write_image(const uint32_t *pool, size_t cells, uint8_t *out, size_t room, size_t *count,
                                       size_t *detail) {
    uint32_t number = __real_fetlockice_write_image(pool, cells, out, room, count, detail);
    if (FAULT == 68 && number == 0 && *count > 10) {
        uint8_t low = out[6];
        out[6] = out[7], out[7] = low;
    }
    if (FAULT == 69 && number == FETLOCKICE_OUTPUT_TOO_SHORT) *detail -= 10;
    if (FAULT == 70 && number == 0 && *count < room) out[*count] ^= 1;
    return number;
}

/* 71: limits that sum to the pool's nodes are taken; 72: limits are looked at before the cells; 73: a refused start ends
 * what was there; 74: limits whose sum wraps are taken for their sum */
uint32_t __wrap_fetlockice_plants_start(uint32_t *pool, size_t cells, size_t limit_a, size_t limit_b, size_t *count,
                                        size_t *detail) {
    uint32_t number = __real_fetlockice_plants_start(pool, cells, limit_a, limit_b, count, detail);
    size_t nodes = cells / 8;
    if (FAULT == 71 && number == FETLOCKICE_LIMITS_TOO_LARGE && limit_a <= nodes && limit_b == nodes - limit_a &&
        limit_a > 0) {
        number = __real_fetlockice_plants_start(pool, cells, limit_a - 1, limit_b, count, detail);
        pool[3] += 1;
    }
    if (FAULT == 72 && number == FETLOCKICE_TOO_FEW_NODES && limit_a > 0)
        return *detail = 0, FETLOCKICE_LIMITS_TOO_LARGE;
    if (FAULT == 73 && number == FETLOCKICE_LIMITS_TOO_LARGE) {
        size_t none, nothing;
        __real_fetlockice_fresh(pool, cells, &none, &nothing);
    }
    if (FAULT == 74 && number == FETLOCKICE_LIMITS_TOO_LARGE && limit_a + limit_b < limit_a)
        return __real_fetlockice_plants_start(pool, cells, 0, limit_a + limit_b, count, detail);
    return number;
}

/* 75: 8 looks at the pool's nodes; 76: 8 counts the root; 77: the other plant gets the word, too; 78: a class has eight
 * bits; 79: a held word is refused at the limit */
uint32_t __wrap_fetlockice_plant_add(uint32_t *pool, size_t cells, bool plant_b, const uint32_t *word, size_t n,
                                     uint16_t word_class, size_t *count, size_t *detail) {
    uint16_t given = FAULT == 78 ? word_class & 0xFF : word_class;
    size_t none, nothing, at = plant_b ? 4 : 0, held = 0;
    if (FAULT == 79) __real_fetlockice_plant_contains(pool, cells, plant_b, word, n, &held, &none, &nothing);
    if (held == 1 && pool[at] == pool[at + 3]) return *count = 0, *detail = 1, FETLOCKICE_TOO_FEW_NODES;
    uint32_t number = __real_fetlockice_plant_add(pool, cells, plant_b, word, n, given, count, detail);
    if (FAULT == 75 && number == FETLOCKICE_TOO_FEW_NODES && pool[at] + n < cells / 8) {
        uint32_t room = pool[at + 3], other = pool[4 - at + 3];
        pool[at + 3] = room + (uint32_t)*detail, pool[4 - at + 3] = pool[4 - at];
        uint32_t again = __real_fetlockice_plant_add(pool, cells, plant_b, word, n, given, &none, &nothing);
        pool[at + 3] = room, pool[4 - at + 3] = other;
        if (again == 0) return *count = none, *detail = 0;
    }
    if (FAULT == 76 && number == FETLOCKICE_TOO_FEW_NODES) *detail += 1;
    if (FAULT == 77 && number == 0) __real_fetlockice_plant_add(pool, cells, !plant_b, word, n, given, &none, &nothing);
    return number;
}

/* 80: a word that the plant doesn't hold is removed from the other; 81: a cell behind the last whole node is written */
uint32_t __wrap_fetlockice_plant_remove(uint32_t *pool, size_t cells, bool plant_b, const uint32_t *word, size_t n,
                                        size_t *count, size_t *detail) {
    uint32_t number = __real_fetlockice_plant_remove(pool, cells, plant_b, word, n, count, detail);
    if (FAULT == 80 && number == 0 && *count == 0)
        return __real_fetlockice_plant_remove(pool, cells, !plant_b, word, n, count, detail);
    if (FAULT == 81 && number == 0 && cells % 8 != 0) pool[cells - 1] ^= 1;
    return number;
}

/* 82: the other plant's class is told where the word is in both; 83: a word of either plant is held */
uint32_t __wrap_fetlockice_plant_contains(const uint32_t *pool, size_t cells, bool plant_b, const uint32_t *word,
                                          size_t n, size_t *count, size_t *word_class, size_t *detail) {
    size_t held = 0, other = 0, nothing;
    if (FAULT == 82 || FAULT == 83)
        __real_fetlockice_plant_contains(pool, cells, !plant_b, word, n, &held, &other, &nothing);
    uint32_t number = __real_fetlockice_plant_contains(pool, cells, plant_b, word, n, count, word_class, detail);
    if (FAULT == 82 && number == 0 && *count == 1 && held == 1) *word_class = other;
    if (FAULT == 83 && number == 0 && *count == 0) *count = held, *word_class = other;
    return number;
}

/* 84: the words of the other plant */
uint32_t __wrap_fetlockice_plant_prefix_lengths(const uint32_t *pool, size_t cells, bool plant_b, const uint32_t *text,
                                                size_t n, uint32_t *out, size_t room, size_t *count, size_t *detail) {
    return __real_fetlockice_plant_prefix_lengths(pool, cells, FAULT == 84 ? !plant_b : plant_b, text, n, out, room,
                                                  count, detail);
}

/* 85: the words of both; 86: a plain pool has the words of plant A */
uint32_t __wrap_fetlockice_plant_word_count(const uint32_t *pool, size_t cells, bool plant_b, size_t *count,
                                            size_t *detail) {
    size_t other = 0, nothing;
    if (FAULT == 85) __real_fetlockice_plant_word_count(pool, cells, !plant_b, &other, &nothing);
    uint32_t number = __real_fetlockice_plant_word_count(pool, cells, plant_b, count, detail);
    if (FAULT == 85 && number == 0) *count += other;
    if (FAULT == 86 && number != 0 && !plant_b) return __real_fetlockice_word_count(pool, cells, count, detail);
    return number;
}

/* 87: by the words of the other plant */
uint32_t __wrap_fetlockice_plant_cut_plain(PLANT_CUT) {
    return __real_fetlockice_plant_cut_plain(PLANT_CUT_OF(FAULT == 87 ? !plant_b : plant_b));
}

/* 88: a plain pool is cut by; 89: scratch is cleared before 4 is given */
uint32_t __wrap_fetlockice_plant_cut_safe(PLANT_CUT) {
    uint32_t number = __real_fetlockice_plant_cut_safe(PLANT_CUT_OF(plant_b));
    if (FAULT == 88 && number == FETLOCKICE_NOT_A_DICTIONARY) return __real_fetlockice_cut_safe(CUT_WITH);
    if (FAULT == 89 && number == FETLOCKICE_NOT_A_DICTIONARY && len > 0) scratch[0] = 0;
    return number;
}

/* 90: the profile "sheet" is safe mode */
uint32_t __wrap_fetlockice_plant_cut_sheet(PLANT_CUT) {
    if (FAULT == 90) return __real_fetlockice_plant_cut_safe(PLANT_CUT_OF(plant_b));
    return __real_fetlockice_plant_cut_sheet(PLANT_CUT_OF(plant_b));
}

/* 91: by the words of the other plant */
uint32_t __wrap_fetlockice_plant_reasons_plain(PLANT_CUT) {
    return __real_fetlockice_plant_reasons_plain(PLANT_CUT_OF(FAULT == 91 ? !plant_b : plant_b));
}

/* 92: refusal 6 counts cells */
uint32_t __wrap_fetlockice_plant_reasons_safe(PLANT_CUT) {
    uint32_t number = __real_fetlockice_plant_reasons_safe(PLANT_CUT_OF(plant_b));
    if (FAULT == 92 && number == FETLOCKICE_OUTPUT_TOO_SHORT) *detail *= 2;
    return number;
}

/* 93: the profile "sheet" is safe mode */
uint32_t __wrap_fetlockice_plant_reasons_sheet(PLANT_CUT) {
    if (FAULT == 93) return __real_fetlockice_plant_reasons_safe(PLANT_CUT_OF(plant_b));
    return __real_fetlockice_plant_reasons_sheet(PLANT_CUT_OF(plant_b));
}

/* 94: the other plant's words are replaced; 95: 8 counts the root; 96: the plant's limit is what it needs then */
uint32_t __wrap_fetlockice_plant_read_image(uint32_t *pool, size_t cells, bool plant_b, const uint8_t *image,
                                            size_t size, size_t *count, size_t *detail) {
    bool given = FAULT == 94 ? !plant_b : plant_b;
    uint32_t number = __real_fetlockice_plant_read_image(pool, cells, given, image, size, count, detail);
    if (FAULT == 95 && number == FETLOCKICE_TOO_FEW_NODES) *detail += 1;
    if (FAULT == 96 && number == 0) pool[plant_b ? 7 : 3] = pool[plant_b ? 4 : 0];
    return number;
}

/* 97: the image of the other plant; 98: a byte behind the image is written */
uint32_t __wrap_fetlockice_plant_write_image(const uint32_t *pool, size_t cells, bool plant_b, uint8_t *out,
                                             size_t room, size_t *count, size_t *detail) {
    bool given = FAULT == 97 ? !plant_b : plant_b;
    uint32_t number = __real_fetlockice_plant_write_image(pool, cells, given, out, room, count, detail);
    if (FAULT == 98 && number == 0 && *count < room) out[*count] ^= 1;
    return number;
}
