/* Wrong libraries for the calls with many texts: each FAULT changes one function a little, from outside. */
#include "../include/fetlockice.h"

#define MANY                                                                                                           \
    const uint32_t *texts, size_t n, const uint32_t *text_ends, size_t text_count, const uint32_t *pool, size_t cells, \
        uint32_t *answers, size_t told, uint32_t *out, size_t room, uint32_t *scratch, size_t len, size_t *count,      \
        size_t *detail
#define MANY_WITH texts, n, text_ends, text_count, pool, cells, answers, told, out, room, scratch, len, count, detail

#define PLANT_MANY                                                                                                     \
    const uint32_t *texts, size_t n, const uint32_t *text_ends, size_t text_count, const uint32_t *pool, size_t cells, \
        bool plant_b, uint32_t *answers, size_t told, uint32_t *out, size_t room, uint32_t *scratch, size_t len,       \
        size_t *count, size_t *detail
#define PLANT_MANY_OF(plant)                                                                                           \
    texts, n, text_ends, text_count, pool, cells, plant, answers, told, out, room, scratch, len, count, detail

uint32_t __real_fetlockice_word_count(const uint32_t *, size_t, size_t *, size_t *);
uint32_t __real_fetlockice_cut_many_plain(MANY);
uint32_t __real_fetlockice_cut_many_safe(MANY);
uint32_t __real_fetlockice_cut_many_sheet(MANY);
uint32_t __real_fetlockice_reasons_many_plain(MANY);
uint32_t __real_fetlockice_reasons_many_safe(MANY);
uint32_t __real_fetlockice_reasons_many_sheet(MANY);
uint32_t __real_fetlockice_plant_cut_many_plain(PLANT_MANY);
uint32_t __real_fetlockice_plant_cut_many_safe(PLANT_MANY);
uint32_t __real_fetlockice_plant_cut_many_sheet(PLANT_MANY);
uint32_t __real_fetlockice_plant_reasons_many_plain(PLANT_MANY);
uint32_t __real_fetlockice_plant_reasons_many_safe(PLANT_MANY);
uint32_t __real_fetlockice_plant_reasons_many_sheet(PLANT_MANY);

/* 17: a call that is refused as a whole writes an answer; 18: the detail of a refused text is one too high */
uint32_t __wrap_fetlockice_cut_many_plain(MANY) {
    uint32_t number = __real_fetlockice_cut_many_plain(MANY_WITH);
    if (FAULT == 17 && number == FETLOCKICE_WRONG_POSITION && told > 0) answers[0] ^= 1;
    if (FAULT == 18 && number == 0 && text_count > 0 && answers[0] != 0) answers[3] += 1;
    return number;
}

/* 19: a cell of scratch is left as it was; 20: an end of the second text is counted from the row's start */
uint32_t __wrap_fetlockice_cut_many_safe(MANY) {
    uint32_t old = len > 0 ? scratch[len - 1] : 0, number = __real_fetlockice_cut_many_safe(MANY_WITH);
    if (FAULT == 19 && number == 0 && text_count > 0 && answers[0] == 0) scratch[len - 1] = old;
    if (FAULT == 20 && number == 0 && text_count > 1 && answers[5] > 0) out[answers[1]] += text_ends[0];
    return number;
}

/* 21: the profile "sheet" is safe mode */
uint32_t __wrap_fetlockice_cut_many_sheet(MANY) {
    if (FAULT == 21) return __real_fetlockice_cut_many_safe(MANY_WITH);
    return __real_fetlockice_cut_many_sheet(MANY_WITH);
}

/* 99: the count of a text is that of its cells; 100: 6 of a text counts cells; 101: the last cell of an odd row is
 * written */
uint32_t __wrap_fetlockice_reasons_many_plain(MANY) {
    uint32_t number = __real_fetlockice_reasons_many_plain(MANY_WITH);
    for (size_t i = 0; number == 0 && i < text_count; i++) {
        if (FAULT == 99) answers[4 * i + 1] *= 2;
        if (FAULT == 100 && answers[4 * i] == FETLOCKICE_OUTPUT_TOO_SHORT) answers[4 * i + 3] *= 2;
    }
    if (FAULT == 101 && number == 0 && room % 2 == 1) out[room - 1] ^= 1;
    return number;
}

/* 102: an end of the second text is counted from the row's start; 103: its first reason is that of the first text's */
uint32_t __wrap_fetlockice_reasons_many_safe(MANY) {
    uint32_t number = __real_fetlockice_reasons_many_safe(MANY_WITH);
    if (number != 0 || text_count < 2 || answers[5] == 0) return number;
    if (FAULT == 102) out[2 * answers[1]] += text_ends[0];
    if (FAULT == 103) out[2 * answers[1] + 1] = out[1];
    return number;
}

/* 104: the profile "sheet" is safe mode */
uint32_t __wrap_fetlockice_reasons_many_sheet(MANY) {
    if (FAULT == 104) return __real_fetlockice_reasons_many_safe(MANY_WITH);
    return __real_fetlockice_reasons_many_sheet(MANY_WITH);
}

/* 105: by the words of the other plant; 106: a plain pool is cut by */
uint32_t __wrap_fetlockice_plant_cut_many_plain(PLANT_MANY) {
    size_t none, nothing;
    if (FAULT == 106 && __real_fetlockice_word_count(pool, cells, &none, &nothing) == 0)
        return __real_fetlockice_cut_many_plain(MANY_WITH);
    return __real_fetlockice_plant_cut_many_plain(PLANT_MANY_OF(FAULT == 105 ? !plant_b : plant_b));
}

/* 107: scratch is cleared before 4 is given; 108: a call that is refused as a whole writes an answer */
uint32_t __wrap_fetlockice_plant_cut_many_safe(PLANT_MANY) {
    uint32_t number = __real_fetlockice_plant_cut_many_safe(PLANT_MANY_OF(plant_b));
    if (FAULT == 107 && number == 0 && text_count > 0 && answers[0] == FETLOCKICE_NOT_A_DICTIONARY && len > 0)
        scratch[0] = 0;
    if (FAULT == 108 && number == FETLOCKICE_WRONG_POSITION && told > 0) answers[0] ^= 1;
    return number;
}

/* 109: the profile "sheet" is safe mode; 110: a cell behind the ends is written */
uint32_t __wrap_fetlockice_plant_cut_many_sheet(PLANT_MANY) {
    if (FAULT == 109) return __real_fetlockice_plant_cut_many_safe(PLANT_MANY_OF(plant_b));
    uint32_t number = __real_fetlockice_plant_cut_many_sheet(PLANT_MANY_OF(plant_b));
    size_t used = 0;
    for (size_t i = 0; number == 0 && i < text_count; i++) used += answers[4 * i + 1];
    if (FAULT == 110 && number == 0 && used < room) out[used] ^= 1;
    return number;
}

/* 111: by the words of the other plant */
uint32_t __wrap_fetlockice_plant_reasons_many_plain(PLANT_MANY) {
    return __real_fetlockice_plant_reasons_many_plain(PLANT_MANY_OF(FAULT == 111 ? !plant_b : plant_b));
}

/* 112: 6 of a text counts cells; 113: a text end behind the last one is read */
uint32_t __wrap_fetlockice_plant_reasons_many_safe(PLANT_MANY) {
    if (FAULT == 113) (void)*(const volatile uint32_t *)(text_ends + text_count);
    uint32_t number = __real_fetlockice_plant_reasons_many_safe(PLANT_MANY_OF(plant_b));
    for (size_t i = 0; FAULT == 112 && number == 0 && i < text_count; i++)
        if (answers[4 * i] == FETLOCKICE_OUTPUT_TOO_SHORT) answers[4 * i + 3] *= 2;
    return number;
}

/* 114: the profile "sheet" is safe mode */
uint32_t __wrap_fetlockice_plant_reasons_many_sheet(PLANT_MANY) {
    if (FAULT == 114) return __real_fetlockice_plant_reasons_many_safe(PLANT_MANY_OF(plant_b));
    return __real_fetlockice_plant_reasons_many_sheet(PLANT_MANY_OF(plant_b));
}
