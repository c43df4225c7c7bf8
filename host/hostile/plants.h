/* Two plants in one pool, held to two separate pools: each plant's half as a plain pool of its limit and a root. */
#ifndef PLANTS_H
#define PLANTS_H

#include <stdbool.h>
#include <stddef.h>
#include <stdint.h>

/* Pools of two plants, which the run keeps and changes. To be called once, before the steps. */
void start_plants(void);

/* One call of a plant, a start, or a plain call on a pool of two plants. Each is made twice, with different leftovers and
 * at different places, and held to what the plain call on that plant's words alone answers and leaves. */
void plant_step(void);

/* Fills a row with a pool of two plants, or with one that is damaged or none; its length. */
size_t make_shared(uint32_t *pool);

/* Each half is a dictionary within its limit, and the limits fit. */
int is_plants(const uint32_t *pool, size_t cells);

/* A plant's words as a plain pool of its limit and a root, of a pool that two plants share; its length. */
size_t plant_alone(uint32_t *plain, const uint32_t *pool, bool plant_b);

enum plant_op {
    PLANTS_START,
    PLANT_ADD,
    PLANT_REMOVE,
    PLANT_CONTAINS,
    PLANT_PREFIX_LENGTHS,
    PLANT_WORD_COUNT,
    PLANT_CUT_PLAIN,
    PLANT_CUT_SAFE,
    PLANT_CUT_SHEET,
    PLANT_REASONS_PLAIN,
    PLANT_REASONS_SAFE,
    PLANT_REASONS_SHEET,
    PLANT_READ_IMAGE,
    PLANT_WRITE_IMAGE,
    PLANT_OPS
};

/* How many calls each function had, and how many were refused. */
extern unsigned long plant_calls[PLANT_OPS], plants_refused;

#endif
