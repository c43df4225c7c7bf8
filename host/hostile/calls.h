/* The exported functions, called with guarded rows and held to what every call must keep. */
#ifndef CALLS_H
#define CALLS_H

#include <stddef.h>
#include <stdint.h>

enum op {
    DECODE,
    END_IN_BYTES,
    CLUSTERS,
    WINNERS,
    FRESH,
    ADD,
    ADD_CLASS,
    REMOVE,
    CONTAINS,
    CONTAINS_CLASS,
    PREFIX_LENGTHS,
    WORD_COUNT,
    CUT_PLAIN,
    CUT_SAFE,
    CUT_SHEET,
    REASONS_PLAIN,
    REASONS_SAFE,
    REASONS_SHEET,
    CHECK_CLAIM,
    OPS
};

struct call {
    enum op op;
    const void *text; /* bytes, text, word or a position row, and their number */
    size_t n;
    uint16_t word_class; /* that add_class gives; 0 for others */
    const uint32_t *pool;
    size_t cells;
    size_t room;    /* output cells */
    size_t more;    /* cells of the second output: positions, or winners */
    size_t scratch; /* scratch cells */
    const uint32_t *claim;
    size_t ends;            /* its length */
    size_t characters, end; /* of an end in bytes: n, and the end */
};

struct answer {
    uint32_t number;
    size_t count, word_class, edges, detail; /* of a claim: right, 0, token, detail; of an end: found, 0, at, 0 */
    const uint32_t *out;                     /* the outputs and the pool, for as long as four more pairs of calls */
    const uint32_t *more;
    const uint32_t *pool;
};

int writes_output(enum op op);
int writes_pool(enum op op);
int adds(enum op op);
int cuts(enum op op);
int tells_reasons(enum op op);
int uses_scratch(enum op op);

/* The cut in the same mode. */
enum op cut_of(enum op op);

/* How many output cells a count takes: two where reasons are told. */
size_t cells_of(enum op op, size_t count);

/* Calls twice, with different leftovers in output, scratch and numbers and at different places. Everything that must be
 * kept was, and the two answers are equal, bit by bit. */
struct answer call_twice(const struct call *call);

/* How many calls each function had. */
extern unsigned long calls_of[OPS];

#endif
