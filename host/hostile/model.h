/* What the rules say of a call's refusal, written from the rules and docs/POOL.md, apart from the library. */
#ifndef MODEL_H
#define MODEL_H

#include <stddef.h>
#include <stdint.h>

struct refusal {
    uint32_t number; /* 0: none of those that were asked about */
    size_t detail;
};

/* The number of scalars of UTF-8 bytes and their values, by the C library's iconv; 1 or 2 where they are refused. */
struct refusal utf8_refusal(const uint8_t *bytes, size_t size, uint32_t *scalars, size_t room, size_t *count);

/* How many bytes the UTF-8 of a scalar has. */
size_t utf8_size(uint32_t scalar);

int is_scalar(uint32_t x);

/* One of Unicode's White_Space, which trimming strips. */
int is_blank(uint32_t x);

/* 2 and 3. */
struct refusal text_refusal(const uint32_t *text, size_t n);

/* The rules of a pool hold. */
int is_dictionary(const uint32_t *pool, size_t cells);

size_t nodes_of(size_t cells);

/* Where a word starts and ends after trimming. */
void trimmed(const uint32_t *word, size_t n, size_t *start, size_t *end);

/* How many nodes of a dictionary a word lacks, and its mark: 0 where it isn't held, else its class and one. */
size_t lacking(const uint32_t *pool, const uint32_t *word, size_t n, uint32_t *mark);

/* The first token of a claim that is wrong, or -1: of ends for the plain cut of a text by the words of a dictionary.
 * `is_end` has a flag for each position of the text: whether a cluster ends there. */
long wrong_token(const uint32_t *text, size_t n, const unsigned char *is_end, const uint32_t *pool,
                 const uint32_t *claim, size_t ends);

/* Why the token from b to e of such a text ends there: 1 to 5. */
uint32_t reason_of(const uint32_t *text, size_t n, const unsigned char *is_end, const uint32_t *pool, size_t b,
                   size_t e);

/* How many words a dictionary has, and the sum of their marks. */
size_t words_of(const uint32_t *pool);
uint64_t marks_of(const uint32_t *pool);

#endif
