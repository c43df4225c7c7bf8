/* Rows lent with guards around them. */
#ifndef ROWS_H
#define ROWS_H

#include <stddef.h>
#include <stdint.h>

/* The next of a run's random numbers, and one below n. */
extern uint64_t seed;
uint64_t draw(void);
size_t below(size_t n);

/* Stops the run: prints what isn't as it must be, with the seed and the call that show it. */
extern unsigned long calls;
void must(int holds, const char *what);

/* The longest row: twice the scratch of the longest text, and the guards. */
#define ROW_BYTES ((size_t)5 << 20)

struct row {
    unsigned char *area;   /* ROW_BYTES between two pages that nobody may touch */
    unsigned char *lent;   /* what the library is given */
    unsigned char *before; /* what it held then, guards included */
    unsigned char *heap;   /* where it is a block by itself */
    size_t size;           /* in bytes */
    size_t low, high;      /* guard bytes before and after it */
};

/* Places a row of that many bytes: against the page before or behind it, where even a read past it is a trap; or
 * between guard cells; or as a block of the heap, whose edges valgrind and the address sanitizer know. It holds the
 * content, or noise where that is NULL. */
void *lend(struct row *row, const void *content, size_t size);

/* The same at a multiple of so many bytes, which the size is one of; 4 where nothing is said. */
void *lend_at(struct row *row, const void *content, size_t size, size_t unit);

/* The guards are untouched, and so are the row's bytes from the first one given on. */
void check_kept(const struct row *row, size_t from, const char *what);

#endif
