/* Inputs that nobody should send. */
#ifndef INPUTS_H
#define INPUTS_H

#include <stddef.h>
#include <stdint.h>

#define TEXT_ROOM 65540 /* a little more than a text may have */
#define POOL_ROOM 40000

/* A dictionary that the run keeps and changes, of a capacity of its own. */
struct living {
    uint32_t cells[POOL_ROOM];
    size_t length;
};
#define LIVING 12
extern struct living living[LIVING];

/* The one that make_pool gave, NULL where it gave none as it is. */
extern struct living *drawn;

/* Each fills a row and gives its length. */
size_t make_text(uint32_t *text);
size_t make_word(uint32_t *word);
size_t make_sheet(uint32_t *text, const uint32_t *pool, int is_dictionary);
size_t make_bytes(uint8_t *bytes);
size_t make_positions(uint32_t *row);
size_t make_pool(uint32_t *pool);

/* A claim for a text of n characters: some ends as they are, or a little damaged, or anything. */
size_t make_claim(uint32_t *claim, const uint32_t *ends, size_t count, size_t n);

/* A class: the least and the largest ones more often than others. */
uint16_t make_class(void);

/* Gives each word of a dictionary any class. */
void reclass(uint32_t *pool);

/* A length of 0, 1, about the one needed, or any up to twice that. */
size_t make_room(size_t needed);

/* A number about the one given, or any. */
size_t make_number(size_t near);

#endif
