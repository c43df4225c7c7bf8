/* Fetlockice: a Thai word cutter whose every answer is proved. C99 and C++.
 *
 * Every call answers for any bytes, scalars, pool and scratch: 0 if it was accepted, else the number of the refusal. It
 * also sets, in every case, each number that a pointer at the end of its parameters leads to:
 *
 *   *count       accepted: the count that the call tells of; refused: 0
 *   *word_class  accepted: the class of a word that is held, 0 for another; refused: 0
 *   *edges       accepted: the edges recorded in the whole cut; refused: 0
 *   *right, *token  of a claim: 1 and 0 if it is right; 0 and the first token that is wrong; refused: 0 and 0
 *   *found, *at     of a next break: 1 and where it is; 0 and 0 if there is none; refused: 0 and 0. Of an end in bytes:
 *                   1 and the end; 0 and 0 where it has none
 *   *detail      accepted: 0; refused: the refusal's detail, below
 *
 * Lent memory. A row that a call takes as const is only read. A refused call changes no output and no pool. An
 * accepted one writes the first *count cells of the output, and *count + 1 of the positions, and keeps the rest. Scratch
 * is untouched after refusals 2 to 5, and all zero after refusal 6 and after an accepted call, every lent cell of it; on
 * entry it may hold anything. What a cut with reasons, one of many texts and release figures write stands at their
 * declarations. Nothing is kept from one call to the next, nothing is allocated and nothing is freed.
 *
 * THE CALLER'S DUTIES. Everything else about the contents is the library's to answer.
 *
 *   1. A row is a pointer and, straight behind it, its length in elements: bytes for const uint8_t *, cells for
 *      uint32_t * and uint64_t *. That many are there, and may be read, and written where the row isn't const. Figures
 *      have no length behind them: they are FETLOCKICE_FIGURES cells. Const rows, figures and the pools of add, remove
 *      and read_image hold values; outputs, scratch and the pools of fresh and plants_start may hold anything.
 *   2. No pointer is NULL, also where the length is 0. Rows of cells and size_t numbers are aligned as C aligns them.
 *   3. A row or number that a call may write overlaps no other row or number of that call. Two const rows may overlap.
 *   4. While a call runs, no other thread writes what it was lent, or reads what it may write. So calls on different
 *      memory may run at once, and so may calls that only read one pool.
 *   5. The thread that calls has FETLOCKICE_MAX_STACK bytes of stack left. No proof sees the stack: host/stack/run
 *      measures it, and fails where a call takes more than half of that.
 */
#ifndef FETLOCKICE_H
#define FETLOCKICE_H

#include <stdbool.h>
#include <stddef.h>
#include <stdint.h>

#ifdef __cplusplus
extern "C" {
#endif

/* The most scalars of a text, and of a word after trimming. Trimming strips Unicode's White_Space at both edges of a
 * word: U+0009 to U+000D, 0020, 0085, 00A0, 1680, 2000 to 200A, 2028, 2029, 202F, 205F and 3000, 25 characters and no
 * other. So 255 letters with a no-break space behind them are a word. Inside a word they stay, and a cut knows only
 * U+0020 as a space. */
#define FETLOCKICE_MAX_SCALARS 65535
#define FETLOCKICE_MAX_WORD 255

/* A pool has eight cells to a node: a first half of four, in which the dictionary stands, and a second half of four
 * zeros; two plants that share a pool have a half each. Nodes in use are the root and one for each distinct non-empty
 * prefix of the words held; a dictionary's first cell tells how many. Cells after the last whole node, and after this
 * many nodes, are never read or written. A call on a dictionary reads the rest of the pool, to see that it is a
 * dictionary. To give a pool more nodes, lend it with cells of 0 behind its last whole node. No word of a dictionary
 * starts or ends with a trimmed character. A pool that was kept from an earlier release, with such a word or in another
 * layout, is refused with 4. */
#define FETLOCKICE_NODE_CELLS 8
#define FETLOCKICE_MAX_NODES 1048576

/* The bytes of stack that a call takes at most. Measured over hostile and deepest inputs: on x86-64
 * fetlockice_write_image 17,520 and fetlockice_remove 12,384, as they go down a word of 255 scalars by recursion,
 * fetlockice_read_image 7,528 and fetlockice_plant_read_image 7,608, which have a few rows of a word's length there, and the
 * other two of a plant about the same; fetlockice_winners 2,824, the others under 1,100; on aarch64, by an earlier kit and an
 * earlier form of the code, fetlockice_write_image 46,176. */
#define FETLOCKICE_MAX_STACK 98304

/* The scratch cells that a call on a text of n scalars asks for. */
#define FETLOCKICE_SCRATCH_CELLS(n) (9 * (size_t)(n) + 128)

/* The cells of a text's answer in a call with many texts. */
#define FETLOCKICE_ANSWER_CELLS 4

/* The cells of a map of breaks over the positions 0 to n, 64 to a cell. */
#define FETLOCKICE_MAP_CELLS(n) ((size_t)(n) / 64 + 1)

/* The cells of release figures. */
#define FETLOCKICE_FIGURES 16

/* What a call answers. The lowest number that applies to the call is given; a call with many texts gives 10 before 6, the
 * reading of an image 9 before 8, and calls with release figures 13 before all others. Calls of a plant tell 4 of a pool
 * that two plants don't share, and 8 by the plant's limit. */
enum fetlockice_answer {
    FETLOCKICE_ACCEPTED = 0,
    FETLOCKICE_ILL_FORMED = 1,        /* the bytes aren't well-formed UTF-8; length of the longest well-formed prefix */
    FETLOCKICE_TOO_MANY_SCALARS = 2,  /* more than 65,535 scalars; that number */
    FETLOCKICE_NOT_A_SCALAR = 3,      /* a cell isn't a Unicode scalar value; the index of the first */
    FETLOCKICE_NOT_A_DICTIONARY = 4,  /* the pool isn't a dictionary; 0 */
    FETLOCKICE_SCRATCH_TOO_SHORT = 5, /* scratch has fewer than 9n+128 cells; 9n+128 */
    FETLOCKICE_OUTPUT_TOO_SHORT = 6,  /* the output has fewer cells than the answer; the cells needed (with reasons:
                                         room for fewer tokens; how many there are) */
    FETLOCKICE_WORD_TOO_LONG = 7,     /* the word is over 255 scalars after trimming; its trimmed length */
    FETLOCKICE_TOO_FEW_NODES = 8,     /* the pool has too few free nodes; the nodes missing */
    FETLOCKICE_BAD_IMAGE = 9,         /* an image isn't as it must be; the offset of its first wrong record */
    FETLOCKICE_WRONG_POSITION = 10,   /* a position is wrong; it, or its index where it is one of a list */
    FETLOCKICE_BIT_ABOVE_END = 11,    /* a map has a bit set above n in its last used cell; the lowest such position */
    FETLOCKICE_LIMITS_TOO_LARGE = 12, /* the limits of two plants sum to more than the pool's nodes less one; 0 */
    FETLOCKICE_FIGURES_FULL = 13      /* a release figure would be too large; 0 */
};

/* Writes the scalars of UTF-8 bytes, and to positions where each of them starts, in bytes, and behind these the number
 * of bytes. *count: how many scalars, n. An output as long as the bytes, and a position row a cell longer, are always
 * enough. Refusals 1, 2, 6: with n if out has under n cells, else with n + 1 if positions has under n + 1. */
uint32_t fetlockice_decode(const uint8_t *bytes, size_t bytes_len, uint32_t *out, size_t out_len, uint32_t *positions,
                           size_t positions_len, size_t *count, size_t *detail);

/* An end, in characters, of a text of n characters, as an end in bytes: the cell at that end of the position row that
 * the text's decoding wrote. *found: 1, and *at: the end in bytes; or both 0 where the end is over n, or the row has no
 * such cell. Never refused: the answer is always 0. */
uint32_t fetlockice_end_in_bytes(const uint32_t *positions, size_t positions_len, size_t n, size_t end, size_t *found,
                                 size_t *at);

/* Writes the ends of the text's clusters, in characters, rising, the last equal to the length. *count: how many, 0 for
 * an empty text. An output as long as the text is always enough. Refusals 2, 3, 6. */
uint32_t fetlockice_clusters(const uint32_t *text, size_t text_len, uint32_t *out, size_t out_len, size_t *count,
                             size_t *detail);

/* The same by a second matcher, which goes through the patterns one after the other, and is slow. It writes the ends of
 * the clusters to ends, the same as fetlockice_clusters, and to winners for each cluster the number of the pattern that
 * won it, 1 to 24, 0 for a character that none takes; 17 and 25 to 29 never win. *count: how many clusters. Neither row is
 * written if either is too short: 6 tells the number of clusters. Refusals 2, 3, 6. */
uint32_t fetlockice_winners(const uint32_t *text, size_t text_len, uint32_t *ends, size_t ends_len, uint32_t *winners,
                            size_t winners_len, size_t *count, size_t *detail);

/* Makes the pool a dictionary without words, whatever it held. *count: 0. Refusal 8, one node missing, for a pool under
 * eight cells. */
uint32_t fetlockice_fresh(uint32_t *pool, size_t pool_len, size_t *count, size_t *detail);

/* Adds the word, trimmed, with class 0. *count: 1 if the words or their classes changed, else 0. A word that is held
 * with class 0, or is empty after trimming, changes nothing. Refusals 2, 3, 4, 7, 8. */
uint32_t fetlockice_add(uint32_t *pool, size_t pool_len, const uint32_t *word, size_t word_len, size_t *count,
                        size_t *detail);

/* As fetlockice_add, with the word's class; a held word's class is replaced. *count: 1 if the words or their classes
 * changed, else 0. fetlockice_add is this with class 0. Refusals 2, 3, 4, 7, 8. */
uint32_t fetlockice_add_class(uint32_t *pool, size_t pool_len, const uint32_t *word, size_t word_len,
                              uint16_t word_class, size_t *count, size_t *detail);

/* Removes the word, trimmed. *count: 1 if the set of words changed, else 0. Nodes that are freed serve again.
 * Refusals 2, 3, 4, 7. */
uint32_t fetlockice_remove(uint32_t *pool, size_t pool_len, const uint32_t *word, size_t word_len, size_t *count,
                           size_t *detail);

/* *count: 1 if the word is held, as it is and not trimmed, else 0. Refusals 2, 3, 4. */
uint32_t fetlockice_contains(const uint32_t *pool, size_t pool_len, const uint32_t *word, size_t word_len,
                             size_t *count, size_t *detail);

/* *count: 1 if the word is held as it is, else 0; *word_class: its class, 0 with a no and with a refusal. Refusals 2, 3
 * and 4. */
uint32_t fetlockice_contains_class(const uint32_t *pool, size_t pool_len, const uint32_t *word, size_t word_len,
                                   size_t *count, size_t *word_class, size_t *detail);

/* Writes the lengths of the words that the text starts with, rising. *count: how many, at most 255. Refusals 2, 3, 4
 * and 6. */
uint32_t fetlockice_prefix_lengths(const uint32_t *pool, size_t pool_len, const uint32_t *text, size_t text_len,
                                   uint32_t *out, size_t out_len, size_t *count, size_t *detail);

/* *count: how many words the dictionary holds. Refusal 4. */
uint32_t fetlockice_word_count(const uint32_t *pool, size_t pool_len, size_t *count, size_t *detail);

/* A word list as bytes, to keep and to send: an image. It is a row of records: a length of what follows it, four bytes;
 * a kind, two bytes; and the body. Kind 1 is a word: its class, two bytes, and its UTF-8. The words rise by scalars, a
 * prefix first, each once, trimmed and 1 to 255 scalars long. Kind 0 stands behind them, once and last: the number of
 * words, four bytes. Numbers are little-endian. Equal words and classes have equal images, whatever their pools.
 *
 * Loading many words by one image takes far less time than adding them one by one, and nothing of it has to be trusted:
 * every record is checked. UTF-8 bytes sort as scalars do, so `LC_ALL=C sort -u` puts trimmed words in order.
 * host/examples/load_words.c makes an image of a file of words. */

/* Replaces the words of the pool by those of an image. *count: how many. The pool must be a dictionary, a fresh one say.
 * Refusals, in this order: 4; 9, something in the image isn't as said; the offset of the first record that isn't, of the
 * one that is missing, or of the first byte behind the last record; 8, the nodes that an empty pool of that length lacks
 * for the words. */
uint32_t fetlockice_read_image(uint32_t *pool, size_t pool_len, const uint8_t *image, size_t image_len, size_t *count,
                               size_t *detail);

/* Writes the words of the pool and their classes as an image. *count: its bytes; the rest of the output is kept. Reading
 * it gives the same words and classes, and an image that was read is written as it was. Refusals 4, 6: the bytes
 * needed. */
uint32_t fetlockice_write_image(const uint32_t *pool, size_t pool_len, uint8_t *out, size_t out_len, size_t *count,
                                size_t *detail);

/* Cuts the text plainly, by the words of the pool. Writes the ends of the tokens, in characters, rising, the last equal
 * to the length. *count: how many, 0 for an empty text; *edges: the edges recorded. An output as long as the text is
 * always enough. Scratch of FETLOCKICE_SCRATCH_CELLS(text_len) cells is enough, and no fewer. Refusals 2, 3, 4, 5, 6. */
uint32_t fetlockice_cut_plain(const uint32_t *text, size_t text_len, const uint32_t *pool, size_t pool_len,
                              uint32_t *out, size_t out_len, uint32_t *scratch, size_t scratch_len, size_t *count,
                              size_t *edges, size_t *detail);

/* The same in safe mode: a text of 140 characters or more is cut in parts. */
uint32_t fetlockice_cut_safe(const uint32_t *text, size_t text_len, const uint32_t *pool, size_t pool_len,
                             uint32_t *out, size_t out_len, uint32_t *scratch, size_t scratch_len, size_t *count,
                             size_t *edges, size_t *detail);

/* The same by the profile "sheet": as in safe mode, but where characters 100 to 139 of what remains hold a space U+0020,
 * the part ends right behind the last one of them. So every part but the last has 100 to 140 characters. */
uint32_t fetlockice_cut_sheet(const uint32_t *text, size_t text_len, const uint32_t *pool, size_t pool_len,
                              uint32_t *out, size_t out_len, uint32_t *scratch, size_t scratch_len, size_t *count,
                              size_t *edges, size_t *detail);

/* Why a token ends where it does. */
enum fetlockice_reason {
    FETLOCKICE_WORD = 1,        /* a word of the dictionary */
    FETLOCKICE_NON_THAI = 2,    /* a run of letters, digits or blanks, or a line's end, where no word starts */
    FETLOCKICE_TO_WORD = 3,     /* neither starts there: skipped to a word */
    FETLOCKICE_TO_NON_THAI = 4, /* the same, skipped to such a run, where no word starts that is a place to stop at */
    FETLOCKICE_TO_END = 5       /* the same, skipped to the end of the text, or of its part */
};

/* A token: where it ends, in characters, and why, one of enum fetlockice_reason. */
struct fetlockice_record {
    uint32_t end;
    uint32_t reason;
};
typedef char fetlockice_record_is_a_pair[sizeof(struct fetlockice_record) == 2 * sizeof(uint32_t) ? 1 : -1];

/* Cuts the text plainly, as fetlockice_cut_plain does, and tells the reason of each token. Writes two cells for each
 * token: its end, and its reason by the rule at its start. *count: how many tokens; *edges: the edges recorded. A row
 * of pairs_len cells has room for half as many tokens; an odd last cell is kept. The first 2 * *count cells are written,
 * the others kept. The ends, the edges and the refusals are those of the cut, but refusal 6 counts tokens, not cells.
 * Refusals 2, 3, 4, 5, 6. */
uint32_t fetlockice_reasons_plain(const uint32_t *text, size_t text_len, const uint32_t *pool, size_t pool_len,
                                  uint32_t *pairs, size_t pairs_len, uint32_t *scratch, size_t scratch_len,
                                  size_t *count, size_t *edges, size_t *detail);

/* The same in safe mode. A reason is about the part: "to the end" means the end of the part. */
uint32_t fetlockice_reasons_safe(const uint32_t *text, size_t text_len, const uint32_t *pool, size_t pool_len,
                                 uint32_t *pairs, size_t pairs_len, uint32_t *scratch, size_t scratch_len,
                                 size_t *count, size_t *edges, size_t *detail);

/* The same by the profile "sheet". */
uint32_t fetlockice_reasons_sheet(const uint32_t *text, size_t text_len, const uint32_t *pool, size_t pool_len,
                                  uint32_t *pairs, size_t pairs_len, uint32_t *scratch, size_t scratch_len,
                                  size_t *count, size_t *edges, size_t *detail);

/* The same with a row of records. A record is two cells without padding, so a row of records is a row of pairs. */
static inline uint32_t fetlockice_records_plain(const uint32_t *text, size_t text_len, const uint32_t *pool,
                                                size_t pool_len, struct fetlockice_record *records,
                                                size_t records_len, uint32_t *scratch, size_t scratch_len,
                                                size_t *count, size_t *edges, size_t *detail) {
    return fetlockice_reasons_plain(text, text_len, pool, pool_len, (uint32_t *)records, 2 * records_len, scratch,
                                    scratch_len, count, edges, detail);
}

static inline uint32_t fetlockice_records_safe(const uint32_t *text, size_t text_len, const uint32_t *pool,
                                               size_t pool_len, struct fetlockice_record *records,
                                               size_t records_len, uint32_t *scratch, size_t scratch_len,
                                               size_t *count, size_t *edges, size_t *detail) {
    return fetlockice_reasons_safe(text, text_len, pool, pool_len, (uint32_t *)records, 2 * records_len, scratch,
                                   scratch_len, count, edges, detail);
}

static inline uint32_t fetlockice_records_sheet(const uint32_t *text, size_t text_len, const uint32_t *pool,
                                                size_t pool_len, struct fetlockice_record *records,
                                                size_t records_len, uint32_t *scratch, size_t scratch_len,
                                                size_t *count, size_t *edges, size_t *detail) {
    return fetlockice_reasons_sheet(text, text_len, pool, pool_len, (uint32_t *)records, 2 * records_len, scratch,
                                    scratch_len, count, edges, detail);
}

/* Release figures: over all texts fed so far. Zeros are the figures of no text; any other numbers may be handed in. */
enum fetlockice_figure {
    FETLOCKICE_TEXTS = 0,               /* texts, the refused ones too; at most 4,294,967,295 */
    FETLOCKICE_CHARACTERS = 1,          /* characters of the texts that were cut */
    FETLOCKICE_TOKENS = 2,              /* tokens, and of these */
    FETLOCKICE_TOKENS_WORD = 3,         /* those by each reason of enum fetlockice_reason, at 2 + reason */
    FETLOCKICE_TOKENS_NON_THAI = 4,
    FETLOCKICE_TOKENS_TO_WORD = 5,
    FETLOCKICE_TOKENS_TO_NON_THAI = 6,
    FETLOCKICE_TOKENS_TO_END = 7,
    FETLOCKICE_EDGES = 8,               /* edges recorded */
    FETLOCKICE_MOST_EDGES = 9,          /* the most edges in one text */
    FETLOCKICE_REFUSED_ILL_FORMED = 10, /* texts refused with 1 to 6, at 9 + number */
    FETLOCKICE_REFUSED_TOO_MANY_SCALARS = 11,
    FETLOCKICE_REFUSED_NOT_A_SCALAR = 12,
    FETLOCKICE_REFUSED_NOT_A_DICTIONARY = 13,
    FETLOCKICE_REFUSED_SCRATCH_TOO_SHORT = 14,
    FETLOCKICE_REFUSED_OUTPUT_TOO_SHORT = 15
};

/* Feeds a text: fetlockice_reasons_plain, with the figures beside it. What it answers and writes is what that call does,
 * and the figures count the text: one of texts, its characters, its tokens by reason and its edges; of a text that is
 * refused with 2 to 6 one of texts and one of that refusal, and nothing else. Refusal 13, before all others: texts
 * would pass 4,294,967,295, or another figure 64 bits, which happens only to figures that no run from zeros gives. Then
 * the figures and pairs are as they were, and scratch is as the call would else leave it. Refusals 13, 2, 3, 4, 5, 6. */
uint32_t fetlockice_feed_plain(uint64_t *figures, const uint32_t *text, size_t text_len, const uint32_t *pool,
                               size_t pool_len, uint32_t *pairs, size_t pairs_len, uint32_t *scratch,
                               size_t scratch_len, size_t *count, size_t *edges, size_t *detail);

/* The same in safe mode. */
uint32_t fetlockice_feed_safe(uint64_t *figures, const uint32_t *text, size_t text_len, const uint32_t *pool,
                              size_t pool_len, uint32_t *pairs, size_t pairs_len, uint32_t *scratch,
                              size_t scratch_len, size_t *count, size_t *edges, size_t *detail);

/* The same by the profile "sheet". */
uint32_t fetlockice_feed_sheet(uint64_t *figures, const uint32_t *text, size_t text_len, const uint32_t *pool,
                               size_t pool_len, uint32_t *pairs, size_t pairs_len, uint32_t *scratch,
                               size_t scratch_len, size_t *count, size_t *edges, size_t *detail);

/* Counts a text that was refused before it could be fed, by the number of its refusal, 1 to 6: one of texts and one of
 * that refusal. What fetlockice_decode refuses reaches the figures only so. Any other number is no text's: it changes
 * nothing, and is accepted. Refusal 13; the figures are then as they were. */
uint32_t fetlockice_feed_refused(uint64_t *figures, uint32_t number, size_t *detail);

/* Joins the figures of another batch: of the most edges the larger, of all others the sum. They are then those of both
 * batches run as one, in either order. Refusal 13, where a figure of both would pass its limit; the figures are then as
 * they were. */
uint32_t fetlockice_join_figures(uint64_t *figures, const uint64_t *more, size_t *detail);

/* Checks ends that another program gives for the plain cut of the text, by the words of the pool. The claim is right
 * exactly if its ends rise strictly to the length, and each token either is a word of the pool that ends at a cluster
 * end, or starts where no such word starts and is the span of the rule for text that is in no dictionary. *right: 1, or
 * 0; then *token: the first token that breaks this, counted from 0. Ends that stop short name the token after the last;
 * an empty text takes only an empty claim. A wrong claim is an answer, not a refusal: the claim may be longer than the
 * text, and its cells may hold anything. Every answer of fetlockice_cut_plain is right; another claim may be, too.
 * Scratch as for a cut. Refusals 2, 3, 4, 5. */
uint32_t fetlockice_check_claim(const uint32_t *text, size_t text_len, const uint32_t *pool, size_t pool_len,
                                const uint32_t *claim, size_t claim_len, uint32_t *scratch, size_t scratch_len,
                                size_t *right, size_t *token, size_t *detail);

/* Cuts many texts plainly, by the words of the pool, which is checked once for all of them. The texts stand joined in
 * texts: text i goes from text_ends[i - 1], or from 0, to text_ends[i]. An end may equal the one before it, for an
 * empty text. What stands behind the last one is not read. For each text
 *
 *   answers[4 * i]      0 if it was accepted, else the number of its refusal, 2 to 6
 *   answers[4 * i + 1]  the number of its ends; 0 if it was refused
 *   answers[4 * i + 2]  the edges recorded in it; 0 if it was refused
 *   answers[4 * i + 3]  0 if it was accepted, else the refusal's detail
 *
 * are what fetlockice_cut_plain would tell of that text by itself, lent the output behind the ends that stand written
 * and all of scratch. The ends of all texts stand in out one behind the other, each in its own text's characters. A
 * refused text has no ends there and stops no other: 6 says that the texts before it left too few cells, and how many
 * it needs.
 * A pool that is no dictionary is told to each text. *count: text_count. An output as long as the texts is always
 * enough, and so is the scratch of the longest text.
 *
 * Refusals of the whole call, which changes nothing then: 10, a text end is over texts_len or below the one before it;
 * its index. 6, answers has fewer than 4 * text_count cells; the cells needed. An accepted call writes the first
 * 4 * text_count cells of answers, the ends at the front of out, and keeps the rest of both. Scratch is all zero if a
 * text was accepted or refused with 6, and else untouched. */
uint32_t fetlockice_cut_many_plain(const uint32_t *texts, size_t texts_len, const uint32_t *text_ends,
                                   size_t text_count, const uint32_t *pool, size_t pool_len, uint32_t *answers,
                                   size_t answers_len, uint32_t *out, size_t out_len, uint32_t *scratch,
                                   size_t scratch_len, size_t *count, size_t *detail);

/* The same in safe mode. */
uint32_t fetlockice_cut_many_safe(const uint32_t *texts, size_t texts_len, const uint32_t *text_ends,
                                  size_t text_count, const uint32_t *pool, size_t pool_len, uint32_t *answers,
                                  size_t answers_len, uint32_t *out, size_t out_len, uint32_t *scratch,
                                  size_t scratch_len, size_t *count, size_t *detail);

/* The same by the profile "sheet". */
uint32_t fetlockice_cut_many_sheet(const uint32_t *texts, size_t texts_len, const uint32_t *text_ends,
                                   size_t text_count, const uint32_t *pool, size_t pool_len, uint32_t *answers,
                                   size_t answers_len, uint32_t *out, size_t out_len, uint32_t *scratch,
                                   size_t scratch_len, size_t *count, size_t *detail);

/* Cuts many texts plainly, as fetlockice_cut_many_plain does, and tells the reason of each token: what it says of texts,
 * answers, scratch and refusals holds here, with fetlockice_reasons_plain in the place of fetlockice_cut_plain. The count
 * of a text, answers[4 * i + 1], is the number of its tokens, and each token takes two cells of pairs, its end and its
 * reason. So the pairs of text i start behind twice the sum of the counts before it. Refusal 6 of a text counts tokens.
 * A row of pairs of twice the texts' length is always enough. */
uint32_t fetlockice_reasons_many_plain(const uint32_t *texts, size_t texts_len, const uint32_t *text_ends,
                                       size_t text_count, const uint32_t *pool, size_t pool_len, uint32_t *answers,
                                       size_t answers_len, uint32_t *pairs, size_t pairs_len, uint32_t *scratch,
                                       size_t scratch_len, size_t *count, size_t *detail);

/* The same in safe mode. A reason is about the part. */
uint32_t fetlockice_reasons_many_safe(const uint32_t *texts, size_t texts_len, const uint32_t *text_ends,
                                      size_t text_count, const uint32_t *pool, size_t pool_len, uint32_t *answers,
                                      size_t answers_len, uint32_t *pairs, size_t pairs_len, uint32_t *scratch,
                                      size_t scratch_len, size_t *count, size_t *detail);

/* The same by the profile "sheet". */
uint32_t fetlockice_reasons_many_sheet(const uint32_t *texts, size_t texts_len, const uint32_t *text_ends,
                                       size_t text_count, const uint32_t *pool, size_t pool_len, uint32_t *answers,
                                       size_t answers_len, uint32_t *pairs, size_t pairs_len, uint32_t *scratch,
                                       size_t scratch_len, size_t *count, size_t *detail);

/* Writes a map of breaks: a bit for each position 0 to n, set exactly at the ends. Bit p is bit p % 64, lowest first, of
 * map[p / 64]; bits above n are zero. *count: FETLOCKICE_MAP_CELLS(n), the cells that are written; the rest is kept. The
 * ends of any cut of a text of n characters are right; ends need not reach n. Refusals: 2 if n is over 65,535; 6 if map
 * is too short; 10, an end is 0, over n or not above the end before it; its index. */
uint32_t fetlockice_break_map(size_t n, const uint32_t *ends, size_t ends_len, uint64_t *map, size_t map_len,
                              size_t *count, size_t *detail);

/* *count: the number of breaks up to and including a position of a map over 0 to n. The map may be any cells: bit 0
 * counts like others, and cells after the first FETLOCKICE_MAP_CELLS(n) are ignored. Refusals: 2 if n is over 65,535; 6
 * if map is too short; 10, the position is over n; it. 11, a bit is set above n in the last used cell; the lowest such
 * position. */
uint32_t fetlockice_breaks_up_to(size_t n, const uint64_t *map, size_t map_len, size_t position, size_t *count,
                                 size_t *detail);

/* The first break above a position, up to n. *found: 1, and *at: where it is; or both 0, where there is none. Refusals
 * as for fetlockice_breaks_up_to. */
uint32_t fetlockice_next_break(size_t n, const uint64_t *map, size_t map_len, size_t position, size_t *found,
                               size_t *at, size_t *detail);

/* Two plants in one pool: plant A and plant B, each with words and classes of its own; a word may be in both. Each gets a
 * limit in nodes at the start, and is charged one for each distinct non-empty prefix of its own words, whatever the
 * other has. So nothing that one plant calls changes an answer, a count or a refusal of the other, as long as only calls
 * of the two touch the pool. Its cells tell the words of both to whoever holds it.
 *
 * plant_b says whose words a call reads and changes: false is plant A, true plant B. Counts, details, refusals and lent
 * memory are as in the call of the same name without plants, with two differences. Refusal 4: two plants don't share the
 * pool. A call without plants refuses a pool of two plants with 4, too, but for fetlockice_fresh, which ends both. Refusal
 * 8: the plant's charge would pass its limit; by how many. The pool's other nodes don't matter, nor does the other plant.
 * Claims and figures are for pools without plants: an image carries a plant's words to one.
 *
 * A pool of two plants has plant A's words in the first halves of its nodes and plant B's in the second. Lent with fewer
 * nodes than its limits and one, it is refused with 4; with more nodes, of zeros, it answers as before. */

/* Makes the pool one of two plants without words, with these limits, whatever it held. *count: 0. Limits of 0 are right:
 * such a plant holds no word. Refusals, in this order: 8, one node missing, for a pool under eight cells; 12, the limits
 * sum to more than the pool's nodes less one. */
uint32_t fetlockice_plants_start(uint32_t *pool, size_t pool_len, size_t limit_a, size_t limit_b, size_t *count,
                                 size_t *detail);

/* fetlockice_add_class for a plant. Refusals 2, 3, 4, 7, 8. */
uint32_t fetlockice_plant_add(uint32_t *pool, size_t pool_len, bool plant_b, const uint32_t *word, size_t word_len,
                              uint16_t word_class, size_t *count, size_t *detail);

/* fetlockice_remove for a plant; its charge falls. Refusals 2, 3, 4, 7. */
uint32_t fetlockice_plant_remove(uint32_t *pool, size_t pool_len, bool plant_b, const uint32_t *word, size_t word_len,
                                 size_t *count, size_t *detail);

/* fetlockice_contains_class for a plant. Refusals 2, 3, 4. */
uint32_t fetlockice_plant_contains(const uint32_t *pool, size_t pool_len, bool plant_b, const uint32_t *word,
                                   size_t word_len, size_t *count, size_t *word_class, size_t *detail);

/* fetlockice_prefix_lengths for a plant. Refusals 2, 3, 4, 6. */
uint32_t fetlockice_plant_prefix_lengths(const uint32_t *pool, size_t pool_len, bool plant_b, const uint32_t *text,
                                         size_t text_len, uint32_t *out, size_t out_len, size_t *count,
                                         size_t *detail);

/* fetlockice_word_count for a plant. Refusal 4. */
uint32_t fetlockice_plant_word_count(const uint32_t *pool, size_t pool_len, bool plant_b, size_t *count,
                                     size_t *detail);

/* fetlockice_cut_plain by the words of a plant. Refusals 2, 3, 4, 5, 6. */
uint32_t fetlockice_plant_cut_plain(const uint32_t *text, size_t text_len, const uint32_t *pool, size_t pool_len,
                                    bool plant_b, uint32_t *out, size_t out_len, uint32_t *scratch, size_t scratch_len,
                                    size_t *count, size_t *edges, size_t *detail);

/* The same in safe mode. */
uint32_t fetlockice_plant_cut_safe(const uint32_t *text, size_t text_len, const uint32_t *pool, size_t pool_len,
                                   bool plant_b, uint32_t *out, size_t out_len, uint32_t *scratch, size_t scratch_len,
                                   size_t *count, size_t *edges, size_t *detail);

/* The same by the profile "sheet". */
uint32_t fetlockice_plant_cut_sheet(const uint32_t *text, size_t text_len, const uint32_t *pool, size_t pool_len,
                                    bool plant_b, uint32_t *out, size_t out_len, uint32_t *scratch, size_t scratch_len,
                                    size_t *count, size_t *edges, size_t *detail);

/* fetlockice_reasons_plain by the words of a plant. Refusals 2, 3, 4, 5, 6; 6 counts tokens. */
uint32_t fetlockice_plant_reasons_plain(const uint32_t *text, size_t text_len, const uint32_t *pool, size_t pool_len,
                                        bool plant_b, uint32_t *pairs, size_t pairs_len, uint32_t *scratch,
                                        size_t scratch_len, size_t *count, size_t *edges, size_t *detail);

/* The same in safe mode. */
uint32_t fetlockice_plant_reasons_safe(const uint32_t *text, size_t text_len, const uint32_t *pool, size_t pool_len,
                                       bool plant_b, uint32_t *pairs, size_t pairs_len, uint32_t *scratch,
                                       size_t scratch_len, size_t *count, size_t *edges, size_t *detail);

/* The same by the profile "sheet". */
uint32_t fetlockice_plant_reasons_sheet(const uint32_t *text, size_t text_len, const uint32_t *pool, size_t pool_len,
                                        bool plant_b, uint32_t *pairs, size_t pairs_len, uint32_t *scratch,
                                        size_t scratch_len, size_t *count, size_t *edges, size_t *detail);

/* fetlockice_cut_many_plain by the words of a plant; the pool is checked once for all texts. Refusals of the whole call
 * 10, 6; of a text 2, 3, 4, 5, 6. */
uint32_t fetlockice_plant_cut_many_plain(const uint32_t *texts, size_t texts_len, const uint32_t *text_ends,
                                         size_t text_count, const uint32_t *pool, size_t pool_len, bool plant_b,
                                         uint32_t *answers, size_t answers_len, uint32_t *out, size_t out_len,
                                         uint32_t *scratch, size_t scratch_len, size_t *count, size_t *detail);

/* The same in safe mode. */
uint32_t fetlockice_plant_cut_many_safe(const uint32_t *texts, size_t texts_len, const uint32_t *text_ends,
                                        size_t text_count, const uint32_t *pool, size_t pool_len, bool plant_b,
                                        uint32_t *answers, size_t answers_len, uint32_t *out, size_t out_len,
                                        uint32_t *scratch, size_t scratch_len, size_t *count, size_t *detail);

/* The same by the profile "sheet". */
uint32_t fetlockice_plant_cut_many_sheet(const uint32_t *texts, size_t texts_len, const uint32_t *text_ends,
                                         size_t text_count, const uint32_t *pool, size_t pool_len, bool plant_b,
                                         uint32_t *answers, size_t answers_len, uint32_t *out, size_t out_len,
                                         uint32_t *scratch, size_t scratch_len, size_t *count, size_t *detail);

/* fetlockice_reasons_many_plain by the words of a plant: the count of a text is the number of its tokens, and its pairs
 * take two cells each. Refusals of the whole call 10, 6; of a text 2, 3, 4, 5, 6; 6 counts tokens. */
uint32_t fetlockice_plant_reasons_many_plain(const uint32_t *texts, size_t texts_len, const uint32_t *text_ends,
                                             size_t text_count, const uint32_t *pool, size_t pool_len, bool plant_b,
                                             uint32_t *answers, size_t answers_len, uint32_t *pairs, size_t pairs_len,
                                             uint32_t *scratch, size_t scratch_len, size_t *count, size_t *detail);

/* The same in safe mode. */
uint32_t fetlockice_plant_reasons_many_safe(const uint32_t *texts, size_t texts_len, const uint32_t *text_ends,
                                            size_t text_count, const uint32_t *pool, size_t pool_len, bool plant_b,
                                            uint32_t *answers, size_t answers_len, uint32_t *pairs, size_t pairs_len,
                                            uint32_t *scratch, size_t scratch_len, size_t *count, size_t *detail);

/* The same by the profile "sheet". */
uint32_t fetlockice_plant_reasons_many_sheet(const uint32_t *texts, size_t texts_len, const uint32_t *text_ends,
                                             size_t text_count, const uint32_t *pool, size_t pool_len, bool plant_b,
                                             uint32_t *answers, size_t answers_len, uint32_t *pairs, size_t pairs_len,
                                             uint32_t *scratch, size_t scratch_len, size_t *count, size_t *detail);

/* fetlockice_read_image for a plant. Refusals, in this order: 4, 9, 8. */
uint32_t fetlockice_plant_read_image(uint32_t *pool, size_t pool_len, bool plant_b, const uint8_t *image,
                                     size_t image_len, size_t *count, size_t *detail);

/* fetlockice_write_image for a plant: equal words and classes have equal images, in either plant or in a pool without
 * plants. Refusals 4, 6. */
uint32_t fetlockice_plant_write_image(const uint32_t *pool, size_t pool_len, bool plant_b, uint8_t *out,
                                      size_t out_len, size_t *count, size_t *detail);

#ifdef __cplusplus
}
#endif

#endif
