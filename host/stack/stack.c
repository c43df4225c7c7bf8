/* stack [ROUNDS]: the stack that each call takes at most, in bytes. Every call runs on a stack of its own that is painted
 * before, and what has lost its paint afterwards was used. It fails where a call takes more than half of what the header
 * says, so that the other half is left for another compiler's code. */
#define _GNU_SOURCE
#include "fetlockice.h"
#include <stdio.h>
#include <stdlib.h>
#include <string.h>
#include <ucontext.h>

enum { STACK = 1 << 20, CELLS = 8 * 4096, LONG = FETLOCKICE_MAX_SCALARS, TEXTS = 9 };
static const unsigned char PAINT = 0xA5;

static unsigned char stack[STACK];
static ucontext_t here, there;
static void (*call)(void);

static uint8_t bytes[4 * LONG], image[16 * CELLS];
static uint32_t pool[CELLS], shared[CELLS], text[LONG + 1], word[1024], out[2 * LONG + 2], positions[LONG + 1],
    won[LONG + 1], claim[LONG + 1];
static uint32_t scratch[FETLOCKICE_SCRATCH_CELLS(LONG)];
static uint32_t text_ends[TEXTS], answers[FETLOCKICE_ANSWER_CELLS * TEXTS];
static uint64_t map[FETLOCKICE_MAP_CELLS(LONG)], figures[FETLOCKICE_FIGURES], batch[FETLOCKICE_FIGURES];
static size_t map_len, position;
static size_t bytes_len, pool_len, text_len, word_len, out_len, claim_len, scratch_len, answers_len;
static size_t image_len, image_room, limit_a, limit_b;
static bool plant_b;
static size_t count, word_class, edges, detail;

static void decode(void) { fetlockice_decode(bytes, bytes_len, out, out_len, positions, LONG + 1, &count, &detail); }
static void end_in_bytes(void) { fetlockice_end_in_bytes(positions, LONG + 1, out_len, text_len, &count, &detail); }
static void clusters(void) { fetlockice_clusters(text, text_len, out, out_len, &count, &detail); }
static void winners(void) { fetlockice_winners(text, text_len, out, out_len, won, out_len, &count, &detail); }
static void fresh(void) { fetlockice_fresh(pool, pool_len, &count, &detail); }
static void add(void) { fetlockice_add(pool, pool_len, word, word_len, &count, &detail); }
static void add_class(void) { fetlockice_add_class(pool, pool_len, word, word_len, 65535, &count, &detail); }
static void drop(void) { fetlockice_remove(pool, pool_len, word, word_len, &count, &detail); }
static void contains(void) { fetlockice_contains(pool, pool_len, word, word_len, &count, &detail); }
static void class_of(void) { fetlockice_contains_class(pool, pool_len, word, word_len, &count, &word_class, &detail); }
static void lengths(void) { fetlockice_prefix_lengths(pool, pool_len, text, text_len, out, out_len, &count, &detail); }
static void words(void) { fetlockice_word_count(pool, pool_len, &count, &detail); }
static void plain(void) {
    fetlockice_cut_plain(text, text_len, pool, pool_len, out, out_len, scratch, scratch_len, &count, &edges, &detail);
}
static void safe(void) {
    fetlockice_cut_safe(text, text_len, pool, pool_len, out, out_len, scratch, scratch_len, &count, &edges, &detail);
}

static void sheet(void) {
    fetlockice_cut_sheet(text, text_len, pool, pool_len, out, out_len, scratch, scratch_len, &count, &edges, &detail);
}

static void reasons_plain(void) {
    fetlockice_reasons_plain(text, text_len, pool, pool_len, out, 2 * out_len, scratch, scratch_len, &count, &edges,
                             &detail);
}
static void reasons_safe(void) {
    fetlockice_reasons_safe(text, text_len, pool, pool_len, out, 2 * out_len, scratch, scratch_len, &count, &edges,
                            &detail);
}
static void reasons_sheet(void) {
    fetlockice_reasons_sheet(text, text_len, pool, pool_len, out, 2 * out_len, scratch, scratch_len, &count, &edges,
                             &detail);
}

static void feed_plain(void) {
    fetlockice_feed_plain(figures, text, text_len, pool, pool_len, out, 2 * out_len, scratch, scratch_len, &count,
                          &edges, &detail);
}
static void feed_safe(void) {
    fetlockice_feed_safe(figures, text, text_len, pool, pool_len, out, 2 * out_len, scratch, scratch_len, &count,
                         &edges, &detail);
}
static void feed_sheet(void) {
    fetlockice_feed_sheet(figures, text, text_len, pool, pool_len, out, 2 * out_len, scratch, scratch_len, &count,
                          &edges, &detail);
}
static void feed_refused(void) { fetlockice_feed_refused(figures, (uint32_t)position, &detail); }
static void join_figures(void) { fetlockice_join_figures(figures, batch, &detail); }

static void judge(void) {
    fetlockice_check_claim(text, text_len, pool, pool_len, claim, claim_len, scratch, scratch_len, &count, &edges,
                           &detail);
}

static void many_plain(void) {
    fetlockice_cut_many_plain(text, text_len, text_ends, TEXTS, pool, pool_len, answers, answers_len, out, out_len,
                              scratch, scratch_len, &count, &detail);
}
static void many_safe(void) {
    fetlockice_cut_many_safe(text, text_len, text_ends, TEXTS, pool, pool_len, answers, answers_len, out, out_len,
                             scratch, scratch_len, &count, &detail);
}
static void many_sheet(void) {
    fetlockice_cut_many_sheet(text, text_len, text_ends, TEXTS, pool, pool_len, answers, answers_len, out, out_len,
                              scratch, scratch_len, &count, &detail);
}

static void reasons_many_plain(void) {
    fetlockice_reasons_many_plain(text, text_len, text_ends, TEXTS, pool, pool_len, answers, answers_len, out,
                                  2 * out_len, scratch, scratch_len, &count, &detail);
}
static void reasons_many_safe(void) {
    fetlockice_reasons_many_safe(text, text_len, text_ends, TEXTS, pool, pool_len, answers, answers_len, out,
                                 2 * out_len, scratch, scratch_len, &count, &detail);
}
static void reasons_many_sheet(void) {
    fetlockice_reasons_many_sheet(text, text_len, text_ends, TEXTS, pool, pool_len, answers, answers_len, out,
                                  2 * out_len, scratch, scratch_len, &count, &detail);
}

static void breaks(void) { fetlockice_break_map(text_len, claim, claim_len, map, map_len, &count, &detail); }
static void up_to(void) { fetlockice_breaks_up_to(text_len, map, map_len, position, &count, &detail); }
static void next(void) { fetlockice_next_break(text_len, map, map_len, position, &count, &edges, &detail); }

static void read_image(void) { fetlockice_read_image(pool, pool_len, image, image_len, &count, &detail); }
static void write_image(void) { fetlockice_write_image(pool, pool_len, image, image_room, &count, &detail); }

static void plants_start(void) { fetlockice_plants_start(shared, CELLS, limit_a, limit_b, &count, &detail); }
static void plant_add(void) { fetlockice_plant_add(shared, CELLS, plant_b, word, word_len, 9, &count, &detail); }
static void plant_remove(void) { fetlockice_plant_remove(shared, CELLS, plant_b, word, word_len, &count, &detail); }
static void plant_contains(void) {
    fetlockice_plant_contains(shared, CELLS, plant_b, word, word_len, &count, &word_class, &detail);
}
static void plant_lengths(void) {
    fetlockice_plant_prefix_lengths(shared, CELLS, plant_b, text, text_len, out, out_len, &count, &detail);
}
static void plant_words(void) { fetlockice_plant_word_count(shared, CELLS, plant_b, &count, &detail); }
static void plant_cut_plain(void) {
    fetlockice_plant_cut_plain(text, text_len, shared, CELLS, plant_b, out, out_len, scratch, scratch_len, &count,
                               &edges, &detail);
}
static void plant_cut_safe(void) {
    fetlockice_plant_cut_safe(text, text_len, shared, CELLS, plant_b, out, out_len, scratch, scratch_len, &count,
                              &edges, &detail);
}
static void plant_cut_sheet(void) {
    fetlockice_plant_cut_sheet(text, text_len, shared, CELLS, plant_b, out, out_len, scratch, scratch_len, &count,
                               &edges, &detail);
}
static void plant_reasons_plain(void) {
    fetlockice_plant_reasons_plain(text, text_len, shared, CELLS, plant_b, out, 2 * out_len, scratch, scratch_len,
                                   &count, &edges, &detail);
}
static void plant_reasons_safe(void) {
    fetlockice_plant_reasons_safe(text, text_len, shared, CELLS, plant_b, out, 2 * out_len, scratch, scratch_len,
                                  &count, &edges, &detail);
}
static void plant_reasons_sheet(void) {
    fetlockice_plant_reasons_sheet(text, text_len, shared, CELLS, plant_b, out, 2 * out_len, scratch, scratch_len,
                                   &count, &edges, &detail);
}
static void plant_cut_many_plain(void) {
    fetlockice_plant_cut_many_plain(text, text_len, text_ends, TEXTS, shared, CELLS, plant_b, answers, answers_len, out,
                                    out_len, scratch, scratch_len, &count, &detail);
}
static void plant_cut_many_safe(void) {
    fetlockice_plant_cut_many_safe(text, text_len, text_ends, TEXTS, shared, CELLS, plant_b, answers, answers_len, out,
                                   out_len, scratch, scratch_len, &count, &detail);
}
static void plant_cut_many_sheet(void) {
    fetlockice_plant_cut_many_sheet(text, text_len, text_ends, TEXTS, shared, CELLS, plant_b, answers, answers_len, out,
                                    out_len, scratch, scratch_len, &count, &detail);
}
static void plant_reasons_many_plain(void) {
    fetlockice_plant_reasons_many_plain(text, text_len, text_ends, TEXTS, shared, CELLS, plant_b, answers, answers_len,
                                        out, 2 * out_len, scratch, scratch_len, &count, &detail);
}
static void plant_reasons_many_safe(void) {
    fetlockice_plant_reasons_many_safe(text, text_len, text_ends, TEXTS, shared, CELLS, plant_b, answers, answers_len,
                                       out, 2 * out_len, scratch, scratch_len, &count, &detail);
}
static void plant_reasons_many_sheet(void) {
    fetlockice_plant_reasons_many_sheet(text, text_len, text_ends, TEXTS, shared, CELLS, plant_b, answers, answers_len,
                                        out, 2 * out_len, scratch, scratch_len, &count, &detail);
}
static void plant_read_image(void) {
    fetlockice_plant_read_image(shared, CELLS, plant_b, image, image_len, &count, &detail);
}
static void plant_write_image(void) {
    fetlockice_plant_write_image(shared, CELLS, plant_b, image, image_room, &count, &detail);
}

static void (*const calls[])(void) = {decode,
                                      end_in_bytes,
                                      clusters,
                                      winners,
                                      fresh,
                                      add,
                                      add_class,
                                      drop,
                                      contains,
                                      class_of,
                                      lengths,
                                      words,
                                      plain,
                                      safe,
                                      sheet,
                                      reasons_plain,
                                      reasons_safe,
                                      reasons_sheet,
                                      feed_plain,
                                      feed_safe,
                                      feed_sheet,
                                      feed_refused,
                                      join_figures,
                                      judge,
                                      many_plain,
                                      many_safe,
                                      many_sheet,
                                      reasons_many_plain,
                                      reasons_many_safe,
                                      reasons_many_sheet,
                                      breaks,
                                      up_to,
                                      next,
                                      read_image,
                                      write_image,
                                      plants_start,
                                      plant_add,
                                      plant_remove,
                                      plant_contains,
                                      plant_lengths,
                                      plant_words,
                                      plant_cut_plain,
                                      plant_cut_safe,
                                      plant_cut_sheet,
                                      plant_reasons_plain,
                                      plant_reasons_safe,
                                      plant_reasons_sheet,
                                      plant_cut_many_plain,
                                      plant_cut_many_safe,
                                      plant_cut_many_sheet,
                                      plant_reasons_many_plain,
                                      plant_reasons_many_safe,
                                      plant_reasons_many_sheet,
                                      plant_read_image,
                                      plant_write_image};
static const char *const names[] = {"decode",
                                    "end_in_bytes",
                                    "clusters",
                                    "winners",
                                    "fresh",
                                    "add",
                                    "add_class",
                                    "remove",
                                    "contains",
                                    "contains_class",
                                    "prefix_lengths",
                                    "word_count",
                                    "cut_plain",
                                    "cut_safe",
                                    "cut_sheet",
                                    "reasons_plain",
                                    "reasons_safe",
                                    "reasons_sheet",
                                    "feed_plain",
                                    "feed_safe",
                                    "feed_sheet",
                                    "feed_refused",
                                    "join_figures",
                                    "check_claim",
                                    "cut_many_plain",
                                    "cut_many_safe",
                                    "cut_many_sheet",
                                    "reasons_many_plain",
                                    "reasons_many_safe",
                                    "reasons_many_sheet",
                                    "break_map",
                                    "breaks_up_to",
                                    "next_break",
                                    "read_image",
                                    "write_image",
                                    "plants_start",
                                    "plant_add",
                                    "plant_remove",
                                    "plant_contains",
                                    "plant_prefix_lengths",
                                    "plant_word_count",
                                    "plant_cut_plain",
                                    "plant_cut_safe",
                                    "plant_cut_sheet",
                                    "plant_reasons_plain",
                                    "plant_reasons_safe",
                                    "plant_reasons_sheet",
                                    "plant_cut_many_plain",
                                    "plant_cut_many_safe",
                                    "plant_cut_many_sheet",
                                    "plant_reasons_many_plain",
                                    "plant_reasons_many_safe",
                                    "plant_reasons_many_sheet",
                                    "plant_read_image",
                                    "plant_write_image"};
enum {
    DECODE,
    END_IN_BYTES,
    CLUSTERS,
    WINNERS,
    FRESH,
    ADD,
    ADD_CLASS,
    REMOVE,
    CONTAINS,
    CONTAINS_CLASS,
    PREFIX_LENGTHS,
    WORD_COUNT,
    CUT_PLAIN,
    CUT_SAFE,
    CUT_SHEET,
    REASONS_PLAIN,
    REASONS_SAFE,
    REASONS_SHEET,
    FEED_PLAIN,
    FEED_SAFE,
    FEED_SHEET,
    FEED_REFUSED,
    JOIN_FIGURES,
    CHECK_CLAIM,
    CUT_MANY_PLAIN,
    CUT_MANY_SAFE,
    CUT_MANY_SHEET,
    REASONS_MANY_PLAIN,
    REASONS_MANY_SAFE,
    REASONS_MANY_SHEET,
    BREAK_MAP,
    BREAKS_UP_TO,
    NEXT_BREAK,
    READ_IMAGE,
    WRITE_IMAGE,
    PLANTS_START,
    PLANT_ADD,
    PLANT_REMOVE,
    PLANT_CONTAINS,
    PLANT_PREFIX_LENGTHS,
    PLANT_WORD_COUNT,
    PLANT_CUT_PLAIN,
    PLANT_CUT_SAFE,
    PLANT_CUT_SHEET,
    PLANT_REASONS_PLAIN,
    PLANT_REASONS_SAFE,
    PLANT_REASONS_SHEET,
    PLANT_CUT_MANY_PLAIN,
    PLANT_CUT_MANY_SAFE,
    PLANT_CUT_MANY_SHEET,
    PLANT_REASONS_MANY_PLAIN,
    PLANT_REASONS_MANY_SAFE,
    PLANT_REASONS_MANY_SHEET,
    PLANT_READ_IMAGE,
    PLANT_WRITE_IMAGE,
    ALL
};

static size_t most[ALL];

static void enter(void) { call(); }

/* Makes a call on the painted stack and keeps what it used, if that is more than before. */
static void make(int which) {
    size_t kept = 0;
    memset(stack, PAINT, STACK);
    call = calls[which];
    getcontext(&there);
    there.uc_stack.ss_sp = stack;
    there.uc_stack.ss_size = STACK;
    there.uc_link = &here;
    makecontext(&there, enter, 0);
    swapcontext(&here, &there);
    while (kept < STACK && stack[kept] == PAINT) kept++;
    if (most[which] < STACK - kept) most[which] = STACK - kept;
}

static uint64_t seed = 1;

static uint32_t draw(uint32_t below) {
    seed = seed * 6364136223846793005u + 1442695040888963407u;
    return (uint32_t)((seed >> 33) % below);
}

/* A cell: mostly Thai, sometimes another scalar, now and then anything. */
static uint32_t cell(void) {
    uint32_t kind = draw(40);
    if (kind == 0 && draw(20) == 0) return draw(0xFFFFFFFF);
    if (kind < 4) return " \n1aZ."[draw(6)];
    return kind < 30 ? 0xE01 + draw(4) : 0xE01 + draw(0x5A);
}

static void fill(uint32_t *row, size_t len) {
    for (size_t i = 0; i < len; i++) row[i] = cell();
}

/* A dictionary of words that share their first characters, many of them as long as a word may be. */
static void dictionary(void) {
    pool_len = CELLS;
    make(FRESH);
    for (int i = 0; i < 12; i++) {
        word_len = 255;
        for (size_t k = 0; k < word_len; k++) word[k] = 0xE01 + (k < (size_t)(20 * i));
        make(ADD);
        word_len = 1 + draw(5);
        fill(word, word_len);
        make(ADD_CLASS);
    }
    make(CONTAINS), make(CONTAINS_CLASS), make(WORD_COUNT);
}

/* The map of the claimed ends, and one with a bit too many, asked at some position. */
static void maps(void) {
    map_len = FETLOCKICE_MAP_CELLS(text_len < LONG ? text_len : LONG) - (draw(4) == 0);
    make(BREAK_MAP);
    position = draw(4) ? draw((uint32_t)text_len + 1) : draw(0xFFFFFFFF);
    make(BREAKS_UP_TO), make(NEXT_BREAK);
    map[draw(FETLOCKICE_MAP_CELLS(LONG))] |= (uint64_t)1 << draw(64);
    make(BREAKS_UP_TO), make(NEXT_BREAK);
}

/* The ends of the plain cut that was made last, as they are and with one of them changed. */
static void claims(void) {
    claim_len = count;
    memcpy(claim, out, count * sizeof *claim);
    make(CHECK_CLAIM);
    maps();
    if (claim_len > 0) claim[draw((uint32_t)claim_len)] = draw(0xFFFFFFFF);
    make(CHECK_CLAIM);
    make(BREAK_MAP);
}

/* The text fed, a refused one counted, and a batch joined; now and then figures that are full. */
static void releases(void) {
    make(FEED_SAFE), make(FEED_SHEET), make(FEED_PLAIN);
    position = draw(8);
    make(FEED_REFUSED);
    memcpy(batch, figures, sizeof batch);
    make(JOIN_FIGURES);
    figures[draw(FETLOCKICE_FIGURES)] = draw(2) ? UINT64_MAX : draw(1000);
}

/* The text in parts, one of them nearly all of it, and now and then with ends that are wrong. */
static void part(size_t len) {
    for (size_t i = 0; i < TEXTS; i++)
        text_ends[i] = (uint32_t)(i < 3 ? i * len / 4096 : len - (TEXTS - 1 - i) * len / 4096);
    if (draw(8) == 0) text_ends[draw(TEXTS)] = draw(0xFFFFFFFF);
    answers_len = FETLOCKICE_ANSWER_CELLS * TEXTS - (draw(8) == 0);
}

/* Every call on texts of some length, with rows that are long enough and with rows that are not. */
static void on_texts(size_t len) {
    text_len = len;
    fill(text, len < LONG + 1 ? len : LONG + 1);
    if (draw(3)) /* so that most texts are scalars */
        for (size_t i = 0; i < len; i++)
            if (text[i] > 0xD7FF) text[i] = 0xE01;
    for (int room = 0; room < 3; room++) {
        out_len = room ? len : draw((uint32_t)len + 1);
        scratch_len = room < 2 ? FETLOCKICE_SCRATCH_CELLS(len < LONG ? len : LONG) : draw(9 * (uint32_t)len + 128);
        if (scratch_len > FETLOCKICE_SCRATCH_CELLS(LONG)) scratch_len = FETLOCKICE_SCRATCH_CELLS(LONG);
        make(CLUSTERS), make(WINNERS), make(PREFIX_LENGTHS);
        make(REASONS_SAFE), make(REASONS_SHEET), make(REASONS_PLAIN);
        releases();
        make(CUT_SAFE), make(CUT_SHEET), make(CUT_PLAIN);
        claims();
        part(len);
        for (int which = CUT_MANY_PLAIN; which <= REASONS_MANY_SHEET; which++) make(which);
    }
}

/* The cluster with the most characters, so that the second matcher goes as deep as an alternative has items. */
static void on_clusters(void) {
    static const uint32_t deepest[] = {0xE40, 0xE01, 0xE01, 0xE35, 0xE48, 0xE22, 0xE30, 0xE01, 0xE01, 0xE34, 0xE4C};
    text_len = out_len = sizeof deepest / sizeof *deepest;
    memcpy(text, deepest, sizeof deepest);
    make(CLUSTERS), make(WINNERS);
}

/* Words of every length, added and removed: removal goes as deep as the word is long. */
static void on_words(void) {
    for (size_t len = 0; len < 258; len += 1 + draw(3)) {
        word_len = len;
        for (size_t k = 0; k < len; k++) word[k] = 0xE01 + draw(3);
        make(ADD), make(CONTAINS), make(ADD_CLASS), make(CONTAINS_CLASS), make(REMOVE);
    }
    word_len = 255;
    for (size_t k = 0; k < word_len; k++) word[k] = 0xE05;
    make(ADD), make(REMOVE), make(ADD_CLASS);
    word[254] = 0xE06;
    make(ADD_CLASS), make(CONTAINS_CLASS), make(REMOVE), make(REMOVE);
}

static void on_bytes(void) {
    bytes_len = draw(4 * LONG);
    for (size_t i = 0; i < bytes_len; i += 3) memcpy(bytes + i, draw(500) ? "\xE0\xB8\x81" : "\xE0\xB8\xC0", 3);
    out_len = LONG;
    make(DECODE), make(END_IN_BYTES);
    for (size_t i = 0; i < bytes_len; i++) bytes[i] = (uint8_t)draw(256);
    make(DECODE), make(END_IN_BYTES);
}

/* The words as an image, which goes as deep as the longest is, read again; and the image with a byte changed. */
static void images(void) {
    image_room = draw(100);
    make(WRITE_IMAGE);
    image_room = sizeof image;
    make(WRITE_IMAGE);
    image_len = count;
    make(READ_IMAGE);
    pool_len = 8 * (1 + draw(300));
    make(READ_IMAGE);
    pool_len = CELLS;
    if (image_len > 0) image[draw((uint32_t)image_len)] = (uint8_t)draw(256);
    make(READ_IMAGE);
}

/* Both plants with words as long as a word may be, each removed, written, read and cut by; and limits that don't fit. */
static void plants(void) {
    limit_a = CELLS / 8, limit_b = draw(2);
    make(PLANTS_START);
    limit_a = CELLS / 16, limit_b = CELLS / 16 - 1;
    make(PLANTS_START);
    for (int i = 0; i < 6; i++) {
        plant_b = i % 2 == 1;
        word_len = 255;
        for (size_t k = 0; k < word_len; k++) word[k] = 0xE01 + (k < (size_t)(20 * i));
        make(PLANT_ADD), make(PLANT_CONTAINS), make(PLANT_WORD_COUNT);
        word[254] = 0xE06;
        make(PLANT_ADD), make(PLANT_REMOVE);
        image_room = sizeof image;
        make(PLANT_WRITE_IMAGE);
        image_len = count;
        make(PLANT_READ_IMAGE);
        part(text_len);
        for (int which = PLANT_PREFIX_LENGTHS; which <= PLANT_REASONS_MANY_SHEET; which++) make(which);
    }
    make(PLANT_REMOVE);
}

static void hostile_pool(void) {
    pool[draw(64)] = draw(3) ? draw(300) : draw(0xFFFFFFFF);
    shared[draw(64)] = draw(3) ? draw(300) : draw(0xFFFFFFFF);
    for (int which = ADD; which < ALL; which++) make(which);
}

int main(int argc, char **argv) {
    int rounds = argc > 1 ? atoi(argv[1]) : 20, failed = 0;
    for (int round = 0; round < rounds; round++) {
        dictionary();
        on_words();
        on_texts(round == 0 ? LONG : round == 1 ? LONG + 1 : draw(2000));
        on_clusters();
        on_bytes();
        images();
        plants();
        hostile_pool();
    }
    for (int which = 0; which < ALL; which++) {
        int over = most[which] > FETLOCKICE_MAX_STACK / 2;
        printf("%6zu fetlockice_%s%s\n", most[which], names[which],
               over ? ": more than half of FETLOCKICE_MAX_STACK" : "");
        failed += over;
    }
    printf("stack/run: %d of %d functions take at most %d bytes, half of FETLOCKICE_MAX_STACK\n", ALL - failed, ALL,
           FETLOCKICE_MAX_STACK / 2);
    return failed > 0;
}
