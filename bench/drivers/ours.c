/* The proved library's side. See driver.h for the command line; WORDS is a pool that
 *
 *   ours load WORDS NODES POOL [FROM]
 *
 * has made by adding the words one by one, to a fresh pool or to the words of the pool FROM; it writes the nanoseconds
 * that took and the pool's bytes.
 *
 *   ours size read-image TEXTS POOL
 *
 * writes the bytes of the image of the pool's words. */
#include "driver.h"
#include "fetlockice.h"

/* One check of the pool, and the search for words at every place of the text; answers their number: crates/bench_prefix_search. */
size_t search_places(const uint32_t *pool, size_t pool_len, const uint32_t *text, size_t text_len, uint32_t *out, size_t out_len);

/* An earlier library, linked as the side "before", may lack these. */
#pragma weak fetlockice_end_in_bytes
#pragma weak fetlockice_winners
#pragma weak fetlockice_cut_sheet
#pragma weak fetlockice_check_claim
#pragma weak fetlockice_cut_many_plain
#pragma weak fetlockice_reasons_plain
#pragma weak fetlockice_reasons_many_plain
#pragma weak fetlockice_feed_plain
#pragma weak fetlockice_break_map
#pragma weak fetlockice_next_break
#pragma weak fetlockice_read_image
#pragma weak fetlockice_write_image
#pragma weak fetlockice_plants_start
#pragma weak fetlockice_plant_add
#pragma weak fetlockice_plant_remove
#pragma weak fetlockice_plant_contains
#pragma weak fetlockice_plant_cut_plain
#pragma weak fetlockice_plant_cut_many_plain
#pragma weak fetlockice_plant_reasons_many_plain
#pragma weak fetlockice_plant_read_image

enum op {
    DECODE,
    CLUSTERS,
    WINNERS,
    PREFIX,
    PLACES,
    PLAIN,
    SAFE,
    SHEET,
    BATCH,
    MANY,
    REASONS_MANY,
    CUT,
    REASONS,
    FEED,
    CLAIM,
    MAP,
    NEXT,
    NEXT_BARE,
    CHECK,
    EDIT,
    READ_IMAGE,
    WRITE_IMAGE,
    PLANT_CUT,
    PLANT_MANY,
    PLANT_REASONS_MANY,
    PLANT_CHECK,
    PLANT_EDIT,
    READ,
    READ_WIDE
};
static const char *const names[] = {"decode",     "clusters",           "winners",     "prefix",     "places",       "plain",
                                    "safe",       "sheet",              "batch",       "many",       "reasons-many", "cut",
                                    "reasons",    "feed",               "claim",       "map",        "next",         "next-bare",
                                    "check",      "edit",               "read-image",  "write-image", "plant-cut",
                                    "plant-many", "plant-reasons-many", "plant-check", "plant-edit", "read",
                                    "read-wide"};

static enum op op;
static uint32_t *pool, *out, *won, *scratch, *cells, *positions, *text_ends, *told, **scalars, **ends;
static uint32_t *joined; /* the scalars of all texts, which end there at text_ends */
static uint64_t **maps;
static uint8_t *image;
static size_t pool_len, image_len, scratch_len, *lengths, *end_counts;
static uint32_t *shared; /* a pool of two plants, as long as the pool */
static bool plant_b;
static volatile uint32_t kept;

static void accepted(uint32_t answer) {
    if (answer) die("refused");
}

/* A library without ends in bytes decodes without positions. */
typedef uint32_t plain_decode(const uint8_t *, size_t, uint32_t *, size_t, size_t *, size_t *);

static size_t decode(size_t i, uint32_t *to, uint32_t *places) {
    plain_decode *plain = (plain_decode *)(void (*)(void))fetlockice_decode;
    size_t n = texts[i].len, count, detail;
    accepted(fetlockice_end_in_bytes ? fetlockice_decode(texts[i].bytes, n, to, n, places, n + 1, &count, &detail)
                                     : plain(texts[i].bytes, n, to, n, &count, &detail));
    return count;
}

/* From bytes to ends: decoding is included. */
static size_t cut(size_t i) {
    size_t n = decode(i, cells, positions), count, edges, detail;
    if (op == PLAIN)
        accepted(fetlockice_cut_plain(cells, n, pool, pool_len, out, n, scratch, FETLOCKICE_SCRATCH_CELLS(n), &count, &edges,
                                      &detail));
    else if (op == SAFE)
        accepted(fetlockice_cut_safe(cells, n, pool, pool_len, out, n, scratch, FETLOCKICE_SCRATCH_CELLS(n), &count, &edges,
                                     &detail));
    else
        accepted(fetlockice_cut_sheet(cells, n, pool, pool_len, out, n, scratch, FETLOCKICE_SCRATCH_CELLS(n), &count, &edges,
                                      &detail));
    return count;
}

/* All texts from bytes to ends in one call; gives the number of texts. */
static size_t batch(void) {
    size_t n = 0, count, detail;
    for (size_t i = 0; i < text_count; i++) text_ends[i] = (uint32_t)(n += decode(i, cells + n, positions + n + i));
    accepted(fetlockice_cut_many_plain(cells, n, text_ends, text_count, pool, pool_len, told,
                                       FETLOCKICE_ANSWER_CELLS * text_count, out, n, scratch, scratch_len, &count, &detail));
    return count;
}

/* All texts' scalars in one call, to ends or to pairs, by the pool or by a plant; gives the number of texts. */
static size_t many(void) {
    size_t n = text_count > 0 ? text_ends[text_count - 1] : 0, told_len = FETLOCKICE_ANSWER_CELLS * text_count, count, detail;
    uint32_t answer =
        op == MANY ? fetlockice_cut_many_plain(joined, n, text_ends, text_count, pool, pool_len, told, told_len, out, n, scratch,
                                               scratch_len, &count, &detail)
        : op == REASONS_MANY
            ? fetlockice_reasons_many_plain(joined, n, text_ends, text_count, pool, pool_len, told, told_len, out, 2 * n, scratch,
                                            scratch_len, &count, &detail)
        : op == PLANT_MANY
            ? fetlockice_plant_cut_many_plain(joined, n, text_ends, text_count, shared, pool_len, plant_b, told, told_len, out, n,
                                              scratch, scratch_len, &count, &detail)
            : fetlockice_plant_reasons_many_plain(joined, n, text_ends, text_count, shared, pool_len, plant_b, told, told_len, out,
                                                  2 * n, scratch, scratch_len, &count, &detail);
    accepted(answer);
    return count;
}

/* The plain cut of scalars. */
static size_t cut_scalars(size_t i, uint32_t *to) {
    size_t n = lengths[i], count, edges, detail;
    accepted(fetlockice_cut_plain(scalars[i], n, pool, pool_len, to, n, scratch, FETLOCKICE_SCRATCH_CELLS(n), &count, &edges,
                                  &detail));
    return count;
}

/* The same with reasons: pairs. */
static size_t reasons(size_t i) {
    size_t n = lengths[i], count, edges, detail;
    accepted(fetlockice_reasons_plain(scalars[i], n, pool, pool_len, out, 2 * n, scratch, FETLOCKICE_SCRATCH_CELLS(n), &count,
                                      &edges, &detail));
    return 2 * count;
}

/* The same with release figures beside it. */
static size_t feed(size_t i) {
    static uint64_t figures[FETLOCKICE_FIGURES];
    size_t n = lengths[i], count, edges, detail;
    accepted(fetlockice_feed_plain(figures, scalars[i], n, pool, pool_len, out, 2 * n, scratch, FETLOCKICE_SCRATCH_CELLS(n),
                                   &count, &edges, &detail));
    return 2 * count;
}

/* The check of these ends, which are right. */
static size_t claim(size_t i) {
    size_t n = lengths[i], right, token, detail;
    accepted(fetlockice_check_claim(scalars[i], n, pool, pool_len, ends[i], end_counts[i], scratch, FETLOCKICE_SCRATCH_CELLS(n),
                                    &right, &token, &detail));
    if (!right) die("our own ends are not right");
    return right;
}

/* The map of these ends. */
static size_t map(size_t i) {
    size_t n = lengths[i], count, detail;
    accepted(fetlockice_break_map(n, ends[i], end_counts[i], maps[i], FETLOCKICE_MAP_CELLS(n), &count, &detail));
    return count;
}

/* The same call without a test of what it is given. */
__attribute__((noinline)) static uint32_t next_bare(size_t n, const uint64_t *row, size_t row_len, size_t position, size_t *found,
                                                    size_t *at, size_t *detail) {
    (void)row_len;
    *found = *at = *detail = 0;
    for (size_t p = position + 1; p <= n; p = (p / 64 + 1) * 64) {
        uint64_t bits = row[p / 64] >> p % 64;
        if (bits == 0) continue;
        *found = 1, *at = p + (size_t)__builtin_ctzll(bits);
        break;
    }
    return 0;
}

/* Every break of the map, found from the one before; their number is that of the ends. */
static size_t next(size_t i) {
    size_t n = lengths[i], found, at, detail, position = 0, count = 0;
    for (;; position = at, count++) {
        accepted((op == NEXT ? fetlockice_next_break : next_bare)(n, maps[i], FETLOCKICE_MAP_CELLS(n), position, &found, &at,
                                                                  &detail));
        if (!found) break;
    }
    if (count != end_counts[i]) die("the breaks are not the ends");
    return count;
}

/* An empty word is searched for in no time, so this is the check of the pool. */
static size_t check(void) {
    size_t count, detail;
    accepted(fetlockice_contains(pool, pool_len, cells, 0, &count, &detail));
    return count;
}

/* Takes a word of the pool out and puts it in again: the pool is as it was. */
static size_t edit(size_t i) {
    size_t count, detail;
    accepted(fetlockice_remove(pool, pool_len, scalars[i], lengths[i], &count, &detail));
    if (count != 1) die("a word was not held");
    accepted(fetlockice_add(pool, pool_len, scalars[i], lengths[i], &count, &detail));
    return count;
}

/* Reads the image of the pool's words: the pool is as it was. */
static size_t read_image(void) {
    size_t count, detail;
    accepted(fetlockice_read_image(pool, pool_len, image, image_len, &count, &detail));
    return count;
}

static size_t write_image(void) {
    size_t count, detail;
    accepted(fetlockice_write_image(pool, pool_len, image, image_len, &count, &detail));
    return count;
}

/* The same of a plant in a pool of two. */
static size_t plant_cut(size_t i) {
    size_t n = lengths[i], count, edges, detail;
    accepted(fetlockice_plant_cut_plain(scalars[i], n, shared, pool_len, plant_b, out, n, scratch, FETLOCKICE_SCRATCH_CELLS(n),
                                        &count, &edges, &detail));
    return count;
}

static size_t plant_check(void) {
    size_t count, word_class, detail;
    accepted(fetlockice_plant_contains(shared, pool_len, plant_b, cells, 0, &count, &word_class, &detail));
    return count;
}

static size_t plant_edit(size_t i) {
    size_t count, detail;
    accepted(fetlockice_plant_remove(shared, pool_len, plant_b, scalars[i], lengths[i], &count, &detail));
    if (count != 1) die("a plant did not hold a word");
    accepted(fetlockice_plant_add(shared, pool_len, plant_b, scalars[i], lengths[i], 0, &count, &detail));
    return count;
}

__attribute__((noinline, optimize("O2", "no-tree-vectorize"))) static uint32_t read_cells(void) {
    uint32_t sum = 0;
    for (size_t i = 0; i < pool_len; i++) sum += pool[i];
    return sum;
}

__attribute__((noinline, optimize("O3"))) static uint32_t read_wide(void) {
    uint32_t sum = 0;
    for (size_t i = 0; i < pool_len; i++) sum += pool[i];
    return sum;
}

static size_t answer(size_t i) {
    size_t count = 0, detail;
    switch (op) {
    case DECODE: return decode(i, out, positions);
    case CLUSTERS: accepted(fetlockice_clusters(scalars[i], lengths[i], out, lengths[i], &count, &detail)); return count;
    case WINNERS:
        accepted(fetlockice_winners(scalars[i], lengths[i], out, lengths[i], won, lengths[i], &count, &detail));
        return count;
    case PREFIX:
        accepted(fetlockice_prefix_lengths(pool, pool_len, scalars[i], lengths[i], out, 255, &count, &detail));
        return count;
    case PLACES: return search_places(pool, pool_len, scalars[i], lengths[i], out, lengths[i]);
    case PLAIN:
    case SAFE:
    case SHEET: return cut(i);
    case BATCH: return batch();
    case MANY:
    case REASONS_MANY:
    case PLANT_MANY:
    case PLANT_REASONS_MANY: return many();
    case CUT: return cut_scalars(i, out);
    case REASONS: return reasons(i);
    case FEED: return feed(i);
    case CLAIM: return claim(i);
    case MAP: return map(i);
    case NEXT:
    case NEXT_BARE: return next(i);
    case CHECK: return check();
    case EDIT: return edit(i);
    case READ_IMAGE: return read_image();
    case WRITE_IMAGE: return write_image();
    case PLANT_CUT: return plant_cut(i);
    case PLANT_CHECK: return plant_check();
    case PLANT_EDIT: return plant_edit(i);
    case READ: return read_cells();
    case READ_WIDE: return read_wide();
    }
    return 0;
}

/* Whether a call has all texts. */
static bool has_all(void) {
    return op == BATCH || op == MANY || op == REASONS_MANY || op == PLANT_MANY || op == PLANT_REASONS_MANY;
}

__attribute__((noinline)) void bench_pass(void) {
    for (size_t i = 0; i < (has_all() ? 1 : text_count); i++) kept += (uint32_t)answer(i);
}

static void show(size_t count) {
    for (size_t k = 0; k < count; k++) printf("%u ", out[k]);
}

static void all_answers(void) {
    size_t width = op == REASONS_MANY || op == PLANT_REASONS_MANY ? 2 : 1;
    answer(0);
    for (size_t i = 0; i < text_count; i++) {
        accepted(told[FETLOCKICE_ANSWER_CELLS * i]);
        show(width * told[FETLOCKICE_ANSWER_CELLS * i + 1]), putchar('\n');
        out += width * told[FETLOCKICE_ANSWER_CELLS * i + 1];
    }
}

static void answers(void) {
    size_t words = 0;
    if (has_all()) {
        all_answers();
        return;
    }
    for (size_t i = 0; i < text_count; i++) {
        if (op == PLACES) words += answer(i);
        else show(answer(i)), putchar('\n');
    }
    if (op == PLACES) printf("%zu\n", words);
}

/* Lent longer, with zeros in the new nodes, a pool holds the same words. */
static void start(const char *from) {
    size_t count, detail, bytes;
    if (!from) {
        accepted(fetlockice_fresh(pool, pool_len, &count, &detail));
        return;
    }
    uint8_t *held = read_file(from, &bytes);
    if (4 * pool_len < bytes) die(from);
    memcpy(pool, held, bytes);
    free(held);
}

static void load(const char *words, size_t nodes, const char *to, const char *from) {
    size_t count, detail;
    texts = read_texts(words, &text_count);
    pool_len = nodes * FETLOCKICE_NODE_CELLS;
    pool = room(4 * pool_len);
    cells = room(4 * 1024);
    positions = room(4 * 1024);
    double began = now_ns();
    start(from);
    for (size_t i = 0; i < text_count; i++) {
        size_t n = decode(i, cells, positions);
        accepted(fetlockice_add(pool, pool_len, cells, n, &count, &detail));
        if (count != 1) die("a word was held already");
    }
    printf("%.0f %zu\n", now_ns() - began, 4 * pool_len);
    FILE *f = fopen(to, "wb");
    if (!f || fwrite(pool, 4, pool_len, f) != pool_len || fclose(f)) die(to);
}

/* Reads the texts, decodes them, and makes room for the longest and for all. */
static void prepare(const char *path) {
    size_t longest = 0, all = 0;
    texts = read_texts(path, &text_count);
    for (size_t i = 0; i < text_count; i++) all += texts[i].len;
    positions = room(4 * (all + text_count));
    scalars = room(text_count * sizeof *scalars);
    lengths = room(text_count * sizeof *lengths);
    for (size_t i = 0; i < text_count; i++) {
        scalars[i] = room(4 * texts[i].len);
        lengths[i] = decode(i, scalars[i], positions);
        if (longest < lengths[i]) longest = lengths[i];
    }
    scratch_len = FETLOCKICE_SCRATCH_CELLS(longest);
    cells = room(4 * all);
    out = room(4 * (2 * all + 255));
    won = room(4 * longest);
    scratch = room(4 * scratch_len);
    text_ends = room(4 * text_count);
    told = room(4 * FETLOCKICE_ANSWER_CELLS * text_count);
    joined = room(4 * all);
    for (size_t i = 0, n = 0; i < text_count; i++) {
        memcpy(joined + n, scalars[i], 4 * lengths[i]);
        text_ends[i] = (uint32_t)(n += lengths[i]);
    }
}

/* The ends that are claimed, and their maps. */
static void prepare_ends(void) {
    ends = room(text_count * sizeof *ends);
    end_counts = room(text_count * sizeof *end_counts);
    maps = room(text_count * sizeof *maps);
    for (size_t i = 0; i < text_count; i++) {
        ends[i] = room(4 * lengths[i]);
        end_counts[i] = cut_scalars(i, ends[i]);
        maps[i] = room(8 * FETLOCKICE_MAP_CELLS(lengths[i]));
        if (op != CLAIM) map(i);
    }
}

/* The image of the pool's words. The pool is made anew by it, with the same cells. */
static void prepare_image(void) {
    size_t count, detail;
    uint32_t *before = room(4 * pool_len);
    memcpy(before, pool, 4 * pool_len);
    if (fetlockice_write_image(pool, pool_len, (uint8_t *)before, 0, &count, &image_len) != FETLOCKICE_OUTPUT_TOO_SHORT)
        die("an image of no bytes");
    image = room(image_len);
    write_image();
    accepted(fetlockice_fresh(pool, pool_len, &count, &detail));
    read_image();
    if (memcmp(before, pool, 4 * pool_len) != 0) die("an image gives other cells than adding its words");
    free(before);
}

/* A pool of two plants with as many cells. Both have the pool's words where there is room for that, and plant B is asked;
 * else plant A has them, and plant B none. */
static void prepare_plants(void) {
    size_t count, detail, nodes = pool_len / FETLOCKICE_NODE_CELLS, limit = pool[0] - 1;
    if (nodes > FETLOCKICE_MAX_NODES) nodes = FETLOCKICE_MAX_NODES;
    plant_b = 2 * limit < nodes;
    shared = room(4 * pool_len);
    accepted(fetlockice_plants_start(shared, pool_len, plant_b ? (nodes - 1) / 2 : limit, plant_b ? nodes - 1 - (nodes - 1) / 2 : 0,
                                     &count, &detail));
    accepted(fetlockice_plant_read_image(shared, pool_len, false, image, image_len, &count, &detail));
    if (plant_b) accepted(fetlockice_plant_read_image(shared, pool_len, true, image, image_len, &count, &detail));
}

int main(int argc, char **argv) {
    if ((argc == 5 || argc == 6) && !strcmp(argv[1], "load")) {
        load(argv[2], strtoul(argv[3], NULL, 10), argv[4], argv[5]);
        return 0;
    }
    if (argc < 4) die("HOW OP TEXTS [POOL]");
    for (op = DECODE; strcmp(names[op], argv[2]);)
        if (++op > READ_WIDE) die(argv[2]);
    prepare(argv[3]);
    if (argc > 4) pool = (uint32_t *)read_file(argv[4], &pool_len), pool_len /= 4;
    if (op >= CLAIM && op <= NEXT_BARE) prepare_ends();
    if (op >= READ_IMAGE && op <= PLANT_EDIT) prepare_image();
    if (op >= PLANT_CUT && op <= PLANT_EDIT) prepare_plants();
    if (!strcmp(argv[1], "size")) return printf("%zu\n", image_len), 0;
    if (!strcmp(argv[1], "answers")) answers();
    else if (!strcmp(argv[1], "time")) printf("%.1f\n", best_ns());
    else bench_pass();
    return 0;
}
