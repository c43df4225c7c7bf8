#include "images.h"
#include "../include/fetlockice.h"
#include "inputs.h"
#include "model.h"
#include "rows.h"
#include <string.h>

/* More than the words of the largest pool take, and as many nodes as their scalars may need. */
#define IMAGE_ROOM ((size_t)1 << 20)

unsigned long image_calls[IMAGE_OPS], image_refused;

/* What a call is given. */
struct given {
    enum image_op op;
    size_t cells, size, room; /* of the pool, of the image, of the output */
    uint32_t pool[POOL_ROOM];
    uint8_t image[IMAGE_ROOM];
};

struct told {
    uint32_t number;
    size_t count, detail;
};

static struct given g;

/* ---- images by the rules */

static void put(uint8_t *image, size_t *size, size_t bytes, uint64_t value) {
    must(*size + bytes <= IMAGE_ROOM, "the run's images have no room");
    for (size_t k = 0; k < bytes; k++, value >>= 8) image[(*size)++] = (uint8_t)value;
}

static void put_scalar(uint8_t *image, size_t *size, uint32_t x) {
    size_t bytes = utf8_size(x);
    if (bytes == 1) {
        put(image, size, 1, x);
        return;
    }
    put(image, size, 1, ((0xF00u >> bytes) & 0xFF) | x >> 6 * (bytes - 1));
    for (size_t k = bytes - 1; k > 0; k--) put(image, size, 1, 0x80 | (x >> 6 * (k - 1) & 0x3F));
}

/* The records of the words at a node and below it, whose path is the first n scalars. */
static void put_words(const uint32_t *pool, size_t node, uint32_t *path, size_t n, uint8_t *image, size_t *size) {
    const uint32_t *cells = pool + 8 * node;
    if (node > 0 && cells[3] != 0) {
        size_t start = *size;
        put(image, size, 4, 0), put(image, size, 2, 1), put(image, size, 2, cells[3] - 1);
        for (size_t k = 0; k < n; k++) put_scalar(image, size, path[k]);
        size_t length = *size - start - 4, at = start;
        put(image, &at, 4, length);
    }
    for (size_t child = cells[1]; child < (size_t)cells[1] + cells[2]; child++) {
        path[n] = pool[8 * child];
        put_words(pool, child, path, n + 1, image, size);
    }
}

/* The image of a dictionary, and its bytes. */
static size_t image_of(const uint32_t *pool, uint8_t *image) {
    uint32_t path[256];
    size_t size = 0;
    put_words(pool, 0, path, 0, image, &size);
    put(image, &size, 4, 6), put(image, &size, 2, 0), put(image, &size, 4, words_of(pool));
    return size;
}

/* The words of an image, one behind the other: where each starts and ends, and its class. */
static uint32_t scalars[4 * IMAGE_ROOM], starts[IMAGE_ROOM], word_ends[IMAGE_ROOM], classes[IMAGE_ROOM];
static size_t words;

static uint64_t value(const uint8_t *bytes, size_t n) {
    uint64_t sum = 0;
    while (n > 0) sum = sum << 8 | bytes[--n];
    return sum;
}

/* The word at the end of the list is above the one before it. */
static int rises(void) {
    if (words == 0) return 1;
    const uint32_t *a = scalars + starts[words - 1], *b = scalars + starts[words];
    size_t m = word_ends[words - 1] - starts[words - 1], n = word_ends[words] - starts[words], k = 0;
    while (k < m && k < n && a[k] == b[k]) k++;
    return k < n && (k == m || a[k] < b[k]);
}

/* Takes the word of a record's body to the end of the list; 0 where it isn't as it must be. */
static int take_word(const uint8_t *body, size_t size) {
    size_t n, start, end, at = words > 0 ? word_ends[words - 1] : 0;
    if (size < 3 || utf8_refusal(body + 2, size - 2, scalars + at, 4 * IMAGE_ROOM - at, &n).number != 0) return 0;
    trimmed(scalars + at, n, &start, &end);
    if (n < 1 || n > 255 || start != 0 || end != n) return 0;
    starts[words] = (uint32_t)at, word_ends[words] = (uint32_t)(at + n), classes[words] = (uint32_t)value(body, 2);
    return rises();
}

/* Refusal 9, or none and the list of the words. */
static struct refusal image_refusal(const uint8_t *image, size_t size) {
    words = 0;
    for (size_t at = 0;;) {
        struct refusal wrong = {9, at};
        if (size - at < 6) return wrong;
        uint64_t length = value(image + at, 4), kind = value(image + at + 4, 2);
        if (length < 2 || length > size - at - 4 || kind > 1) return wrong;
        const uint8_t *body = image + at + 6;
        at += 4 + (size_t)length;
        if (kind == 0) {
            if (length != 6 || value(body, 4) != words) return wrong;
            return at == size ? (struct refusal){0, 0} : (struct refusal){9, at};
        }
        if (!take_word(body, (size_t)length - 2)) return wrong;
        words++;
    }
}

/* A node of the words from one to another that share their first scalars. */
struct node {
    uint32_t from, to, depth;
};
static struct node nodes[IMAGE_ROOM + 1];

static uint32_t scalar_at(size_t word, size_t depth) { return scalars[starts[word] + depth]; }
static int ends_at(const struct node *n) {
    return n->depth > 0 && word_ends[n->from] - starts[n->from] == n->depth;
}

/* The nodes of the words, level by level; how many. */
static size_t lay_out(void) {
    size_t count = 1;
    nodes[0] = (struct node){0, (uint32_t)words, 0};
    for (size_t i = 0; i < count; i++) {
        struct node n = nodes[i];
        for (uint32_t k = n.from + (uint32_t)(n.from < n.to && ends_at(&n)), end; k < n.to; k = end) {
            for (end = k + 1; end < n.to && scalar_at(end, n.depth) == scalar_at(k, n.depth);) end++;
            nodes[count++] = (struct node){k, end, n.depth + 1};
        }
    }
    return count;
}

/* The cells of the nodes that were laid out. */
static void cells_of_nodes(uint32_t *pool, size_t cells, size_t count) {
    size_t first = 1;
    memset(pool, 0, 32 * nodes_of(cells));
    for (size_t i = 0; i < count; i++) {
        const struct node *n = &nodes[i];
        uint32_t *cell = pool + 8 * i;
        size_t end = first;
        while (end < count && nodes[end].depth == n->depth + 1 && nodes[end].from >= n->from && nodes[end].to <= n->to)
            end++;
        cell[0] = i == 0 ? (uint32_t)count : scalar_at(n->from, n->depth - 1);
        cell[1] = (uint32_t)first, cell[2] = (uint32_t)(end - first);
        cell[3] = ends_at(n) ? 1 + classes[n->from] : 0;
        first = end;
    }
}

/* ---- what is given */

/* Where a record of an image starts that is right; one of them. */
static size_t some_record(void) {
    size_t at = 0;
    while (at + 6 <= g.size && value(g.image + at, 4) + 4 <= g.size - at && below(4) != 0)
        at += 4 + (size_t)value(g.image + at, 4);
    return at;
}

/* A number near one of those that records have, or near the largest. */
static uint64_t some_number(void) {
    size_t kind = below(5);
    return kind == 0 ? below(4) : kind == 1 ? 0xFFFFFFFF - below(12) : kind == 2 ? draw() : below(300);
}

/* Changes a byte, a length, a kind or a count, cuts the end off, puts bytes behind it, or a record in again. */
static void damage_image(void) {
    size_t at = some_record(), kind = below(8), size = at;
    if (kind == 0 && g.size > 0)
        g.image[below(g.size)] = (uint8_t)draw();
    else if (kind == 1 && at + 4 <= g.size)
        put(g.image, &size, 4, some_number());
    else if (kind == 2 && at + 6 <= g.size)
        size += 4, put(g.image, &size, 2, below(3));
    else if (kind == 3 && g.size >= 10)
        size = g.size - 4, put(g.image, &size, 4, below(2) == 0 ? some_number() : value(g.image + size, 4) + below(3) - 1);
    else if (kind == 4)
        g.size = below(g.size + 1);
    else if (kind == 5)
        for (size_t k = 1 + below(12); k > 0; k--) put(g.image, &g.size, 1, below(2) * draw());
    else if (kind == 6 && at + 6 <= g.size && value(g.image + at, 4) + 4 <= g.size - at) {
        size_t length = 4 + (size_t)value(g.image + at, 4);
        must(g.size + length <= IMAGE_ROOM, "the run's images have no room");
        memmove(g.image + at + length, g.image + at, g.size - at);
        g.size += length;
    } else if (g.size > 0)
        g.image[below(g.size)] ^= (uint8_t)(1u << below(8));
}

/* The image of one of the run's dictionaries, as it is or damaged; or bytes that are none. */
static void make_image(void) {
    const struct living *from = &living[below(LIVING)];
    size_t kind = below(8);
    g.size = 0;
    if (from->length >= 8) g.size = image_of(from->cells, g.image);
    for (; kind < 5 && kind > 2; kind--) damage_image();
    if (kind != 7) return;
    g.size = below(64);
    for (size_t i = 0; i < g.size; i++) g.image[i] = (uint8_t)(below(2) * draw());
}

/* ---- the calls */

static struct told call(struct row *pool, struct row *bytes) {
    size_t numbers[5] = {draw(), draw(), draw(), draw(), draw()}, before[5], *count = &numbers[1], *detail = &numbers[3];
    uint32_t *pool_row = lend(pool, g.pool, 4 * g.cells), number;
    uint8_t *row = lend(bytes, g.op == READ_IMAGE ? g.image : NULL, g.op == READ_IMAGE ? g.size : g.room);
    memcpy(before, numbers, sizeof before);
    calls++;
    image_calls[g.op]++;
    if (g.op == READ_IMAGE)
        number = fetlockice_read_image(pool_row, g.cells, row, g.size, count, detail);
    else
        number = fetlockice_write_image(pool_row, g.cells, row, g.room, count, detail);
    for (size_t i = 0; i < 5; i += 2) must(numbers[i] == before[i], "a guard between two numbers was written");
    return (struct told){number, *count, *detail};
}

static void check_refusal(const struct told *t, struct refusal r) {
    must(t->number == r.number && t->detail == r.detail, "another refusal of an image than is due");
    must(t->number == 0 || t->count == 0, "a number isn't 0 that must be");
    image_refused += t->number != 0;
}

/* 4, 9 and then 8, and the cells of the words. */
static void check_read(const struct told *t, const struct row *pool, const struct row *image, int is_dict) {
    static uint32_t due[POOL_ROOM];
    struct refusal r = image_refusal(g.image, g.size);
    size_t needed = r.number == 0 ? lay_out() : 0, capacity = nodes_of(g.cells);
    if (!is_dict) r = (struct refusal){4, 0};
    if (r.number == 0 && needed > capacity) r = (struct refusal){8, needed - capacity};
    check_refusal(t, r);
    check_kept(image, 0, "an image was written");
    check_kept(pool, t->number == 0 ? 32 * capacity : 0, "a pool was written that must be kept");
    if (t->number != 0) return;
    must(t->count == words, "another number of words than the image has");
    cells_of_nodes(due, g.cells, needed);
    must(memcmp(pool->lent, due, 32 * capacity) == 0, "other cells than the image's words have");
    must(is_dictionary(due, g.cells), "the new pool is no dictionary");
    if (drawn != NULL) memcpy(drawn->cells, pool->lent, 32 * capacity);
}

/* 4, and 6 exactly where the output is a byte too short; and the bytes of the words. */
static void check_written(const struct told *t, const struct row *pool, const struct row *out, int is_dict) {
    struct refusal r = {is_dict ? 0 : 4, 0};
    size_t needed = is_dict ? image_of(g.pool, g.image) : 0;
    if (is_dict && g.room < needed) r = (struct refusal){6, needed};
    check_refusal(t, r);
    check_kept(pool, 0, "a pool was written that must be kept");
    check_kept(out, t->number == 0 ? needed : 0, "an output was written that must be kept");
    if (t->number != 0) return;
    must(t->count == needed && memcmp(out->lent, g.image, needed) == 0, "other bytes than the words have");
    struct refusal read = image_refusal(g.image, needed);
    must(read.number == 0 && words == words_of(g.pool), "the image that was written isn't one");
}

void image_step(void) {
    static struct row pool[2], bytes[2];
    g.op = (enum image_op)below(IMAGE_OPS);
    g.cells = make_pool(g.pool);
    int is_dict = is_dictionary(g.pool, g.cells);
    if (g.op == READ_IMAGE)
        make_image();
    else
        g.room = make_room(is_dict ? image_of(g.pool, g.image) : below(100));
    for (int k = 0; k < 2; k++) {
        struct told t = call(&pool[k], &bytes[k]);
        if (g.op == READ_IMAGE)
            check_read(&t, &pool[k], &bytes[k], is_dict);
        else
            check_written(&t, &pool[k], &bytes[k], is_dict);
    }
}
