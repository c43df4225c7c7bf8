#define _GNU_SOURCE
#include "rows.h"
#include <stdio.h>
#include <stdlib.h>
#include <string.h>
#include <sys/mman.h>
#include <unistd.h>

#define GUARD 256

uint64_t seed;
unsigned long calls;

uint64_t draw(void) {
    uint64_t z = seed += 0x9E3779B97F4A7C15u;
    z = (z ^ (z >> 30)) * 0xBF58476D1CE4E5B9u;
    z = (z ^ (z >> 27)) * 0x94D049BB133111EBu;
    return z ^ (z >> 31);
}

size_t below(size_t n) { return (size_t)(draw() % n); }

void must(int holds, const char *what) {
    if (holds) return;
    printf("hostile: call %lu: %s\n", calls, what);
    exit(1);
}

static void noise(unsigned char *at, size_t size) {
    for (size_t i = 0; i < size; i += 8) {
        uint64_t z = draw();
        memcpy(at + i, &z, size - i < 8 ? size - i : 8);
    }
}

static void reserve(struct row *row) {
    size_t page = (size_t)sysconf(_SC_PAGESIZE);
    unsigned char *all = mmap(NULL, ROW_BYTES + 2 * page, PROT_NONE, MAP_PRIVATE | MAP_ANONYMOUS, -1, 0);
    must(all != MAP_FAILED && mprotect(all + page, ROW_BYTES, PROT_READ | PROT_WRITE) == 0, "no memory");
    row->area = all + page;
    row->before = malloc(ROW_BYTES);
    must(row->before != NULL, "no memory");
}

void *lend(struct row *row, const void *content, size_t size) { return lend_at(row, content, size, 4); }

void *lend_at(struct row *row, const void *content, size_t size, size_t unit) {
    if (row->area == NULL) reserve(row);
    must(size + 2 * GUARD <= ROW_BYTES, "a row is too long to be lent");
    size_t room = ROW_BYTES - size, place = below(4);
    size_t at = place == 0 ? 0 : place == 1 ? room : GUARD + unit * below((room - 2 * GUARD) / unit + 1) % 4096;
    free(row->heap);
    row->heap = place == 3 ? malloc(size) : NULL;
    must(place != 3 || row->heap != NULL, "no memory");
    row->lent = place == 3 ? row->heap : row->area + at;
    row->size = size;
    row->low = place == 3 || at == 0 ? 0 : GUARD;
    row->high = place == 3 || at == room ? 0 : GUARD;
    noise(row->lent - row->low, row->low + size + row->high);
    if (content != NULL && size != 0) memcpy(row->lent, content, size);
    memcpy(row->before, row->lent - row->low, row->low + size + row->high);
    return row->lent;
}

void check_kept(const struct row *row, size_t from, const char *what) {
    must(memcmp(row->lent - row->low, row->before, row->low) == 0, "the guard before a row was written");
    must(memcmp(row->lent + row->size, row->before + row->low + row->size, row->high) == 0,
         "the guard behind a row was written");
    must(from <= row->size && memcmp(row->lent + from, row->before + row->low + from, row->size - from) == 0, what);
}
