/* matchers LENGTH: every text of at most LENGTH characters, over one of each kind that the patterns of clusters tell
 * apart, through both matchers of the library and through the model of hostile/clusters.c. The first text on which two
 * of the three differ ends the run. */
#include "../hostile/clusters.h"
#include "fetlockice.h"
#include <stdio.h>
#include <stdlib.h>
#include <string.h>
#include <uchar.h>

/* A consonant that no pattern names and those that some name, the vowels behind or about one, those before one, the signs,
 * a tone mark, the space of pattern 14, and any other character. */
static const char32_t kinds[] = U"ขกยรวอหะัาำิีึืุูเแโไ็์่ a";
enum { KINDS = sizeof kinds / sizeof *kinds - 1, LONGEST = 12, ALTERNATIVES = 29 };

static unsigned long won[ALTERNATIVES + 1], clusters;

/* Whether both matchers and the model say the same of a text. */
static int agree(const uint32_t *text, size_t n) {
    uint32_t ends[LONGEST], other[LONGEST], winners[LONGEST], model[LONGEST], model_winners[LONGEST];
    size_t count, other_count, detail, size = clusters_of(text, n, model, model_winners) * sizeof *ends;
    if (fetlockice_clusters(text, n, ends, n, &count, &detail) != 0) return 0;
    if (fetlockice_winners(text, n, other, n, winners, n, &other_count, &detail) != 0) return 0;
    for (size_t i = 0; i < other_count && winners[i] <= ALTERNATIVES; i++) won[winners[i]]++;
    clusters += other_count;
    return count * sizeof *ends == size && other_count == count && memcmp(ends, model, size) == 0 &&
           memcmp(other, model, size) == 0 && memcmp(winners, model_winners, size) == 0;
}

/* The next text of n characters in order; 0 behind the last. */
static int next(uint32_t *text, size_t *digits, size_t n) {
    size_t i = n;
    while (i > 0 && ++digits[i - 1] == KINDS) digits[--i] = 0;
    for (size_t k = 0; k < n; k++) text[k] = kinds[digits[k]];
    return i > 0;
}

int main(int argc, char **argv) {
    size_t length = argc > 1 ? strtoul(argv[1], NULL, 10) : 4;
    unsigned long texts = 0;
    if (length > LONGEST) length = LONGEST;
    for (size_t n = 0; n <= length; n++) {
        uint32_t text[LONGEST];
        size_t digits[LONGEST] = {0};
        for (size_t k = 0; k < n; k++) text[k] = kinds[0];
        do {
            texts++;
            if (agree(text, n)) continue;
            printf("matchers: they differ on");
            for (size_t k = 0; k < n; k++) printf(" U+%04X", (unsigned)text[k]);
            printf("\n");
            return 1;
        } while (next(text, digits, n));
    }
    printf("matchers: %lu clusters, won by 0 to 29:", clusters);
    for (size_t k = 0; k <= ALTERNATIVES; k++) printf(" %lu", won[k]);
    printf("\nmatchers: %lu texts of at most %zu characters, %d kinds of them, no difference\n", texts, length, KINDS);
    return 0;
}
