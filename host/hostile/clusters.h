/* The clusters of a text and who wins them, by the patterns as 01 writes them, apart from the library. */
#ifndef CLUSTERS_H
#define CLUSTERS_H

#include <stddef.h>
#include <stdint.h>

/* Writes each cluster's end and the number of the alternative that wins it, 0 for none; each row has n cells. How many
 * clusters there are. */
size_t clusters_of(const uint32_t *text, size_t n, uint32_t *ends, uint32_t *winners);

#endif
