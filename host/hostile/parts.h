/* Cutting in parts, written from the rules over the plain cuts of single parts. */
#ifndef PARTS_H
#define PARTS_H

#include "calls.h"

/* The most characters of a text whose parts are looked at. */
#define LONGEST 3000

/* How long the part is that starts there, in the mode of the call; the edges of its sample are added. */
size_t part_size(const struct call *c, size_t start, size_t *edges);

/* An accepted cut in safe mode or by the profile "sheet", with its ends, is that of its parts. A long text is left out. */
void check_parts(const struct call *c, const struct answer *a, const uint32_t *ends);

#endif
