/* Reasons, held to the rules part by part. */
#ifndef REASONS_H
#define REASONS_H

#include "calls.h"

/* An accepted call with reasons has the ends and the edges of the cut in the same mode, and each token the reason that
 * the rule gives at its start, in its part alone. The parts of a long text are left out. */
void check_reasons(const struct call *c, const struct answer *a);

#endif
