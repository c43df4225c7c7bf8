/* Release figures, with hostile rows and any figures, held to sums. */
#ifndef FIGURES_H
#define FIGURES_H

/* One text or one batch: a call is made twice, with different leftovers and at different places, and held to what the
 * rules say. What becomes of a text is what the call with reasons says of it, which is held to the rules elsewhere. */
void figure_step(void);

enum figure_op { FEED_PLAIN, FEED_SAFE, FEED_SHEET, FEED_REFUSED, JOIN_FIGURES, FIGURE_OPS };

/* How many calls each function had, and how many were refused with 13. */
extern unsigned long figure_calls[FIGURE_OPS], figures_full;

#endif
