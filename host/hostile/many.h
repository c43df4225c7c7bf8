/* The calls with many texts, with hostile rows, held to a fold over their texts. */
#ifndef MANY_H
#define MANY_H

/* One batch: the call is made twice, with different leftovers and at different places. Each text is told what the rules
 * and the call for one text say of it, with the output that the texts before it left over. A plant's call is held to
 * calls on a plain pool of that plant's words. */
void many_step(void);

enum many_op { CUT_MANY, REASONS_MANY, PLANT_CUT_MANY, PLANT_REASONS_MANY, MANY_OPS };
enum mode { PLAIN, SAFE, SHEET, MODES };

/* How many calls each function had, and how many were refused as a whole. */
extern unsigned long many_calls[MANY_OPS][MODES], many_refused;

#endif
