/* Maps of breaks, with hostile rows, held to the rules one position after the other. */
#ifndef MAPS_H
#define MAPS_H

/* One map: a call is made twice, with different leftovers and at different places, and held to what the rules say. */
void map_step(void);

enum map_op { BREAK_MAP, BREAKS_UP_TO, NEXT_BREAK, MAP_OPS };

/* How many calls each function had, and how many were refused. */
extern unsigned long map_calls[MAP_OPS], map_refused;

#endif
