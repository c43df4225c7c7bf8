/* Images of word lists, good, damaged and made up, held to the rules record by record. */
#ifndef IMAGES_H
#define IMAGES_H

/* One image: a call is made twice, with different leftovers and at different places, and held to what the rules say. */
void image_step(void);

enum image_op { READ_IMAGE, WRITE_IMAGE, IMAGE_OPS };

/* How many calls each function had, and how many were refused. */
extern unsigned long image_calls[IMAGE_OPS], image_refused;

#endif
