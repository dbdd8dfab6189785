/* What is checked on each image that a history reaches. */
#ifndef PEER_CHECKS_H
#define PEER_CHECKS_H

#include "model.h"

/* Checks a main-line read's answer against the model. */
void check_read(struct run *r, const struct model *m, const struct call *c);

/* On a settled image: listing, both views and all handles are the model's. */
void check_views(struct run *r, const struct model *m);

/* On an image that is not settled: calls are refused with the number given. */
void check_refused(struct run *r, uint32_t number);

/* One image is the other with bits cleared in one word, or with one unit erased. */
bool is_one_step(const struct bench *before, const struct bench *after);

/* Mounts the run's image whole, in parts and in a chain; gives the image that a mount leaves.
   Returns the steps of a whole mount. */
uint32_t check_mounts(const struct run *r, bool every_stop, struct run *whole);

/* Judge, views and mounts of one image reached. */
void check_image(const struct run *r, const struct model *m);

/* After a whole call: units, copied sectors and the new descriptor stand where they are due. */
void check_layout(const struct run *from, const struct run *last, const struct call *c, const struct prediction *p);

/* Makes the call whole, and goes on from there. */
void check_whole(struct run *r, struct model *m, const struct call *c, const struct prediction *p);

/* Makes the call at every stop, or at chosen ones; next and its model are one image reached. */
void check_stops(const struct run *from, const struct model *m, const struct call *c, const struct prediction *p, struct run *next,
                 struct model *next_model);

/* On an image at rest: what transactions make, in either order, in two commits or one, or dropped. */
void check_laws(const struct run *r, const struct model *m);

/* Damages a copy of the image and checks what holds of every image. */
void check_damaged(const struct run *from);

#endif
