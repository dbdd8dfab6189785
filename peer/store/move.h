/* A moving unit: what reclaiming a unit copies, and the list that does it. */
#ifndef PEER_MOVE_H
#define PEER_MOVE_H

#include "job.h"
#include "unit.h"

/* The array that the copy of a unit will have. */
struct array move_array_after(const struct flash *f, uint32_t unit);

/* False where an unchecked unit has sectors that no copy can hold. */
bool move_is_possible(const struct flash *f, uint32_t unit);

/* The copy's bytes as they stand when all is copied and it is still receiving. */
void move_copy_of(const struct flash *f, uint32_t unit, uint16_t logical, uint8_t *copy);

/* Fill the copy, retire the old home, make the copy live, erase the old home. */
void move_list(struct job *j, const struct flash *f, uint32_t old_home, uint32_t copy, uint16_t logical);

#endif
