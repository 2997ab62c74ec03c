/* What becomes of the pages of two address spaces, one change at a time, and how it is recorded: a chain for each space. A chain has maps,
 * unmaps and protects: a remap is an unmap and a map, a split an unmap and 512 maps, a join the other way round. All of these are
 * open from before the first store until after the flush.
 */
#ifndef CHANGES_H
#define CHANGES_H

#include "plans.h"

enum { SPACES = 2 };

/* The frames of all tables, and the page tables. */
extern struct pool pool;
extern struct nrvs_target targets[SPACES];

/* Draws a slot, and what becomes of its page; `slot` below SLOTS is taken as it is. Returns the slot. */
unsigned changes_make(unsigned slot, uint64_t *seed);

/* Ends the segments, while no processor makes an access. */
void changes_cut(void);

/* How many updates the last segment has. */
uint32_t changes_placed(unsigned space);

#endif
