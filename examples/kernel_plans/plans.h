/* How plans are carried out: frames from an allocator, stores by compare-exchanges, shootdowns. */
#ifndef PLANS_H
#define PLANS_H

#include "nrvs_plan.h"

enum { MOST_FRAMES = 512 };

/* The free frames for the tables of one owner, whose lock is held when they are changed; the processors that walk these tables; and how
 * its plans were carried out.
 */
struct pool {
	uint64_t none[MOST_FRAMES];
	unsigned left, group;
	uint64_t shootdowns, fills, flags_met;
	struct flush {
		uint64_t base;
		int all;
	} late; /* of a mistake */
};

/* So many frames from a first one on are free. */
void pool_begin(struct pool *pool, uint64_t first, unsigned count, unsigned group);

/* A frame of zeros. */
uint64_t pool_take(struct pool *pool);
uint64_t *frame_words(uint64_t frame);

/* Goes on from what the first call returned up to the plan; carries the plan out; does both. */
void plans_make(struct pool *pool, struct nrvs_plan *plan, uint32_t step);
void plans_finish(struct pool *pool, struct nrvs_plan *plan);
void plans_run(struct pool *pool, struct nrvs_plan *plan, uint32_t step);

/* The other processors make so many accesses between the last words that are shown and the end of plans_make. */
extern uint64_t plans_meanwhile;

/* Waits until the other processors have made so many accesses. */
void wait_for_accesses(uint64_t number);

#endif
