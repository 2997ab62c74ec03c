/* A slot, for those who change its pages and for those who access them. */
#ifndef SLOT_H
#define SLOT_H

#include "slots.h"

#define NONE U64_MAX /* no frame */

enum { HISTORY = 64 };

struct state {
	uint64_t frame; /* the first that the page leads to; NONE: no page */
	uint8_t rights;
	bool in_parts;
};

/* The place of a page, or of a range of 512 pages in two tables, and all that it was: state `next` is there once the change under way is
 * done, and none before `done` is left.
 */
struct slot {
	uint64_t base;
	unsigned size;
	struct state was[HISTORY];
	unsigned long next, done;
	bool is_written; /* since its dirty flag was cleared */
	bool *written;   /* of a range, each page */
};

extern struct slot slots[SLOTS];

/* A part of the slot's page, in frames from its base on, at which a frame of data lies, wherever the page leads. */
uint64_t slot_part(const struct slot *slot, struct rnd_state *random);

/* Forgets the accesses that were made; adds what is counted of them. */
void accesses_begin(void);
void accesses_add(struct slots_counts *all);

#endif
