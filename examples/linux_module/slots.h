/* Pages that come and go: where each may be, what it was, and what an access has to find. */
#ifndef SLOTS_H
#define SLOTS_H

#include <linux/prandom.h>
#include <linux/types.h>

enum { SMALL_SLOTS = 32, LARGE_SLOTS = 4, RANGE_SLOTS = 2, SLOTS = SMALL_SLOTS + LARGE_SLOTS + 1 + RANGE_SLOTS, PARTS = 512 };

/* What was done and seen, by kind of change: maps, unmaps, protects, remaps, splits, joins, flags cleared. */
enum { KINDS = 7 };
struct slots_counts {
	unsigned long changes[KINDS], ranges, accesses, faults, differ, recorded, lost, wrong;
};

/* The pages that slots lead to. 0, or an error of Linux. Gives them back. */
int slots_begin(void);
void slots_end(void);

/* Draws a slot, and what becomes of its page. Unmaps all. */
void slots_change(struct rnd_state *random);
void slots_unmap_all(void);

/* One access of a processor, compared with what the pages were and are. Interrupts are off. */
void slots_access(unsigned processor, struct rnd_state *random);

struct slots_counts slots_counts(void);

#endif
