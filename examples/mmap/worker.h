/* A thread that changes pages or accesses them, and what it counts. */
#ifndef WORKER_H
#define WORKER_H

#include "record.h"
#include "window.h"

enum { MOST_OPERATIONS = 48 };

struct worker {
	unsigned id;
	int is_changer;
	int only_reads;         /* in this segment: a translation that it has stays as it was before a write by others */
	uint64_t random;
	unsigned last;          /* a slot of its last change */
	uint64_t touches, faults, overlaps; /* overlaps: touches of a page that was changed meanwhile */
	uint64_t updates;
	uint64_t made[MOST_OPERATIONS]; /* by operation: how often it was made */
};

/* How a touch accesses its page. */
nrvs_act draw_act(uint64_t *random);
/* Accesses a page once, in some way, as a touch. */
void touch_slot(struct worker *worker, unsigned slot);
/* Accesses some page a few times in a row, so that its translation is in the TLB. */
void touch_some(struct worker *worker);

/* The page that was changed last by whoever, and how many changes there were: most accesses are of such pages. */
extern atomic_uint hot_slot, change_count;

#endif
