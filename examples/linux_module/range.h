/* How a range of pages is changed: a run of words for each table, plans for tables that are linked and unlinked, and one flush for all. */
#ifndef RANGE_H
#define RANGE_H

#include "space.h"

enum range_kind { RANGE_MAP, RANGE_UNMAP, RANGE_PROTECT, RANGE_HARVEST };

enum { MOST_KEPT = 256 };

/* A change of a range that is under way. */
struct stretch {
	enum range_kind kind;
	uint64_t base, bytes; /* what is left of it */
	uint64_t physical;    /* where the page at the base is to lead, by a map */
	unsigned size, rights;

	/* the last step: what nrvs_plan.h returned, at which base, how many bytes it dealt with, and the words that its stores found */
	uint32_t step;
	uint64_t at, covered;
	struct nrvs_run run;
	uint64_t found[512];

	bool needs_flush; /* on all processors, by range_flush */
	unsigned kept_count;
	uint64_t kept[MOST_KEPT]; /* tables that were unlinked: free after the flush */
};

/* Pages of a size, for a map; an unmap, a protect and a harvest, which clears flags, take what is there. The struct is large. */
void range_begin(struct stretch *range, enum range_kind kind, uint64_t base, uint64_t bytes);

/* The next step, with its stores; false at the end of the range, and where a step isn't done: then some bytes are left. Under one lock from
 * the first to the end.
 */
bool range_next(struct stretch *range);

/* The flush of all steps on all processors; then tables are freed that they unlinked. */
void range_flush(const struct stretch *range);
void range_free(struct stretch *range);

#endif
