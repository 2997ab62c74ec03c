/* What a processor may keep: translations of pages, and entries that lead to tables. Of the SDM, volume 3A, 4.10. */
#ifndef KEPT_H
#define KEPT_H

#include "memory.h"

enum { MOST_KEPT = 64 };

struct translation {
	uint64_t base, physical;
	unsigned size, rights;
};

/* For addresses in a range, a table of this level. */
struct link {
	uint64_t base, frame;
	unsigned level, rights;
};

struct kept {
	struct translation pages[MOST_KEPT];
	struct link links[MOST_KEPT];
	unsigned page_count, link_count;
	uint64_t seed;
};

/* A walk of now, of which some is kept: from the root, or from an entry that is kept. */
void keep_walk(struct kept *kept, const struct memory *memory, uint64_t levels, uint64_t root, uint64_t address);

/* A flush: NRVS_FLUSH_PAGE .. */
void forget(struct kept *kept, unsigned flush, uint64_t base, unsigned size);

/* Whether what is kept agrees with the memory at an address: no translation of it, and no entry for it, leads elsewhere than a walk. */
int agrees(const struct kept *kept, const struct memory *memory, uint64_t levels, uint64_t root, uint64_t address);

/* Whether an entry leads to this frame. */
int leads_to(const struct kept *kept, uint64_t frame);

#endif
