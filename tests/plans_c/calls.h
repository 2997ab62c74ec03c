/* A request, and how a planner is driven through it: by the library's calls, or by those of reference.c. */
#ifndef CALLS_H
#define CALLS_H

#include "memory.h"
#include "nrvs_plan.h"

enum { MAPS = 0, UNMAPS = 1, PROTECTS = 2, ASKS = 3, REMAPS = 4, SPLITS = 5, JOINS = 6, PRUNES = 7, PART_UNMAPS = 8, COLLAPSES = 9, MANY_KINDS = 10 };

struct request {
	unsigned kind, size, rights;
	uint64_t address, physical, bits; /* of an unmap of parts: the number of the first, and how many */
};

struct planner {
	uint32_t (*map)(struct nrvs_plan *, const struct nrvs_target *, uint64_t, uint32_t, uint64_t, uint32_t, uint64_t);
	uint32_t (*unmap)(struct nrvs_plan *, const struct nrvs_target *, uint64_t);
	uint32_t (*protect)(struct nrvs_plan *, const struct nrvs_target *, uint64_t, uint32_t);
	uint32_t (*ask)(struct nrvs_plan *, const struct nrvs_target *, uint64_t);
	uint32_t (*remap)(struct nrvs_plan *, const struct nrvs_target *, uint64_t, uint64_t, uint32_t);
	uint32_t (*split)(struct nrvs_plan *, const struct nrvs_target *, uint64_t);
	uint32_t (*join)(struct nrvs_plan *, const struct nrvs_target *, uint64_t);
	uint32_t (*prune)(struct nrvs_plan *, const struct nrvs_target *, uint64_t);
	uint32_t (*unmap_part)(struct nrvs_plan *, const struct nrvs_target *, uint64_t, uint64_t, uint64_t);
	uint32_t (*collapse)(struct nrvs_plan *, const struct nrvs_target *, uint64_t, uint64_t, uint32_t);
	uint32_t (*see)(struct nrvs_plan *, const uint64_t *);
	uint32_t (*give)(struct nrvs_plan *, uint64_t);
	uint32_t (*give_none)(struct nrvs_plan *);
	uint32_t (*again)(struct nrvs_plan *, uint64_t, uint64_t);
};

extern const struct planner LIBRARY, REFERENCE;

/* Frames to be given, and how many of them were. */
struct stock {
	uint64_t frames[4];
	unsigned count, given;
};

uint32_t begin(const struct planner *planner, struct nrvs_plan *plan, const struct nrvs_target *target, struct request request);

/* From what the first call returned up to the plan: the words are those of the memory. */
uint32_t drive(const struct planner *planner, struct nrvs_plan *plan, uint32_t step, const struct memory *memory, struct stock *stock);

/* Store number i finds this word in place of the one that was shown. */
uint32_t again(const struct planner *planner, struct nrvs_plan *plan, unsigned i, uint64_t found);

/* The words of a frame of a memory, for the header's nrvs_plan_fill and nrvs_plan_carry_out. */
uint64_t *words_of(void *memory, uint64_t frame);

/* Fills the frame that is to be filled, if there is one: 0 where that isn't there. */
int fill(const struct nrvs_plan *plan, struct memory *memory);

/* Whether two plans say the same. */
int same_plans(const struct nrvs_plan *a, const struct nrvs_plan *b);

/* Counts. */
extern unsigned passed, failed;
void check(int holds, const char *what, const char *file, int line);
#define CHECK(holds) check((holds) != 0, #holds, __FILE__, __LINE__)
int counts(void);

#endif
