/* How a planner is driven through a request. */
#include "calls.h"
#include "reference.h"

#include <stdio.h>
#include <string.h>

#ifndef PLANT
#define PLANT 0
#endif

const struct planner REFERENCE = {
	reference_map, reference_unmap, reference_protect, reference_ask, reference_remap, reference_split, reference_join,
	reference_prune, reference_unmap_part, reference_collapse, reference_see, reference_give, reference_give_none, reference_again,
};

#ifdef REFERENCE_ALONE
const struct planner LIBRARY = {
	reference_map, reference_unmap, reference_protect, reference_ask, reference_remap, reference_split, reference_join,
	reference_prune, reference_unmap_part, reference_collapse, reference_see, reference_give, reference_give_none, reference_again,
};
#else
const struct planner LIBRARY = {
	nrvs_plan_map, nrvs_plan_unmap, nrvs_plan_protect, nrvs_plan_ask, nrvs_plan_remap, nrvs_plan_split, nrvs_plan_join,
	nrvs_plan_prune, nrvs_plan_unmap_part, nrvs_plan_collapse, nrvs_plan_see, nrvs_plan_give, nrvs_plan_give_none, nrvs_plan_again,
};
#endif

/* Mistakes in a plan, each of which the tests have to see (tests/plans). */
static void spoil(struct nrvs_plan *plan)
{
#if PLANT == 1 /* two stores exchanged */
	struct nrvs_store first = plan->stores[0];
	if (plan->store_count > 1) {
		plan->stores[0] = plan->stores[1];
		plan->stores[1] = first;
	}
#elif PLANT == 2 /* nothing is flushed */
	plan->flush = NRVS_FLUSH_NOTHING;
#elif PLANT == 3 /* too little is flushed */
	plan->flush = plan->flush ? NRVS_FLUSH_PAGE : NRVS_FLUSH_NOTHING;
	plan->flush_size = NRVS_4K;
#elif PLANT == 4 /* an unlinked frame isn't named */
	plan->unlinked_count -= plan->unlinked_count != 0;
#elif PLANT == 5 /* attributes are lost */
	plan->stores[0].new_word &= plan->store_count ? ~NRVS_ATTRIBUTES | 0x80 : UINT64_MAX;
#elif PLANT == 6 /* the last store is left out */
	plan->store_count -= plan->store_count != 0;
#elif PLANT == 8 /* a new table isn't filled */
	plan->fills = 0;
#elif PLANT == 9 /* a new table is filled with the entries of other pages */
	plan->fill.step <<= 1;
#elif PLANT == 12 /* a prune leaves a word in the place of the link */
	plan->stores[0].new_word |= plan->reply.code == NRVS_DONE && plan->unlinked_count ? 2 : 0;
#elif PLANT == 13 /* one part too few is removed */
	plan->fill.gap_count -= plan->fill.gap_count != 0;
#elif PLANT == 14 /* the gap is one part further on */
	plan->fill.gap += plan->fill.gap_count != 0;
#elif PLANT == 15 /* a page in the place of others keeps their physical address */
	if (plan->flush == NRVS_FLUSH_RANGE && !plan->fills)
		plan->stores[0].new_word ^= UINT64_C(1) << 30;
#elif PLANT == 10 /* pages are joined without their flags */
	plan->stores[0].new_word &= plan->flush == NRVS_FLUSH_RANGE && !plan->fills ? ~UINT64_C(0x60) : UINT64_MAX;
#else
	(void)plan;
#endif
}

uint32_t begin(const struct planner *planner, struct nrvs_plan *plan, const struct nrvs_target *target, struct request r)
{
	if (r.kind == MAPS)
		return planner->map(plan, target, r.address, r.size, r.physical, r.rights, r.bits);
	if (r.kind == UNMAPS)
		return planner->unmap(plan, target, r.address);
	if (r.kind == PROTECTS)
		return planner->protect(plan, target, r.address, r.rights);
	if (r.kind == REMAPS)
		return planner->remap(plan, target, r.address, r.physical, r.rights);
	if (r.kind == SPLITS)
		return planner->split(plan, target, r.address);
	if (r.kind == JOINS)
		return planner->join(plan, target, r.address);
	if (r.kind == PRUNES)
		return planner->prune(plan, target, r.address);
	if (r.kind == PART_UNMAPS)
		return planner->unmap_part(plan, target, r.address, r.physical, r.bits);
	if (r.kind == COLLAPSES)
		return planner->collapse(plan, target, r.address, r.physical, r.rights);
	return planner->ask(plan, target, r.address);
}

uint32_t drive(const struct planner *planner, struct nrvs_plan *plan, uint32_t step, const struct memory *memory, struct stock *stock)
{
	while (step == NRVS_SEE)
		step = planner->see(plan, memory_words(memory, plan->frame));
	stock->given = 0;
	while (step == NRVS_GIVE && stock->given < stock->count)
		step = planner->give(plan, stock->frames[stock->given++]);
	if (step == NRVS_GIVE)
		step = planner->give_none(plan);
	if (planner == &LIBRARY)
		spoil(plan);
	return step;
}

uint32_t again(const struct planner *planner, struct nrvs_plan *plan, unsigned i, uint64_t found)
{
	uint32_t status = planner->again(plan, i, found);
	if (planner == &LIBRARY && PLANT == 7) /* a flag is lost */
		plan->stores[i].new_word &= ~UINT64_C(0x60);
	if (planner == &LIBRARY && PLANT == 11) /* the parts of a page lose one */
		plan->fill.first_word &= ~UINT64_C(0x60);
	return status;
}

uint64_t *words_of(void *memory, uint64_t frame)
{
	return memory_words(memory, frame);
}

int fill(const struct nrvs_plan *plan, struct memory *memory)
{
	if (plan->fills && !memory_words(memory, plan->fill.frame))
		return 0;
	nrvs_plan_fill(plan, words_of, memory);
	return 1;
}

int same_plans(const struct nrvs_plan *a, const struct nrvs_plan *b)
{
	uint64_t i;
	int same = a->reply.code == b->reply.code && a->reply.size == b->reply.size && a->reply.rights == b->reply.rights &&
		   a->reply.number == b->reply.number && a->bits == b->bits && a->store_count == b->store_count && a->flush == b->flush &&
		   a->flush_size == b->flush_size && a->flush_base == b->flush_base && a->unlinked_count == b->unlinked_count &&
		   a->fills == b->fills && (!a->fills || memcmp(&a->fill, &b->fill, sizeof a->fill) == 0);
	for (i = 0; same && i < a->store_count; i++)
		same = memcmp(&a->stores[i], &b->stores[i], sizeof a->stores[i]) == 0;
	for (i = 0; same && i < a->unlinked_count; i++)
		same = a->unlinked[i] == b->unlinked[i];
	return same || PLANT; /* a mistake the other checks have to see */
}

unsigned passed, failed;

void check(int holds, const char *what, const char *file, int line)
{
	if (holds) {
		passed++;
		return;
	}
	if (failed++ < 20)
		printf("%s:%d: %s\n", file, line, what);
}

int counts(void)
{
	printf("%u passed, %u failed\n", passed, failed);
	return failed != 0;
}
