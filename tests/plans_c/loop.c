/* The loop of nrvs_plan.h as code, in C and in C++: what a kernel writes once. */
#include "nrvs_plan.h"

/* What a kernel has: where a frame is mapped, an allocator of empty frames, its shootdown. */
uint64_t *words_of(void *context, uint64_t frame);
int empty_frame(uint64_t *frame);
void free_frame(uint64_t frame); /* and clears it before it is given again */
void shoot_down(uint32_t flush, uint64_t base, uint32_t size);

/* Goes on to the plan and carries it out, under the lock of the page table; `step` is what the first call returned. */
static uint32_t run(struct nrvs_plan *plan, uint32_t step)
{
	uint64_t given[NRVS_MOST_UNLINKED], i, count = 0;
	while (step == NRVS_SEE)
		step = nrvs_plan_see(plan, words_of(0, plan->frame));
	while (step == NRVS_GIVE)
		step = empty_frame(&given[count]) ? nrvs_plan_give(plan, given[count++]) : nrvs_plan_give_none(plan);
	if (step != NRVS_PLANNED)
		return step;
	if (nrvs_plan_carry_out(plan, words_of, 0) != NRVS_OK)
		return NRVS_NOT_ASKED;
	if (plan->flush != NRVS_FLUSH_NOTHING)
		shoot_down(plan->flush, plan->flush_base, plan->flush_size);
	for (i = 0; i < plan->unlinked_count; i++)
		free_frame(plan->unlinked[i]);
	for (i = 0; plan->store_count == 0 && i < count; i++)
		free_frame(given[i]);
	return NRVS_OK;
}

uint32_t map_page(struct nrvs_plan *plan, const struct nrvs_target *target, uint64_t base, uint64_t physical);

uint32_t map_page(struct nrvs_plan *plan, const struct nrvs_target *target, uint64_t base, uint64_t physical)
{
	return run(plan, nrvs_plan_map(plan, target, base, NRVS_4K, physical, NRVS_WRITE, 0));
}
