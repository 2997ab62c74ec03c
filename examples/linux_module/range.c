#include "range.h"

#include <linux/minmax.h>
#include <linux/printk.h>
#include <linux/string.h>

#include "plant.h"

static uint64_t given[NRVS_MOST_UNLINKED];
static unsigned given_count;

void range_begin(struct stretch *range, enum range_kind kind, uint64_t base, uint64_t bytes)
{
	memset(range, 0, sizeof(*range));
	range->kind = kind;
	range->base = base;
	range->bytes = bytes;
}

/* What the call over the direct map returns. */
static uint32_t begin(struct stretch *range)
{
	const struct nrvs_words *frames = space_memory();
	const size_t count = space_memory_count();
	switch (range->kind) {
	case RANGE_MAP:
		return nrvs_plan_map_range_in(&range->run, &space_target, frames, count, 0, range->base, range->size, range->physical,
					      range->rights, 0, range->bytes);
	case RANGE_UNMAP:
		return nrvs_plan_unmap_range_in(&range->run, &space_target, frames, count, 0, range->base, range->bytes);
	case RANGE_PROTECT:
		return nrvs_plan_protect_range_in(&range->run, &space_target, frames, count, 0, range->base, range->bytes, range->rights);
	default:
		return nrvs_plan_harvest_range_in(&range->run, &space_target, frames, count, 0, range->base, range->bytes);
	}
}

/* All frames are in the direct map: what may be asked for are empty ones. */
static uint32_t plan(struct stretch *range)
{
	uint32_t step = begin(range);
	for (given_count = 0; step == NRVS_GIVE; space_counts.gives++)
		step = space_take(&given[given_count]) ? nrvs_run_give(&range->run, given[given_count++]) : nrvs_run_give_none(&range->run);
	return step;
}

/* Bit 0 of each word that is found and bits 5 and 6 are the processors'; a run is one page too long by a mistake. */
static void carry_out_run(struct stretch *range)
{
	struct nrvs_run *run = &range->run;
	const uint64_t count = run->count;
	if (is_planted(PLANT_TOO_LONG) && range->kind == RANGE_UNMAP && run->index + count < 512)
		run->count++;
	nrvs_run_carry_out(run, space_words(run->frame), range->found);
	run->count = count;
	range->needs_flush |= run->flush != NRVS_FLUSH_NOTHING;
	space_counts.runs++;
	space_counts.run_pages += count;
}

/* A plan for one page: tables that it unlinks are kept until all is flushed. Whether the page is done. */
static bool carry_out_plan(struct stretch *range)
{
	struct nrvs_plan *plan = &range->run.plan;
	space_store(plan);
	range->needs_flush |= plan->flush != NRVS_FLUSH_NOTHING;
	for (uint64_t i = 0; i < plan->unlinked_count; i++) {
		if (range->kept_count == MOST_KEPT)
			panic("nrvs_space: a range has too many tables");
		range->kept[range->kept_count++] = plan->unlinked[i];
	}
	for (unsigned i = 0; plan->store_count == 0 && i < given_count; i++)
		space_free_frame(given[i]);
	return plan->reply.code == NRVS_DONE || plan->reply.code == NRVS_REMOVED;
}

/* The bytes of the page that a plan is for, which maps or unmaps it. */
static uint64_t bytes_of_page(const struct stretch *range)
{
	const unsigned size = range->kind == RANGE_MAP ? range->size : range->run.plan.reply.size;
	return (uint64_t)PAGE_SIZE << 9 * size;
}

static uint64_t carry_out(struct stretch *range)
{
	switch (range->step) {
	case NRVS_RUN:
	case NRVS_HARVEST:
		carry_out_run(range);
		return range->run.covered;
	case NRVS_ABSENT:
		return min(range->run.covered, range->bytes);
	case NRVS_PLANNED:
		return carry_out_plan(range) ? bytes_of_page(range) : 0;
	default:
		return 0;
	}
}

bool range_next(struct stretch *range)
{
	if (range->bytes == 0)
		return false;
	range->at = range->base;
	range->step = plan(range);
	range->covered = carry_out(range);
	range->base += range->covered;
	range->physical += range->covered;
	range->bytes -= range->covered;
	return range->covered > 0;
}

void range_flush(const struct stretch *range)
{
	if (range->needs_flush)
		space_flush_all();
}

void range_free(struct stretch *range)
{
	for (unsigned i = 0; i < range->kept_count; i++)
		space_free_frame(range->kept[i]);
	space_counts.unlinked += range->kept_count;
	range->kept_count = 0;
}
