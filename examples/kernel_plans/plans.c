#include "plans.h"

#include "../kernel/machine.h"
#include "../kernel/say.h"
#include "plant.h"
#include "processors.h"
#include "slots.h"

uint64_t plans_meanwhile;

/* ---- frames ---- */

uint64_t *frame_words(uint64_t frame)
{
	return (uint64_t *)(frame * 4096); /* all memory is at its own address too */
}

void pool_begin(struct pool *pool, uint64_t first, unsigned count, unsigned group)
{
	pool->group = group;
	for (unsigned k = 0; k < count; k++)
		pool->none[pool->left++] = first + (k * 37) % count;
}

uint64_t pool_take(struct pool *pool)
{
	uint64_t frame, *words;
	if (pool->left == 0)
		stop("no frame is left", 0);
	frame = pool->none[--pool->left];
	words = frame_words(frame);
	for (unsigned i = 0; i < 512 && !is_planted(PLANT_GARBAGE); i++)
		words[i] = 0;
	return frame;
}

/* A frame that is free has other uses: read as a table, it leads to a page that is none. */
static void free_frame(struct pool *pool, uint64_t frame)
{
	uint64_t *words = frame_words(frame);
	for (unsigned i = 0; i < 512; i++)
		words[i] = NO_PAGE | 0x83;
	if (is_planted(PLANT_EARLY))
		wait_for_accesses(200);
	pool->none[pool->left++] = frame;
}

/* ---- stores ---- */

/* The frame is filled before it is linked, or once more where the link met a flag. */
static void fill(const struct nrvs_plan *plan)
{
	uint64_t *words = frame_words(plan->fill.frame);
	for (unsigned i = 0; i < 512; i++)
		__atomic_store_n(&words[i], i - plan->fill.gap < plan->fill.gap_count ? 0 : plan->fill.first_word + i * plan->fill.step,
				 __ATOMIC_RELAXED);
}

/* Carries out a store; a flag that was set meanwhile is in the plan then. */
static void carry_out(struct pool *pool, struct nrvs_plan *plan, uint64_t i)
{
	struct nrvs_store *store = &plan->stores[i];
	uint64_t *at = &frame_words(store->frame)[store->index], found = store->old_word;
	if (is_planted(PLANT_FLAG)) {
		__atomic_store_n(at, store->new_word, __ATOMIC_SEQ_CST);
		return;
	}
	while (!__atomic_compare_exchange_n(at, &found, store->new_word, 0, __ATOMIC_SEQ_CST, __ATOMIC_SEQ_CST)) {
		if (nrvs_plan_again(plan, i, found) != NRVS_OK)
			stop("somebody else wrote a word:", found);
		if (plan->fills && !is_planted(PLANT_REFILL))
			fill(plan);
		pool->flags_met++;
	}
}

static void swap(struct nrvs_store *one, struct nrvs_store *other)
{
	const uint64_t word = one->new_word;
	one->new_word = other->new_word;
	other->new_word = word;
}

static void carry_out_all(struct pool *pool, struct nrvs_plan *plan)
{
	if (is_planted(PLANT_SWAPPED) && plan->store_count > 1)
		swap(&plan->stores[0], &plan->stores[1]);
	if (is_planted(PLANT_GAP) && plan->fills && plan->fill.gap_count > 0)
		plan->fill.gap_count++;
	if (plan->fills && !is_planted(PLANT_EXCHANGED) && !is_planted(PLANT_UNFILLED))
		fill(plan);
	for (uint64_t i = 0; i < plan->store_count; i++) {
		carry_out(pool, plan, i);
		if (is_planted(PLANT_EARLY) && i < plan->unlinked_count)
			free_frame(pool, plan->unlinked[i]);
	}
	if (plan->fills && is_planted(PLANT_EXCHANGED)) {
		wait_for_accesses(1000);
		fill(plan);
	}
	pool->fills += plan->fills;
}

/* ---- the other processors ---- */

/* What is to be flushed; by a mistake that of the plan before. */
static struct flush flush_of(struct pool *pool, const struct nrvs_plan *plan)
{
	const int all = is_planted(PLANT_ONE) ? plan->flush == NRVS_FLUSH_PAGE_AND_TABLES : plan->flush > NRVS_FLUSH_PAGE;
	const struct flush now = { plan->flush_base, all && !is_planted(PLANT_LATE) }, before = pool->late;
	pool->late = now;
	return is_planted(PLANT_LATE) ? before : now;
}

static void flush(struct pool *pool, const struct nrvs_plan *plan)
{
	const struct flush what = flush_of(pool, plan);
	if (is_planted(PLANT_SHOOTDOWN)) {
		flush_page(what.base);
		wait_for_accesses(100);
		return;
	}
	pool->shootdowns++;
	processors_shoot_down(pool->group, what.base, what.all);
}

void plans_make(struct pool *pool, struct nrvs_plan *plan, uint32_t step)
{
	while (step == NRVS_SEE)
		step = nrvs_plan_see(plan, frame_words(plan->frame));
	while (step == NRVS_GIVE)
		step = nrvs_plan_give(plan, pool_take(pool));
	if (step != NRVS_PLANNED)
		stop("a request is refused:", step);
	wait_for_accesses(plans_meanwhile);
}

void plans_finish(struct pool *pool, struct nrvs_plan *plan)
{
	carry_out_all(pool, plan);
	if (plan->flush != NRVS_FLUSH_NOTHING)
		flush(pool, plan);
	for (uint64_t i = 0; !is_planted(PLANT_EARLY) && i < plan->unlinked_count; i++)
		free_frame(pool, plan->unlinked[i]);
}

void plans_run(struct pool *pool, struct nrvs_plan *plan, uint32_t step)
{
	plans_make(pool, plan, step);
	plans_finish(pool, plan);
}

void wait_for_accesses(uint64_t number)
{
	const uint64_t until = slots_accesses() + number;
	if (number == 0)
		return;
	processors_release();
	while (processors_run() && slots_accesses() < until)
		processors_pause();
}
