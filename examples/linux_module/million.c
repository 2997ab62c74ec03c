#include "million.h"

#include <linux/ktime.h>
#include <linux/prandom.h>
#include <linux/printk.h>
#include <linux/sched.h>
#include <linux/vmalloc.h>

#include "range.h"
#include "space.h"

#define FIRST UINT64_C(0x300000000000)

enum { PAGES = 1 << 16, LARGE = 512, NOBODY = -1, OF_RANGE = 64, LONGEST = 1024 };
enum kind { MAP, UNMAP, PROTECT, REMAP, SPLIT, JOIN, ASK, KINDS };

/* The pages of 256 MiB, by 4 KiB each: which page covers it, by its first, and what that page is. */
struct model {
	int first[PAGES];
	uint64_t physical[PAGES];
	uint8_t size[PAGES], rights[PAGES];
};

struct call {
	enum kind kind;
	unsigned page, size, rights;
	uint64_t physical;
};

static uint64_t address_of(unsigned page)
{
	return FIRST + ((uint64_t)page << PAGE_SHIFT);
}

static unsigned pages_of(unsigned size)
{
	return size == NRVS_4K ? 1 : LARGE;
}

/* A quarter of the memory has large pages for the most part. */
static struct call draw(struct rnd_state *random)
{
	struct call call = { .kind = prandom_u32_state(random) % KINDS, .page = prandom_u32_state(random) % PAGES,
			     .rights = prandom_u32_state(random) & 7 };
	if (call.page / LARGE % 4 == 3 && prandom_u32_state(random) % 32) {
		call.size = NRVS_2M;
		call.page -= call.kind != ASK ? call.page % LARGE : 0;
	}
	call.physical = (uint64_t)(prandom_u32_state(random) % PAGES) << PAGE_SHIFT;
	if (call.size == NRVS_2M && (call.kind == MAP || prandom_u32_state(random) % 4))
		call.physical &= ~((uint64_t)LARGE * PAGE_SIZE - 1);
	return call;
}

/* ---- what a list of pages answers ---- */

static struct nrvs_reply answer(uint8_t code, uint64_t number, uint8_t size, uint8_t rights)
{
	return (struct nrvs_reply){ .code = code, .size = size, .rights = rights, .number = number };
}

static void cover(struct model *model, unsigned page, unsigned size, int first)
{
	for (unsigned k = 0; k < pages_of(size); k++)
		model->first[page + k] = first;
}

static struct nrvs_reply list_maps(struct model *model, const struct call *call)
{
	for (unsigned k = 0; k < pages_of(call->size); k++)
		if (model->first[call->page + k] != NOBODY)
			return answer(NRVS_OVERLAP, address_of(model->first[call->page + k]), 0, 0);
	cover(model, call->page, call->size, call->page);
	model->physical[call->page] = call->physical;
	model->size[call->page] = call->size;
	model->rights[call->page] = call->rights;
	return answer(NRVS_DONE, 0, 0, 0);
}

/* So many pages of a size from one on, which lead to memory that is contiguous. */
static void list_pages(struct model *model, unsigned page, unsigned size, unsigned count)
{
	const uint64_t physical = model->physical[page];
	const uint8_t rights = model->rights[page];
	for (unsigned k = 0; k < count; k++) {
		const unsigned at = page + k * pages_of(size);
		cover(model, at, size, at);
		model->physical[at] = physical + ((uint64_t)(at - page) << PAGE_SHIFT);
		model->size[at] = size;
		model->rights[at] = rights;
	}
}

static struct nrvs_reply list_splits(struct model *model, unsigned page)
{
	if (model->size[page] == NRVS_4K)
		return answer(NRVS_SMALLEST, 0, 0, 0);
	list_pages(model, page, NRVS_4K, LARGE);
	return answer(NRVS_CHANGED, 0, 0, model->rights[page]);
}

/* Whether the page number k from one on follows on from it. */
static bool follows(const struct model *model, unsigned page, unsigned k)
{
	const unsigned at = page + k * pages_of(model->size[page]);
	return at < PAGES && model->first[at] == at && model->size[at] == model->size[page] && model->rights[at] == model->rights[page] &&
	       model->physical[at] == model->physical[page] + ((uint64_t)(at - page) << PAGE_SHIFT);
}

static struct nrvs_reply list_joins(struct model *model, unsigned page)
{
	const uint64_t bytes = (uint64_t)LARGE * pages_of(model->size[page]) * PAGE_SIZE;
	if (address_of(page) % bytes)
		return answer(NRVS_NOT_FIRST, 0, 0, 0);
	if (model->physical[page] % bytes)
		return answer(NRVS_MISPLACED, 0, 0, 0);
	for (unsigned k = 1; k < LARGE; k++)
		if (!follows(model, page, k))
			return answer(NRVS_APART, k, 0, 0);
	list_pages(model, page, model->size[page] + 1, 1);
	return answer(NRVS_CHANGED, 0, 0, model->rights[page]);
}

/* For a page that begins at the address */
static struct nrvs_reply list_changes(struct model *model, const struct call *call)
{
	const unsigned page = call->page;
	const uint64_t physical = model->physical[page];
	const uint8_t size = model->size[page], rights = model->rights[page];
	if (call->kind == UNMAP) {
		cover(model, page, size, NOBODY);
		return answer(NRVS_REMOVED, physical, size, rights);
	}
	if (call->kind == SPLIT)
		return list_splits(model, page);
	if (call->kind == JOIN)
		return list_joins(model, page);
	if (call->kind == REMAP && call->physical % ((uint64_t)pages_of(size) * PAGE_SIZE))
		return answer(NRVS_MISPLACED, 0, 0, 0);
	if (call->kind == REMAP)
		model->physical[page] = call->physical;
	model->rights[page] = call->rights;
	return answer(NRVS_CHANGED, 0, 0, rights);
}

static struct nrvs_reply list_answers(struct model *model, const struct call *call)
{
	const int first = model->first[call->page];
	if (call->kind == MAP)
		return list_maps(model, call);
	if (first == NOBODY)
		return answer(NRVS_NOT_MAPPED, 0, 0, 0);
	if (call->kind == ASK)
		return answer(NRVS_MAPPED, model->physical[first] + ((uint64_t)(call->page - first) << PAGE_SHIFT), model->size[first],
			      model->rights[first]);
	if (first != call->page)
		return answer(NRVS_INSIDE, address_of(first), 0, 0);
	return list_changes(model, call);
}

/* ---- what the plans answer ---- */

static unsigned long done[KINDS];

/* Over the direct map. */
static uint32_t begin_in(struct nrvs_plan *plan, const struct call *call)
{
	const uint64_t address = address_of(call->page);
	switch (call->kind) {
	case MAP:
		return space_map(plan, address, call->size, call->physical, call->rights);
	case UNMAP:
		return space_unmap(plan, address);
	case PROTECT:
		return space_protect(plan, address, call->rights);
	case REMAP:
		return space_remap(plan, address, call->physical, call->rights);
	default:
		return space_ask(plan, address);
	}
}

/* One frame after another is shown. */
static uint32_t begin(struct nrvs_plan *plan, const struct call *call)
{
	const uint64_t address = address_of(call->page);
	switch (call->kind) {
	case MAP:
		return nrvs_plan_map(plan, &space_target, address, call->size, call->physical, call->rights, 0);
	case UNMAP:
		return nrvs_plan_unmap(plan, &space_target, address);
	case PROTECT:
		return nrvs_plan_protect(plan, &space_target, address, call->rights);
	case REMAP:
		return nrvs_plan_remap(plan, &space_target, address, call->physical, call->rights);
	case SPLIT:
		return nrvs_plan_split(plan, &space_target, address);
	case JOIN:
		return nrvs_plan_join(plan, &space_target, address);
	default:
		return nrvs_plan_ask(plan, &space_target, address);
	}
}

static bool is_same(struct nrvs_reply a, struct nrvs_reply b)
{
	return a.code == b.code && a.number == b.number && a.size == b.size && a.rights == b.rights;
}

/* Whether a call, by one way or the other, is answered as the list has it. No processor uses the space: nothing has to be flushed. */
static bool is_right(struct model *model, const struct call *call)
{
	const bool is_shown = call->kind == SPLIT || call->kind == JOIN || (call->page + call->kind) % 2;
	struct nrvs_plan plan;
	struct nrvs_reply wanted;
	if (space_plan(&plan, is_shown ? begin(&plan, call) : begin_in(&plan, call)) != NRVS_PLANNED)
		return false;
	space_store(&plan);
	space_free(&plan);
	wanted = list_answers(model, call);
	done[call->kind] += plan.reply.code == NRVS_CHANGED;
	if (is_same(plan.reply, wanted))
		return true;
	pr_err_once("nrvs_space: call %u of page %u, size %u: answered %u %llx, and not %u %llx\n", call->kind, call->page, call->size,
		    plan.reply.code, plan.reply.number, wanted.code, wanted.number);
	return false;
}

static long unmap_all(struct model *model)
{
	long wrong = 0;
	for (unsigned page = 0; page < PAGES; page++)
		if (model->first[page] == page)
			wrong += !is_right(model, &(struct call){ .kind = UNMAP, .page = page });
	return wrong;
}

/* ---- ranges: what comes of one is what the list answers page by page ---- */

static struct stretch range;
static unsigned long range_pages;

static unsigned page_at(uint64_t address)
{
	return (address - FIRST) >> PAGE_SHIFT;
}

/* Whether the list answers each page of a run as a plan for it alone is answered where it is done. */
static bool is_run_right(struct model *model, struct call *call)
{
	for (uint64_t k = 0; k < range.run.count; k++) {
		const uint64_t behind = k * pages_of(range.run.size);
		const unsigned page = page_at(range.at) + behind;
		const int first = model->first[page];
		const bool is_listed = call->kind == MAP ? first == NOBODY : first == page && model->size[page] == range.run.size;
		struct call one = { call->kind, page, range.run.size, call->rights, call->physical + (behind << PAGE_SHIFT) };
		const struct nrvs_reply reply = list_answers(model, &one);
		if (!is_listed || reply.code != (call->kind == MAP ? NRVS_DONE : call->kind == UNMAP ? NRVS_REMOVED : NRVS_CHANGED))
			return false;
	}
	range_pages += range.run.count;
	return true;
}

static bool is_absent(const struct model *model)
{
	for (unsigned k = 0; k < range.covered >> PAGE_SHIFT; k++)
		if (model->first[page_at(range.at) + k] != NOBODY)
			return false;
	return true;
}

/* What a step says, of the pages from its base on; the call's page is the one there. */
static bool is_step_right(struct model *model, struct call *call)
{
	const unsigned page = call->page = page_at(range.at);
	struct nrvs_reply wanted;
	switch (range.step) {
	case NRVS_RUN:
		return is_run_right(model, call);
	case NRVS_ABSENT:
		return is_absent(model);
	case NRVS_ENDS_BEYOND:
		return model->first[page] == page && model->size[page] == range.run.size &&
		       (uint64_t)pages_of(range.run.size) << PAGE_SHIFT > range.bytes;
	case NRVS_PLANNED:
		wanted = list_answers(model, call);
		return is_same(range.run.plan.reply, wanted);
	default:
		return false;
	}
}

/* A map, an unmap or a protect of some pages. If a step isn't done, the range ends, and the list says so too. */
static bool is_range_right(struct model *model, struct call call, unsigned pages)
{
	const unsigned most = (PAGES - call.page) / pages_of(call.size), count = pages < most ? pages : most;
	bool is_right = true, goes_on = true;
	range_begin(&range, call.kind == MAP ? RANGE_MAP : call.kind == UNMAP ? RANGE_UNMAP : RANGE_PROTECT, address_of(call.page),
		    (uint64_t)count * pages_of(call.size) << PAGE_SHIFT);
	range.size = call.size;
	range.rights = call.rights;
	range.physical = call.physical;
	while (is_right && goes_on && range.bytes) {
		call.physical = range.physical;
		goes_on = range_next(&range);
		is_right = is_step_right(model, &call);
	}
	range_free(&range);
	if (!is_right)
		pr_err_once("nrvs_space: range %u at %llx, size %u, %llx bytes: step %u at %llx is answered %u\n", call.kind, range.base,
			    call.size, range.bytes, range.step, range.at, range.run.plan.reply.code);
	return is_right;
}

/* ---- a table without entries ---- */

static bool is_done(struct nrvs_plan *plan, uint32_t step)
{
	if (space_plan(plan, step) != NRVS_PLANNED)
		return false;
	space_store(plan);
	space_free(plan);
	return plan->reply.code == NRVS_DONE || plan->reply.code == NRVS_REMOVED;
}

/* Behind a page's table an empty one is linked, as a kernel does that allocates tables in advance: a large page is mapped over it only once
 * it is pruned.
 */
static bool is_pruned(void)
{
	const uint64_t large = FIRST + (UINT64_C(1) << 30) + 512 * PAGE_SIZE;
	struct nrvs_plan plan;
	uint64_t table;
	bool is_right = is_done(&plan, nrvs_plan_map(&plan, &space_target, large - PAGE_SIZE, NRVS_4K, 0, NRVS_WRITE, 0)) &&
			plan.store_count > 1 && space_take(&table);
	if (!is_right)
		return false;
	space_words(plan.stores[1].frame)[plan.stores[1].index + 1] = table << PAGE_SHIFT | 7;
	is_right &= !is_done(&plan, nrvs_plan_map(&plan, &space_target, large, NRVS_2M, 0, NRVS_WRITE, 0));
	is_right &= plan.reply.code == NRVS_EMPTY && plan.reply.number == table;
	is_right &= is_done(&plan, nrvs_plan_prune(&plan, &space_target, plan.bits)) && plan.unlinked_count == 1 && plan.unlinked[0] == table;
	is_right &= is_done(&plan, nrvs_plan_map(&plan, &space_target, large, NRVS_2M, 0, NRVS_WRITE, 0));
	is_right &= is_done(&plan, nrvs_plan_unmap(&plan, &space_target, large));
	return is_right & is_done(&plan, nrvs_plan_unmap(&plan, &space_target, large - PAGE_SIZE));
}

long million(unsigned long calls)
{
	struct model *model = vzalloc(sizeof(*model));
	struct rnd_state random;
	long wrong = 0;
	uint64_t from;
	if (!model)
		return -1;
	memset(model->first, 0xff, sizeof(model->first));
	prandom_seed_state(&random, 1);
	from = ktime_get_ns();
	for (unsigned long k = 0; k < calls; k++) {
		const struct call call = draw(&random);
		const bool is_range = prandom_u32_state(&random) % OF_RANGE == 0 && call.kind <= PROTECT;
		wrong += !(is_range ? is_range_right(model, call, 1 + prandom_u32_state(&random) % LONGEST) : is_right(model, &call));
		if (k % 4096 == 0)
			cond_resched();
	}
	pr_info("nrvs_space: %lu calls, %llu ns a call, %ld wrong; %lu splits, %lu joins, %lu pages in runs\n", calls,
		(ktime_get_ns() - from) / (calls ? calls : 1), wrong, done[SPLIT], done[JOIN], range_pages);
	wrong += unmap_all(model) + !is_pruned();
	vfree(model);
	return wrong;
}
