#include "cost.h"

#include <linux/gfp.h>
#include <linux/io.h>
#include <linux/ktime.h>
#include <linux/mm.h>
#include <linux/printk.h>
#include <linux/sched.h>
#include <linux/vmalloc.h>

#include "range.h"
#include "space.h"

#define FIRST UINT64_C(0x380000000000)

enum { PAGES = 512 };

/* Nanoseconds of all rounds, by one way. */
struct spent {
	uint64_t maps, unmaps;
};

static uint64_t since(uint64_t from)
{
	return ktime_get_ns() - from;
}

static void carry_out(struct nrvs_plan *plan, uint32_t step)
{
	if (space_plan(plan, step) != NRVS_PLANNED)
		panic("nrvs_space: a request is refused");
	space_store(plan);
	space_free(plan);
}

/* Each frame on the way is shown to each plan. */
static void by_plans(struct page **pages, struct spent *spent)
{
	struct nrvs_plan plan;
	uint64_t from = ktime_get_ns();
	for (unsigned k = 0; k < PAGES; k++)
		carry_out(&plan, nrvs_plan_map(&plan, &space_target, FIRST + k * PAGE_SIZE, NRVS_4K, page_to_phys(pages[k]), NRVS_WRITE, 0));
	spent->maps += since(from);
	from = ktime_get_ns();
	for (unsigned k = 0; k < PAGES; k++)
		carry_out(&plan, nrvs_plan_unmap(&plan, &space_target, FIRST + k * PAGE_SIZE));
	spent->unmaps += since(from);
}

static void by_direct_map(struct page **pages, struct spent *spent)
{
	struct nrvs_plan plan;
	uint64_t from = ktime_get_ns();
	for (unsigned k = 0; k < PAGES; k++)
		carry_out(&plan, space_map(&plan, FIRST + k * PAGE_SIZE, NRVS_4K, page_to_phys(pages[k]), NRVS_WRITE));
	spent->maps += since(from);
	from = ktime_get_ns();
	for (unsigned k = 0; k < PAGES; k++)
		carry_out(&plan, space_unmap(&plan, FIRST + k * PAGE_SIZE));
	spent->unmaps += since(from);
}

static void carry_out_range(enum range_kind kind, struct page **pages)
{
	static struct stretch range;
	range_begin(&range, kind, FIRST, PAGES * PAGE_SIZE);
	range.physical = page_to_phys(pages[0]);
	range.rights = NRVS_WRITE;
	while (range_next(&range))
		;
	if (range.bytes)
		panic("nrvs_space: a range is refused");
	range_free(&range);
}

static void by_ranges(struct page **pages, struct spent *spent)
{
	uint64_t from = ktime_get_ns();
	carry_out_range(RANGE_MAP, pages);
	spent->maps += since(from);
	from = ktime_get_ns();
	carry_out_range(RANGE_UNMAP, pages);
	spent->unmaps += since(from);
}

static int by_vmap(struct page **pages, struct spent *spent)
{
	uint64_t from = ktime_get_ns();
	void *at = vmap(pages, PAGES, VM_MAP, PAGE_KERNEL);
	if (!at)
		return -ENOMEM;
	spent->maps += since(from);
	from = ktime_get_ns();
	vunmap(at);
	spent->unmaps += since(from);
	return 0;
}

int cost(unsigned rounds)
{
	struct page **pages = kcalloc(PAGES, sizeof(*pages), GFP_KERNEL), *first = alloc_pages(GFP_KERNEL, 9);
	struct spent plans = { 0 }, direct = { 0 }, ranges = { 0 }, vmaps = { 0 };
	const uint64_t count = (uint64_t)rounds * PAGES;
	int status = pages && first ? 0 : -ENOMEM;
	for (unsigned k = 0; !status && k < PAGES; k++)
		pages[k] = first + k;
	for (unsigned k = 0; !status && k < rounds; k++) {
		by_plans(pages, &plans);
		by_direct_map(pages, &direct);
		by_ranges(pages, &ranges);
		status = by_vmap(pages, &vmaps);
		cond_resched();
	}
	if (!status && rounds)
		pr_info("nrvs_space: ns a page, map and unmap: plans %llu and %llu, direct map %llu and %llu, ranges %llu and %llu, "
			"vmap %llu and %llu\n", plans.maps / count, plans.unmaps / count, direct.maps / count, direct.unmaps / count,
			ranges.maps / count, ranges.unmaps / count, vmaps.maps / count, vmaps.unmaps / count);
	if (first)
		__free_pages(first, 9);
	kfree(pages);
	return status;
}
