#include "space.h"

#include <linux/gfp.h>
#include <linux/io.h>
#include <linux/ktime.h>
#include <linux/mm.h>
#include <linux/pgtable.h>
#include <linux/smp.h>
#include <asm/special_insns.h>
#include <asm/tlbflush.h>

#include "plant.h"
#include "processors.h"

enum { WAITING = 32, PRESENT = 1, LARGE = 0x80, ACCESSED = 0x20, DIRTY = 0x40, READ_ALONE = 0x65 };

struct space_counts space_counts;
struct nrvs_target space_target;
static struct page *root, *nowhere;
static uint64_t given[NRVS_MOST_UNLINKED], waiting[WAITING];
static unsigned given_count;
static unsigned long freed;

/* ---- frames ---- */

uint64_t *space_words(uint64_t frame)
{
	return phys_to_virt(frame << PAGE_SHIFT);
}

bool space_take(uint64_t *frame)
{
	struct page *page = alloc_page(GFP_KERNEL | __GFP_ZERO);
	if (!page)
		return false;
	*frame = page_to_pfn(page);
	space_counts.frames_out++;
	return true;
}

/* Each word leads to the page `nowhere`, as an entry of any level, which nobody writes. */
static void lead_nowhere(uint64_t frame)
{
	uint64_t *words = space_words(frame);
	for (unsigned i = 0; i < 512; i++)
		WRITE_ONCE(words[i], page_to_phys(nowhere) | READ_ALONE);
}

/* A frame that is free has other uses: whoever still walks it gets nowhere. Linux gets it once some more are free. */
void space_free_frame(uint64_t frame)
{
	uint64_t *place = &waiting[freed++ % WAITING];
	lead_nowhere(frame);
	if (*place)
		__free_page(pfn_to_page(*place));
	*place = frame;
	space_counts.frames_out--;
}

/* ---- the root ---- */

int space_begin(void)
{
	const uint64_t *kernel = phys_to_virt(__read_cr3() & CR3_ADDR_MASK);
	/* Two frames: where page tables are isolated, an NMI looks for the user's root behind the kernel's. */
	root = alloc_pages(GFP_KERNEL | __GFP_ZERO, 1);
	nowhere = alloc_page(GFP_KERNEL);
	if (!root || !nowhere)
		return -ENOMEM;
	memcpy(page_address(root) + PAGE_SIZE / 2, kernel + 256, PAGE_SIZE / 2);
	lead_nowhere(page_to_pfn(nowhere));
	memset(waiting, 0, sizeof(waiting));
	space_target.root = page_to_pfn(root);
	space_target.levels = pgtable_l5_enabled() ? 5 : 4;
	space_target.phys_bits = boot_cpu_data.x86_phys_bits;
	return 0;
}

unsigned long space_end(void)
{
	for (unsigned i = 0; i < WAITING; i++)
		if (waiting[i])
			__free_page(pfn_to_page(waiting[i]));
	if (nowhere)
		__free_page(nowhere);
	if (root)
		__free_pages(root, 1);
	return space_counts.frames_out;
}

void space_load_word(unsigned long cr3)
{
	asm volatile("mov %0, %%cr3" : : "r"(cr3) : "memory");
}

void space_load(void)
{
	space_load_word(page_to_phys(root));
}

bool space_is_loaded(void)
{
	return (__read_cr3() & CR3_ADDR_MASK) == page_to_phys(root);
}

/* ---- a plan ---- */

uint32_t space_plan(struct nrvs_plan *plan, uint32_t step)
{
	given_count = 0;
	for (; step == NRVS_SEE; space_counts.sees++)
		step = nrvs_plan_see(plan, space_words(plan->frame));
	for (; step == NRVS_GIVE; space_counts.gives++)
		step = space_take(&given[given_count]) ? nrvs_plan_give(plan, given[given_count++]) : nrvs_plan_give_none(plan);
	return step;
}

/* The frame is filled before it is linked, or once more where the link met a flag. */
static void fill(const struct nrvs_plan *plan)
{
	const struct nrvs_fill *fill = &plan->fill;
	uint64_t *words = space_words(fill->frame);
	for (unsigned i = 0; i < 512; i++)
		WRITE_ONCE(words[i], i - fill->gap < fill->gap_count ? 0 : fill->first_word + i * fill->step);
}

/* Carries out a store; a flag that a processor set meanwhile is in the plan then. */
static void store_one(struct nrvs_plan *plan, uint64_t i)
{
	const struct nrvs_store *store = &plan->stores[i];
	uint64_t *at = &space_words(store->frame)[store->index], found;
	if (is_planted(PLANT_FLAG)) {
		WRITE_ONCE(*at, store->new_word);
		return;
	}
	while ((found = cmpxchg(at, store->old_word, store->new_word)) != store->old_word) {
		space_counts.flags_met++;
		if (nrvs_plan_again(plan, i, found) != NRVS_OK)
			panic("a word of the tables is written by somebody else");
		if (plan->fills)
			fill(plan);
	}
}

/* The page behind the one that was unmapped is so too, where it lies in the same table. */
static void unmap_too_many(const struct nrvs_plan *plan)
{
	const struct nrvs_store *store = &plan->stores[0];
	if (plan->reply.code == NRVS_REMOVED && plan->unlinked_count == 0 && store->index < 511)
		WRITE_ONCE(space_words(store->frame)[store->index + 1], 0);
}

void space_store(struct nrvs_plan *plan)
{
	if (plan->fills)
		fill(plan);
	space_counts.fills += plan->fills;
	for (uint64_t i = 0; i < plan->store_count; i++)
		store_one(plan, i);
	space_counts.stores += plan->store_count;
	if (is_planted(PLANT_TOO_MANY))
		unmap_too_many(plan);
}

void space_free(const struct nrvs_plan *plan)
{
	for (uint64_t i = 0; i < plan->unlinked_count; i++)
		space_free_frame(plan->unlinked[i]);
	space_counts.unlinked += plan->unlinked_count;
	for (unsigned i = 0; plan->store_count == 0 && i < given_count; i++)
		space_free_frame(given[i]);
}

/* ---- the flush ---- */

/* What is flushed: the page at a base, and what is kept of tables; or all. */
struct flushed {
	uint64_t base;
	bool is_all;
};

/* A processor that doesn't use the space has flushed it when it left, by a load of CR3. */
static void flush_here(void *data)
{
	const struct flushed *what = data;
	if (!space_is_loaded())
		return;
	if (what->is_all)
		space_load();
	else
		asm volatile("invlpg (%0)" : : "r"(what->base) : "memory");
}

static void flush_on_all(uint64_t base, bool is_all)
{
	struct flushed what = { base, is_all };
	const uint64_t from = ktime_get_ns();
	space_counts.shootdowns++;
	if (!is_planted(PLANT_FLUSH))
		on_each_cpu(flush_here, &what, 1);
	space_counts.flush_time += ktime_get_ns() - from;
}

void space_flush(const struct nrvs_plan *plan)
{
	if (plan->flush != NRVS_FLUSH_NOTHING)
		flush_on_all(plan->flush_base, plan->flush == NRVS_FLUSH_RANGE);
}

void space_flush_all(void)
{
	flush_on_all(0, true);
}

/* ---- flags ---- */

/* The entry of the page at an address, or null. */
static uint64_t *entry_of(uint64_t address)
{
	uint64_t frame = space_target.root;
	for (unsigned level = space_target.levels;; level--) {
		uint64_t *at = &space_words(frame)[address >> (3 + 9 * level) & 511];
		const uint64_t word = READ_ONCE(*at);
		if (!(word & PRESENT))
			return NULL;
		if (level == 1 || word & LARGE)
			return at;
		frame = word >> PAGE_SHIFT & GENMASK_ULL(39, 0);
	}
}

void space_clear_flags(uint64_t address)
{
	uint64_t *at = entry_of(address), word;
	if (!at)
		return;
	do {
		word = READ_ONCE(*at);
	} while (cmpxchg(at, word, word & ~(uint64_t)(ACCESSED | DIRTY)) != word);
	flush_on_all(address, false);
}
