/* Drawn ranges. Each is carried out run by run, word by word, in a memory whose frames lie anywhere; each page's change is what a plain
 * list of pages answers to a call for that page alone. Before each word a processor walks at drawn addresses, sets flags, and keeps what it
 * found. The flushes come after one range or after several, with those of splits, unmaps of parts and collapses between them, in the order of
 * what they are of; and between two of them the processor goes on. Then nothing that is kept leads elsewhere than the memory, and the frames
 * that were unlinked are free.
 */
#include "calls.h"
#include "kept.h"
#include "space.h"

#include <stdio.h>
#include <stdlib.h>
#include <string.h>

#ifndef PLANT
#define PLANT 0
#endif

enum { FLAGS = 0x60, MANY_PAGES = 6000, MOST_WAITING = 64, PLANS_EACH = 4 };
static const uint64_t BYTES[] = {UINT64_C(1) << 12, UINT64_C(1) << 21, UINT64_C(1) << 30};

static struct memory memory;
static struct space space;
static struct kept kept;
static struct nrvs_target target;
static uint64_t seed;
static unsigned pages, runs, plans, refused, flagged, found_flags, absent, beyond, unlinked, batches, parts, late;

/* What was carried out and waits for its flush: of so many pages, or of a plan. */
static struct {
	struct nrvs_plan plan;
	uint64_t base, count;
	unsigned flush, size;
} waiting[MOST_WAITING];
static unsigned waiting_count;

/* An address of few, in both halves, so that ranges meet. */
static uint64_t any_address(void)
{
	uint64_t address = (draw(&seed, 2) << 39) + (draw(&seed, 2) << 30) + (draw(&seed, 3) << 21), page = draw(&seed, 8);
	address += (page == 7 ? draw(&seed, 512) : page == 6 ? 511 : page) << 12;
	return draw(&seed, 2) ? address : address - (UINT64_C(1) << (11 + 9 * target.levels));
}

static struct walked walk(uint64_t address)
{
	return memory_walk(&memory, target.levels, target.root, address);
}

static int is_as_listed(uint64_t address)
{
	struct walked now = walk(address), listed = space_walk(&space, address);
	return now.end == listed.end && (now.end != ENDS_MAPPED || (now.physical == listed.physical && now.size == listed.size &&
								       now.rights == listed.rights));
}

/* A processor goes to an address: it sets the accessed flag of each entry, and in one of two goes the dirty flag of the page's. */
static void touch(uint64_t address)
{
	uint64_t level = target.levels, frame = target.root;
	for (;; level--) {
		uint64_t *word = &memory_words(&memory, frame)[address >> (3 + 9 * level) & 511];
		int leaf = level == 1 || (level < 4 && *word & 128);
		const struct page *page = space_page(&space, address);
		uint64_t flags = leaf && draw(&seed, 2) ? FLAGS : 0x20;
		if (!(*word & 1))
			return;
		*word |= flags;
		if (leaf && page)
			space.pages[page - space.pages].bits |= flags;
		if (leaf)
			return;
		frame = *word >> 12 & ((UINT64_C(1) << 40) - 1);
	}
}

/* What a processor does between two stores: near an address, or anywhere. */
static void goes_on(uint64_t near)
{
	if (draw(&seed, 4) == 0)
		touch(draw(&seed, 2) ? near : any_address());
	if (draw(&seed, 4) == 0)
		keep_walk(&kept, &memory, target.levels, target.root, draw(&seed, 2) ? near : any_address());
	if (draw(&seed, 8) == 0)
		CHECK(is_as_listed(draw(&seed, 2) ? near : any_address()));
}

/* ---- flushes ---- */

static void flush_one(unsigned k)
{
	const struct nrvs_plan *plan = &waiting[k].plan;
	uint64_t i, count = PLANT == 23 && waiting[k].count ? 1 : waiting[k].count; /* planted: of the first page alone */
	if (PLANT == 26 && k + 1 != waiting_count) /* planted: the last flush alone */
		return;
	for (i = 0; i < count; i++, goes_on(waiting[k].base))
		forget(&kept, waiting[k].flush, waiting[k].base + i * BYTES[waiting[k].size], waiting[k].size);
	if (!waiting[k].count)
		forget(&kept, plan->flush, plan->flush_base, plan->flush_size);
}

/* The frames that a plan has unlinked are free. */
static void free_unlinked(const struct nrvs_plan *plan)
{
	unsigned i;
	for (i = 0; i < plan->unlinked_count; i++) {
		CHECK(!leads_to(&kept, plan->unlinked[i]));
		memory_free(&memory, plan->unlinked[i]);
		unlinked++;
	}
}

static void flush_all(void)
{
	unsigned i, k;
	for (k = 0; k < waiting_count; k++) {
		flush_one(k);
		goes_on(waiting[k].count ? waiting[k].base : waiting[k].plan.flush_base);
	}
	for (k = 0; k < waiting_count; k++) {
		const uint64_t bytes = BYTES[waiting[k].size];
		for (i = 0; i < 4; i++)
			CHECK(agrees(&kept, &memory, target.levels, target.root, waiting[k].base + draw(&seed, waiting[k].count + 1) * bytes));
		CHECK(agrees(&kept, &memory, target.levels, target.root, any_address()));
	}
	for (k = 0; k < waiting_count; k++)
		if (!waiting[k].count)
			free_unlinked(&waiting[k].plan);
	batches += waiting_count > 1;
	waiting_count = 0;
}

/* A plan, or a run of so many pages, waits for its flush. */
static void wait_for_flush(const struct nrvs_plan *plan, uint64_t base, uint64_t count, unsigned flush, unsigned size)
{
	waiting[waiting_count].base = base;
	waiting[waiting_count].count = count;
	waiting[waiting_count].flush = flush;
	waiting[waiting_count].size = size;
	waiting[waiting_count++].plan = *plan;
	if (PLANT == 25 && !count) { /* planted: free before the flush */
		free_unlinked(plan);
		waiting[waiting_count - 1].plan.unlinked_count = 0;
	}
}

/* ---- plans for one page ---- */

/* What the list answers. */
static struct answered listed(struct request r)
{
	struct page page = {r.address, r.physical, r.bits, r.size, r.rights};
	if (r.kind == MAPS)
		return space_map(&space, page);
	if (r.kind == UNMAPS)
		return space_unmap(&space, r.address);
	if (r.kind == PROTECTS)
		return space_protect(&space, r.address, r.rights);
	if (r.kind == SPLITS)
		return space_split(&space, r.address);
	if (r.kind == PART_UNMAPS)
		return space_unmap_part(&space, r.address, r.physical, r.bits);
	if (r.kind == COLLAPSES)
		return space_collapse(&space, r.address, r.physical, r.rights, target.phys_bits);
	return space_ask(&space, r.address);
}

/* A plan is carried out; no flags are set meanwhile, as drawn.c has it. How many bytes its page has, 0 where it is refused. */
static uint64_t planned(struct nrvs_plan *plan, struct request r, const struct stock *stock)
{
	const struct page *page = space_page(&space, r.address);
	uint64_t i, bytes = r.kind == MAPS ? BYTES[r.size] : page ? BYTES[page->size] : 0, refusal = plan->reply.code >= NRVS_NO_FRAME;
	struct answered a = {{0, 0, 0, 0}, 0};
	for (i = plan->store_count ? stock->given : 0; i < stock->count; i++)
		memory_free(&memory, stock->frames[i]);
	if (!refusal)
		a = listed(r);
	CHECK(refusal || (a.reply.code == plan->reply.code && a.reply.number == plan->reply.number));
	CHECK(fill(plan, &memory));
	for (i = 0; i < plan->store_count; i++) {
		uint64_t *at = &memory_words(&memory, plan->stores[i].frame)[plan->stores[i].index];
		CHECK(*at == plan->stores[i].old_word);
		*at = plan->stores[i].new_word;
		keep_walk(&kept, &memory, target.levels, target.root, r.address);
	}
	CHECK(is_as_listed(r.address));
	wait_for_flush(plan, r.address, 0, 0, 0);
	plans++;
	return plan->store_count ? bytes : 0;
}

static void take_stock(struct stock *stock)
{
	for (stock->count = stock->given = 0; stock->count < 4; stock->count++)
		stock->frames[stock->count] = memory_take(&memory);
}

/* A call for one page: pages of other sizes, and parts of them, lie between those of ranges. */
static void one_plan(void)
{
	static const unsigned KINDS[] = {SPLITS, PART_UNMAPS, COLLAPSES, COLLAPSES};
	struct request r = {KINDS[draw(&seed, 4)], 0, (unsigned)draw(&seed, 8), 0, 0, 0};
	struct nrvs_plan plan;
	struct stock stock;
	r.address = any_address() & ~(BYTES[draw(&seed, 4) ? 1 : 2] - 1);
	r.physical = r.kind == PART_UNMAPS ? draw(&seed, 256) : draw(&seed, 64) << 21;
	r.bits = r.kind == PART_UNMAPS ? 1 + draw(&seed, 256) : 0;
	take_stock(&stock);
	CHECK(begin(&LIBRARY, &plan, &target, r) == NRVS_SEE);
	CHECK(drive(&LIBRARY, &plan, NRVS_SEE, &memory, &stock) == NRVS_PLANNED);
	planned(&plan, r, &stock);
}

/* ---- ranges ---- */

static uint32_t begin_range(struct nrvs_run *run, struct request r, uint64_t bytes)
{
	memset(run, 0xAB, sizeof *run);
	if (r.kind == MAPS)
		return nrvs_plan_map_range(run, &target, r.address, r.size, r.physical, r.rights, r.bits, bytes);
	if (r.kind == UNMAPS)
		return nrvs_plan_unmap_range(run, &target, r.address, bytes);
	if (r.kind == PROTECTS)
		return nrvs_plan_protect_range(run, &target, r.address, bytes, r.rights);
	return nrvs_plan_harvest_range(run, &target, r.address, bytes);
}

static uint32_t drive_range(struct nrvs_run *run, uint32_t step, struct stock *stock)
{
	while (step == NRVS_SEE)
		step = nrvs_run_see(run, memory_words(&memory, run->plan.frame));
	while (step == NRVS_GIVE)
		step = nrvs_run_give(run, stock->frames[stock->given++]);
	if (PLANT == 21 && step == NRVS_RUN && run->index + run->count < 512) /* planted: one page too many, one too few, more than flags */
		run->count++;
	if (PLANT == 22 && step == NRVS_RUN)
		run->count -= run->count > 1;
	if (PLANT == 21 || PLANT == 22)
		run->covered = step == NRVS_RUN ? run->count * BYTES[run->size] : run->covered;
	if (PLANT == 24 && step == NRVS_HARVEST)
		run->keep &= ~(uint64_t)2;
	return step;
}

/* The next page of a request. */
static struct request next_of(struct request r, uint64_t bytes)
{
	r.address += bytes;
	r.physical += r.kind == MAPS ? bytes : 0;
	return r;
}

/* Whether a page for the request, whose entry is this word, may be in the run of the one before it: where there is none, and within the
 * physical addresses; or one that is as large.
 */
static int follows_on(struct request r, unsigned size, uint64_t word)
{
	const struct page *page = space_page(&space, r.address);
	const uint64_t end = UINT64_C(1) << (target.phys_bits > 51 ? 51 : target.phys_bits);
	if (r.kind == MAPS)
		return !(word & 1) && r.physical + BYTES[size] <= end;
	return page && page->base == r.address && page->size == size;
}

/* A run goes as far as it may: to the end of its table, of the range, or of what follows on; but an unmap leaves a table a word. */
static void check_length(const struct nrvs_run *run, struct request r, uint64_t bytes)
{
	const uint64_t *words = memory_words(&memory, run->frame);
	uint64_t i, others = 0;
	if (run->index + run->count == 512 || bytes < run->covered + BYTES[run->size])
		return;
	if (!follows_on(next_of(r, run->covered), run->size, words[run->index + run->count]))
		return;
	for (i = 0; i < 512; i++)
		others += (i < run->index || i > run->index + run->count) && words[i];
	CHECK(r.kind == UNMAPS && !others);
}

/* The words of a run, one by one: each is what the list answers for its page, and what the exchange finds has the page's flags. */
static void carry_run(const struct nrvs_run *run, struct request r, unsigned harvests)
{
	uint64_t i, *words = memory_words(&memory, run->frame) + run->index;
	CHECK(run->count && run->index + run->count <= 512 && run->base == r.address);
	for (i = 0; i < run->count; i++, r = next_of(r, BYTES[run->size])) {
		const struct page *page;
		struct answered a;
		uint64_t found, flags;
		goes_on(r.address);
		page = space_page(&space, r.address);
		flags = page ? page->bits & FLAGS : 0;
		found = words[i];
		words[i] = nrvs_run_word(run, i, found);
		CHECK(r.kind == MAPS ? !(found & 1) : (found & 1 && (found & FLAGS) == flags));
		a = listed(r);
		CHECK(a.reply.code == (r.kind == MAPS ? NRVS_DONE : harvests ? NRVS_MAPPED : r.kind == UNMAPS ? NRVS_REMOVED : NRVS_CHANGED));
		page = space_page(&space, r.address);
		if (harvests && page)
			space.pages[page - space.pages].bits &= ~(uint64_t)FLAGS;
		found_flags += harvests && flags;
		flagged += flags != 0;
		CHECK(is_as_listed(r.address) && (space_ask(&space, r.address).bits & FLAGS) == (words[i] & 1 ? words[i] & FLAGS : 0));
		pages++;
	}
	runs++;
}

/* No page lies there. */
static void check_absent(const struct nrvs_run *run, uint64_t base)
{
	unsigned i;
	CHECK(run->covered != 0);
	for (i = 0; i < 4; i++)
		CHECK(!space_page(&space, base + draw(&seed, run->covered)));
	CHECK(!space_page(&space, base) && !space_page(&space, base + run->covered - 1));
	absent++;
}

/* A plan for a page alone changes it only where a map links a table, or an unmap unlinks one; and the page lies in the range. A page that
 * begins there is harvested, and not only looked at.
 */
static void check_alone(const struct nrvs_plan *plan, struct request r, const struct page *page, uint64_t bytes)
{
	CHECK(r.kind != ASKS || !page || page->base != r.address);
	if (!plan->store_count)
		return;
	CHECK((r.kind == MAPS && plan->store_count > 1) || (r.kind == UNMAPS && plan->unlinked_count));
	CHECK(r.kind == MAPS || (page && BYTES[page->size] <= bytes));
}

/* One step of a range: how many bytes come after it, or 0 where it ends. */
static uint64_t one_step(struct request r, uint64_t bytes)
{
	const struct page *page = space_page(&space, r.address);
	struct nrvs_run run;
	struct stock stock;
	uint64_t done;
	uint32_t step;
	take_stock(&stock);
	step = begin_range(&run, r, bytes);
	if (step != NRVS_SEE) { /* the page lies beyond the physical addresses, or isn't canonical; or the range goes beyond the last address */
		CHECK((r.kind == MAPS && step == NRVS_PHYS_RANGE) || step == NRVS_NOT_CANONICAL);
		late += r.address && bytes > 0 - r.address;
		bytes = 0;
	}
	CHECK(!bytes || !r.address || bytes <= 0 - r.address);
	step = step == NRVS_SEE ? drive_range(&run, step, &stock) : step;
	if (step == NRVS_PLANNED) {
		check_alone(&run.plan, r, page, bytes);
		return planned(&run.plan, r, &stock);
	}
	while (stock.count > 0)
		memory_free(&memory, stock.frames[--stock.count]);
	if (bytes == 0)
		return 0;
	if (step == NRVS_ENDS_BEYOND) {
		CHECK(r.kind != MAPS && page && page->base == r.address && page->size == run.size && bytes < BYTES[page->size]);
		beyond++;
		return 0;
	}
	CHECK(step != NRVS_ABSENT || r.kind != MAPS);
	if (step == NRVS_ABSENT) {
		check_absent(&run, r.address);
		return run.covered;
	}
	CHECK(step == (r.kind == ASKS ? NRVS_HARVEST : NRVS_RUN) && run.covered == run.count * BYTES[run.size] && run.covered <= bytes);
	done = run.count * BYTES[run.size];
	check_length(&run, r, bytes);
	carry_run(&run, r, r.kind == ASKS);
	wait_for_flush(&run.plan, r.address, run.count, run.flush, run.size);
	return done;
}

static struct request any_request(uint64_t *bytes)
{
	static const unsigned KINDS[] = {MAPS, MAPS, MAPS, UNMAPS, UNMAPS, PROTECTS, ASKS};
	struct request r = {KINDS[draw(&seed, 7)], draw(&seed, 8) ? 0 : 1 + (unsigned)draw(&seed, 2), (unsigned)draw(&seed, 8), 0, 0, 0};
	const uint64_t size = BYTES[r.kind == MAPS ? r.size : 0];
	r.address = any_address() & ~(size - 1);
	r.physical = r.kind == MAPS ? draw(&seed, 1 << 10) * size : 0;
	if (draw(&seed, 32) == 0 && r.kind == MAPS) /* near the end of the physical addresses */
		r.physical = (UINT64_C(1) << (target.phys_bits > 51 ? 51 : target.phys_bits)) - (1 + draw(&seed, 4)) * size;
	r.bits = r.kind == MAPS ? draw(&seed, 4) << 9 : 0;
	if (draw(&seed, 64) == 0) /* near the last address */
		r.address = 0 - (1 + draw(&seed, 16)) * size;
	*bytes = r.kind == MAPS && r.size ? (1 + draw(&seed, 3)) * size : (1 + draw(&seed, draw(&seed, 3) ? 24 : 1100)) << 12;
	return r;
}

/* A map of no page, or of a part of one behind others, is refused, and nothing is written. */
static void check_whole(struct request r, uint64_t bytes)
{
	static struct nrvs_words none;
	struct nrvs_run run, was;
	const uint64_t other = draw(&seed, 4) ? bytes + 1 + draw(&seed, BYTES[r.size] - 1) : 0;
	CHECK(begin_range(&run, r, other) == NRVS_UNALIGNED);
	memset(&was, 0xAB, sizeof was);
	CHECK(!memcmp(&run, &was, sizeof run));
	CHECK(nrvs_plan_map_range_in(&run, &target, &none, 0, 0, r.address, r.size, r.physical, r.rights, r.bits, other) == NRVS_UNALIGNED);
	CHECK(!memcmp(&run, &was, sizeof run));
	parts++;
}

static void one_range(void)
{
	uint64_t bytes, done;
	struct request r = any_request(&bytes);
	if (r.kind == MAPS && draw(&seed, 4) == 0)
		check_whole(r, bytes);
	while (bytes) {
		done = one_step(r, bytes);
		if (!done) {
			refused++;
			break;
		}
		bytes -= done < bytes ? done : bytes;
		r = next_of(r, done);
		if (waiting_count == MOST_WAITING)
			flush_all();
	}
}

static void run(uint32_t levels, uint32_t phys_bits, unsigned many)
{
	const unsigned until = pages + many;
	target.levels = levels;
	target.phys_bits = phys_bits;
	space.count = 0;
	memset(&kept, 0, sizeof kept);
	memory_begin(&memory, phys_bits, seed);
	target.root = memory_take(&memory);
	while (pages < until) {
		target.pinned = draw(&seed, 2) ? 0 : (uint32_t)draw(&seed, 7);
		if (draw(&seed, PLANS_EACH))
			one_range();
		else
			one_plan();
		if (draw(&seed, 3) == 0 || waiting_count > MOST_WAITING / 2)
			flush_all();
		while (space.count > MANY_PAGES) { /* not so many */
			flush_all();
			target.pinned = 0;
			one_step((struct request){UNMAPS, 0, 0, space.pages[draw(&seed, space.count)].base, 0, 0}, UINT64_C(1) << 31);
		}
	}
	flush_all();
	memory_end(&memory);
}

int main(int count, char **words)
{
	unsigned many = count > 1 ? (unsigned)atoi(words[1]) : 20000;
	seed = count > 2 ? (uint64_t)atoll(words[2]) : 1;
	run(4, 36, many);
	run(4, 52, many);
	run(5, 52, many);
	run(5, 46, many);
	printf("%u pages in %u runs, %u plans, %u ranges cut off, %u gaps, %u pages that end beyond\n", pages, runs, plans, refused, absent,
	       beyond);
	printf("%u flags met, %u harvested, %u tables unlinked, %u flushes of several\n", flagged, found_flags, unlinked, batches);
	CHECK(runs && plans && refused && absent && beyond && flagged && found_flags && unlinked && batches && parts && late);
	return counts();
}
