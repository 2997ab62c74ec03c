/* Drawn calls. Each plan is that of the second planner, is answered as a plain list of pages is, and is carried out in a memory whose
 * frames lie anywhere. Before and after each of its stores a processor walks at drawn addresses, sets flags, and keeps what it found. After
 * the flush nothing that is kept leads elsewhere than the memory. Where pages were split, it is tried to join them again, or to put a page
 * elsewhere in their place. In one of two calls the flush comes later, after more calls: all flushes then, and the frames are freed.
 */
#include "calls.h"
#include "kept.h"
#include "space.h"

#include <stdio.h>
#include <stdlib.h>
#include <string.h>

#ifndef PLANT
#define PLANT 0
#endif

enum { PROBES = 12, FLAGS = 0x60, MANY_PAGES = 1600, MOST_WAITING = 8 };

static struct memory memory;
static struct space space, after;
static struct kept kept;
static struct nrvs_target target;
static uint64_t seed, split;
static unsigned done, refused, flagged, unlinked, empty, batches, of_kind[MANY_KINDS];

/* Plans that were carried out and whose flush is still to come. */
static struct {
	struct nrvs_plan plan;
	struct request request;
} waiting[MOST_WAITING];
static unsigned waiting_count;

/* An address of few, in both halves, so that pages meet. */
static uint64_t any_address(void)
{
	uint64_t address = (draw(&seed, 2) << 39) + (draw(&seed, 3) << 30) + (draw(&seed, 3) << 21), page = draw(&seed, 5);
	address += (page == 4 ? 511 : page) << 12;
	if (target.levels == 5)
		address += draw(&seed, 2) << 48;
	return draw(&seed, 2) ? address : address - (UINT64_C(1) << (11 + 9 * target.levels));
}

static unsigned any_kind(void)
{
	static const unsigned EACH[] = {MAPS, MAPS, UNMAPS, UNMAPS, PROTECTS, ASKS, REMAPS, SPLITS, SPLITS, JOINS, PRUNES,
				       PART_UNMAPS, COLLAPSES, COLLAPSES};
	return EACH[draw(&seed, sizeof EACH / sizeof EACH[0])];
}

/* What is joined is mostly what was split last. */
static uint64_t base_of(unsigned kind)
{
	uint64_t base = any_address();
	if ((kind == JOINS || kind == COLLAPSES) && draw(&seed, 4))
		return split;
	if (kind == REMAPS && draw(&seed, 2))
		return split + (draw(&seed, 512) << 12);
	if (kind >= REMAPS && draw(&seed, 2))
		base &= ~((UINT64_C(4096) << 9 * (1 + draw(&seed, 2))) - 1);
	return base;
}

/* A request that is well formed. */
static struct request any_request(void)
{
	struct request r;
	uint64_t bytes;
	r.kind = any_kind();
	r.size = (unsigned)draw(&seed, 5) % 3;
	bytes = UINT64_C(4096) << 9 * r.size;
	r.rights = (unsigned)draw(&seed, 8);
	r.address = base_of(r.kind);
	if (r.kind == COLLAPSES) /* mostly of 4 KiB */
		bytes <<= draw(&seed, 4) ? 9 : 18;
	if (bytes > UINT64_C(1) << 30)
		bytes = UINT64_C(1) << 30;
	r.physical = draw(&seed, (UINT64_C(1) << (target.phys_bits > 51 ? 51 : target.phys_bits)) / bytes) * bytes;
	r.bits = (draw(&seed, UINT64_C(1) << 31) << 33 | draw(&seed, UINT64_C(1) << 31) << 2) & NRVS_ATTRIBUTES;
	if (r.kind == PART_UNMAPS) {
		r.physical = draw(&seed, 4) ? draw(&seed, 512) : 0;
		r.bits = 1 + draw(&seed, draw(&seed, 2) ? 512 - r.physical : 4);
		if (r.physical + r.bits > 512 || r.bits > 511)
			r.bits = 1;
	}
	if (r.kind == MAPS)
		r.address &= ~(bytes - 1);
	if (r.kind == ASKS)
		r.address += draw(&seed, 4096);
	if (r.kind == REMAPS && draw(&seed, 8) && space_page(&space, r.address))
		r.rights = space_page(&space, r.address)->rights;
	if ((r.kind == REMAPS || r.kind == COLLAPSES) && draw(&seed, 8) == 0)
		r.physical |= draw(&seed, 2) ? UINT64_C(1) << 51 : draw(&seed, 4096);
	return r;
}

static struct answered answer(struct space *of, struct request r)
{
	struct page page = {r.address, r.physical, r.bits, r.size, r.rights};
	if (r.kind == MAPS)
		return space_map(of, page);
	if (r.kind == UNMAPS)
		return space_unmap(of, r.address);
	if (r.kind == REMAPS)
		return space_remap(of, r.address, r.physical, r.rights, target.phys_bits);
	if (r.kind == SPLITS)
		return space_split(of, r.address);
	if (r.kind == JOINS)
		return space_join(of, r.address);
	if (r.kind == PART_UNMAPS)
		return space_unmap_part(of, r.address, r.physical, r.bits);
	if (r.kind == COLLAPSES)
		return space_collapse(of, r.address, r.physical, r.rights, target.phys_bits);
	if (r.kind == PRUNES)
		return (struct answered){{NRVS_DONE, 0, 0, 0}, 0};
	return r.kind == PROTECTS ? space_protect(of, r.address, r.rights) : space_ask(of, r.address);
}

static void flags_in_space(struct space *of, uint64_t address, uint64_t flags)
{
	const struct page *page = space_page(of, address);
	if (page)
		of->pages[page - of->pages].bits |= flags;
}

/* A processor goes to an address: it sets the accessed flag of each entry, and in one of two goes the dirty flag of the page's. */
static void touch(uint64_t address)
{
	uint64_t level = target.levels, frame = target.root, flags;
	for (;; level--) {
		uint64_t *word = &memory_words(&memory, frame)[address >> (3 + 9 * level) & 511];
		int leaf = level == 1 || (level < 4 && *word & 128);
		if (!(*word & 1))
			return;
		flags = leaf && draw(&seed, 2) ? FLAGS : 0x20;
		*word |= flags;
		if (leaf) {
			flags_in_space(&space, address, flags);
			flags_in_space(&after, address, flags);
			return;
		}
		frame = *word >> 12 & ((UINT64_C(1) << 40) - 1);
	}
}

static int same(struct walked a, struct walked b)
{
	return a.end == b.end && (a.end != ENDS_MAPPED || (a.physical == b.physical && a.size == b.size && a.rights == b.rights));
}

/* The memory translates as the space before, or as the space after: at the addresses of the page and at others. */
static int translates(const struct space *as, const uint64_t probes[PROBES])
{
	unsigned i;
	for (i = 0; i < PROBES; i++)
		if (!same(memory_walk(&memory, target.levels, target.root, probes[i]), space_walk(as, probes[i])))
			return 0;
	return 1;
}

/* At the ends of the page and in it, beside it, and elsewhere. */
static void draw_probes(uint64_t probes[PROBES], struct request r)
{
	uint64_t bytes = UINT64_C(4096) << 9 * r.size, base = r.address & ~UINT64_C(4095);
	unsigned i;
	for (i = 0; i < PROBES; i++)
		probes[i] = any_address() + draw(&seed, 4096);
	for (i = 4; i < 7; i++)
		probes[i] = (base & ~(bytes - 1)) + draw(&seed, bytes);
	probes[0] = base;
	probes[1] = base + bytes - 1;
	probes[2] = base ^ bytes;
	probes[3] = (base & ~(bytes - 1)) + draw(&seed, bytes);
}

/* Store number i, by compare-exchanges, as nrvs_plan.h has it. */
static void carry_out(struct nrvs_plan *plan, struct nrvs_plan *second, unsigned i)
{
	uint64_t *at = &memory_words(&memory, plan->stores[i].frame)[plan->stores[i].index];
	CHECK(at != NULL);
	while (*at != plan->stores[i].old_word) {
		flagged++;
		CHECK(again(&LIBRARY, plan, i, *at) == NRVS_OK);
		CHECK(again(&REFERENCE, second, i, plan->stores[i].old_word) == NRVS_OK);
		CHECK(same_plans(plan, second));
		CHECK(fill(plan, &memory));
		if (*at != plan->stores[i].old_word)
			return;
	}
	*at = plan->stores[i].new_word;
}

/* What a store may change: a word of a given frame, the page's entry, the link to a table that is unlinked. */
static void check_store(const struct nrvs_plan *plan, const struct stock *stock, const struct request *r, unsigned i)
{
	const struct nrvs_store *s = &plan->stores[i];
	unsigned above = r->size + 1 + i, k, given = 0;
	for (k = 0; k < stock->given; k++)
		given |= stock->frames[k] == s->frame;
	if (r->kind == MAPS) {
		CHECK(given == (i + 1 < plan->store_count) && !(s->old_word & 1) && (!given || s->old_word == 0));
		CHECK(s->new_word & 1 && s->index == (r->address >> (3 + 9 * above) & 511));
	} else if (r->kind == PROTECTS) {
		CHECK(i == 0 && ((s->old_word ^ s->new_word) & ~(UINT64_C(1) << 63 | 6)) == 0 && s->old_word & 1);
	} else if (r->kind == REMAPS) {
		CHECK(i == 0 && ((s->old_word ^ s->new_word) & (UINT64_C(0x7ff0000000000ff9) | (r->size ? 4096 : 0))) == 0 && s->old_word & 1);
	} else if (r->kind == SPLITS || r->kind == PART_UNMAPS) {
		CHECK(i == 0 && given == 0 && stock->frames[0] == plan->fill.frame && s->new_word == (plan->fill.frame << 12 | 7));
	} else if (r->kind == JOINS) {
		CHECK(i == 0 && (s->old_word >> 12 & ((UINT64_C(1) << 40) - 1)) == plan->unlinked[0] && (s->new_word & FLAGS) == FLAGS);
	} else if (r->kind == COLLAPSES) {
		CHECK(i == 0 && (s->old_word >> 12 & ((UINT64_C(1) << 40) - 1)) == plan->unlinked[0] && (s->new_word & FLAGS) == FLAGS);
		CHECK((s->new_word & UINT64_C(0x000fffffffe00000)) == r->physical);
	} else if (r->kind == PRUNES) {
		CHECK(i == 0 && s->new_word == 0 && (s->old_word >> 12 & ((UINT64_C(1) << 40) - 1)) == plan->unlinked[0]);
	} else {
		CHECK(r->kind == UNMAPS && s->new_word == 0 && s->old_word & 1);
		CHECK(i == 0 || (s->old_word >> 12 & ((UINT64_C(1) << 40) - 1)) == plan->unlinked[i - 1]);
	}
}

/* All stores, with what a processor does meanwhile: the switch is one of them. */
static void carry_out_all(struct nrvs_plan *plan, struct nrvs_plan *second, const struct stock *stock, const struct request *r)
{
	uint64_t probes[PROBES];
	unsigned i, switched = 0;
	draw_probes(probes, *r);
	CHECK(translates(&space, probes));
	CHECK(plan->fills == ((r->kind == SPLITS || r->kind == PART_UNMAPS) && plan->store_count));
	CHECK(fill(plan, &memory));
	CHECK(translates(&space, probes));
	for (i = 0; i < plan->store_count; i++) {
		if (draw(&seed, 2))
			touch(draw(&seed, 2) ? r->address : any_address());
		keep_walk(&kept, &memory, target.levels, target.root, draw(&seed, 2) ? r->address : any_address());
		if (r->kind == SPLITS || r->kind == PART_UNMAPS) { /* the parts have the flags of this moment */
			space_copy(&after, &space);
			answer(&after, *r);
		}
		carry_out(plan, second, i);
		check_store(plan, stock, r, i);
		draw_probes(probes, *r);
		switched |= !translates(&space, probes);
		CHECK(switched ? translates(&after, probes) : 1);
	}
	CHECK(translates(&after, probes));
}

/* The unlinked frames of a plan are free. */
static void free_unlinked(const struct nrvs_plan *plan, const struct request *r)
{
	unsigned i, k;
	for (i = 0; i < plan->unlinked_count; i++) {
		const uint64_t *words = memory_words(&memory, plan->unlinked[i]);
		CHECK(words && !leads_to(&kept, plan->unlinked[i]));
		for (k = 0; words && k < 512 && !(r->kind == PRUNES ? words[k] & 1 : words[k]); k++)
			;
		CHECK(k == 512 || r->kind == JOINS || r->kind == COLLAPSES);
		memory_free(&memory, plan->unlinked[i]);
		unlinked++;
	}
}

/* Between two flushes a processor reads on, from the root and from tables that it keeps, which may be unlinked. */
static void reads_on(void)
{
	unsigned i;
	for (i = 0; i < 4 && kept.link_count; i++) {
		const uint64_t at = draw(&seed, kept.link_count);
		const struct link link = kept.links[at];
		kept.links[at] = kept.links[0];
		kept.links[0] = link;
		keep_walk(&kept, &memory, target.levels, target.root, link.base + (draw(&seed, 512) << 12));
	}
}

/* After the flushes of all plans that wait, in their order: what is kept is what is there, and the unlinked frames are free. */
static void flush_and_free(void)
{
	unsigned i, k;
	for (k = 0; k < waiting_count; k++) {
		const struct nrvs_plan *plan = &waiting[k].plan;
		const unsigned links = kept.link_count;
		struct kept before = kept;
		if (PLANT != 16 || k + 1 == waiting_count) /* planted: the flush of the last alone */
			forget(&kept, plan->flush, plan->flush_base, plan->flush_size);
		if (PLANT == 18) { /* planted: what is kept of tables is dropped behind all else */
			memcpy(kept.links, before.links, sizeof before.links);
			kept.link_count = links;
		}
		reads_on();
	}
	if (PLANT == 18)
		kept.link_count = 0;
	for (k = 0; k < waiting_count; k++) {
		CHECK(agrees(&kept, &memory, target.levels, target.root, waiting[k].request.address));
		for (i = 1; i < PROBES; i++)
			CHECK(agrees(&kept, &memory, target.levels, target.root, any_address()));
	}
	for (k = 0; k < waiting_count; k++)
		free_unlinked(&waiting[k].plan, &waiting[k].request);
	batches += waiting_count > 1;
	waiting_count = 0;
}

/* A plan waits for its flush. */
static void wait_for_flush(const struct nrvs_plan *plan, const struct request *r)
{
	waiting[waiting_count].plan = *plan;
	waiting[waiting_count++].request = *r;
	if (PLANT == 17) { /* planted: freed before the flush */
		free_unlinked(plan, r);
		waiting[waiting_count - 1].plan.unlinked_count = 0;
	}
}

/* A plan's answer beside that of the list; the flags of its page are those at the moment of the store, but by a join as they were shown. */
static void check_answer(const struct nrvs_plan *plan, const struct request *r, struct answered a)
{
	CHECK(plan->reply.code == a.reply.code && plan->reply.number == a.reply.number);
	CHECK(plan->reply.size == a.reply.size && plan->reply.rights == a.reply.rights);
	if (r->kind == JOINS || r->kind == COLLAPSES)
		CHECK(((plan->bits ^ a.bits) & ~(uint64_t)FLAGS) == 0);
	else
		CHECK(plan->bits == (r->kind != MAPS && r->kind != PRUNES && plan->store_count ? space_ask(&space, r->address).bits : a.bits));
}

/* The plan is carried out, and the space after it is there. */
static void planned(struct nrvs_plan *plan, struct nrvs_plan *second, struct request *r, const struct stock *stock)
{
	const struct page *page = space_page(&space, r->address);
	struct answered a = answer(&after, *r);
	if (r->kind == MAPS && plan->reply.code != NRVS_DONE)
		CHECK(plan->store_count == 0);
	if (r->kind != MAPS)
		r->size = page ? page->size : 0;
	if ((r->kind == JOINS || r->kind == COLLAPSES) && plan->store_count) {
		r->size++;
		for (unsigned k = 0; k < 512; k++) /* a processor that keeps one of them */
			if (draw(&seed, 64) == 0)
				keep_walk(&kept, &memory, target.levels, target.root, r->address + k * (UINT64_C(4096) << 9 * (r->size - 1)));
	}
	carry_out_all(plan, second, stock, r);
	check_answer(plan, r, a);
	done += plan->store_count != 0;
	of_kind[r->kind] += plan->store_count != 0;
	if (r->kind == SPLITS && plan->store_count)
		split = r->address;
}

/* Words that aren't present, as of pages on disk, are written into a table, or cleared. */
static void swap_words(uint64_t address)
{
	uint64_t level = target.levels, frame = target.root, *word;
	for (;; level--) {
		word = &memory_words(&memory, frame)[address >> (3 + 9 * level) & 511];
		if (!(*word & 1))
			break;
		if (level == 1 || (level < 4 && *word & 128))
			return;
		frame = *word >> 12 & ((UINT64_C(1) << 40) - 1);
	}
	*word = draw(&seed, 2) ? draw(&seed, UINT64_C(1) << 31) << 1 : 0;
}

/* What a plan says that finds no space for its page, or may not unlink a table: no page is changed. */
static int is_kept(const struct nrvs_plan *plan, struct request r)
{
	const uint64_t *words = plan->reply.code == NRVS_EMPTY ? memory_words(&memory, plan->reply.number) : NULL;
	unsigned i;
	if (plan->reply.code == NRVS_PINNED) {
		i = answer(&after, r).reply.code;
		CHECK((r.kind == JOINS || r.kind == COLLAPSES) && target.pinned && target.pinned <= 3 && (i == NRVS_CHANGED || i == NRVS_APART));
		return 1;
	}
	if (plan->reply.code != NRVS_EMPTY)
		return 0;
	CHECK(r.kind == MAPS && words && plan->bits - r.address < UINT64_C(4096) << 9 * r.size);
	for (i = 0; words && i < 512; i++)
		CHECK(!(words[i] & 1));
	return 1;
}

static void one_call(struct request r);

/* The table that was in the way is pruned: it is named, where it isn't pinned. */
static void prune_it(const struct nrvs_plan *plan)
{
	struct request r = {PRUNES, 0, 0, plan->bits, 0, 0};
	unsigned before = unlinked;
	target.pinned = 0;
	empty++;
	one_call(r);
	flush_and_free();
	CHECK(unlinked == before + 1 && !memory_words(&memory, plan->reply.number));
}

static void one_call(struct request r)
{
	struct nrvs_plan plan, second;
	struct stock stock;
	unsigned i;
	stock.count = draw(&seed, 8) ? 4 : (unsigned)draw(&seed, 4);
	for (i = 0; i < stock.count; i++)
		stock.frames[i] = memory_take(&memory);
	memset(&plan, 0xAB, sizeof plan);
	CHECK(begin(&LIBRARY, &plan, &target, r) == NRVS_SEE);
	CHECK(begin(&REFERENCE, &second, &target, r) == NRVS_SEE);
	CHECK(drive(&LIBRARY, &plan, NRVS_SEE, &memory, &stock) == NRVS_PLANNED);
	CHECK(drive(&REFERENCE, &second, NRVS_SEE, &memory, &stock) == NRVS_PLANNED);
	CHECK(same_plans(&plan, &second));
	space_copy(&after, &space);
	if (plan.reply.code == NRVS_NO_FRAME) {
		refused++;
		CHECK(plan.store_count == 0 && stock.given == stock.count);
		CHECK(answer(&after, r).reply.code == (r.kind == MAPS ? NRVS_DONE : NRVS_CHANGED));
		space_copy(&after, &space);
		stock.given = 0;
	} else if (is_kept(&plan, r)) {
		CHECK(plan.store_count + plan.unlinked_count + plan.flush == 0);
		space_copy(&after, &space);
	} else {
		planned(&plan, &second, &r, &stock);
	}
	wait_for_flush(&plan, &r);
	if (draw(&seed, 2) || waiting_count == MOST_WAITING)
		flush_and_free();
	for (i = plan.store_count ? stock.given : 0; i < stock.count; i++)
		memory_free(&memory, stock.frames[i]);
	space_copy(&space, &after);
	if (plan.reply.code == NRVS_EMPTY) {
		flush_and_free();
		prune_it(&plan);
	}
}

static void begin_again(void)
{
	space.count = 0;
	memset(&kept, 0, sizeof kept);
	memory_begin(&memory, target.phys_bits, seed);
	target.root = memory_take(&memory);
}

static void run(uint32_t levels, uint32_t phys_bits, unsigned calls)
{
	unsigned i;
	target.levels = levels;
	target.phys_bits = phys_bits;
	begin_again();
	for (i = 0; i < calls; i++) {
		target.pinned = draw(&seed, 2) ? 0 : (uint32_t)draw(&seed, 7);
		one_call(any_request());
		if (draw(&seed, 4) == 0)
			swap_words(any_address());
		keep_walk(&kept, &memory, target.levels, target.root, any_address());
		if (i % 64 == 0) {
			flush_and_free();
			CHECK(memory_reached(&memory, levels, target.root) == memory.count);
		}
		if (draw(&seed, 4) == 0) {
			space_copy(&after, &space);
			touch(any_address());
		}
		if (space.count > MANY_PAGES) {
			flush_and_free();
			memory_end(&memory);
			begin_again();
		}
	}
	flush_and_free();
	memory_end(&memory);
}

int main(int count, char **words)
{
	unsigned calls = count > 1 ? (unsigned)atoi(words[1]) : 25000;
	seed = count > 2 ? (uint64_t)atoll(words[2]) : 1;
	run(4, 36, calls);
	run(4, 52, calls);
	run(5, 52, calls);
	run(5, 46, calls);
	printf("%u changes, %u without a frame, %u flags met, %u tables unlinked\n", done, refused, flagged, unlinked);
	printf("%u remaps, %u splits, %u joins, %u prunes, %u of them of what was in the way\n", of_kind[REMAPS], of_kind[SPLITS],
	       of_kind[JOINS], of_kind[PRUNES], empty);
	printf("%u unmaps of parts, %u collapses, %u flushes of several plans\n", of_kind[PART_UNMAPS], of_kind[COLLAPSES], batches);
	CHECK(calls < 1000 || (of_kind[REMAPS] && of_kind[SPLITS] && of_kind[JOINS] && of_kind[PRUNES] && empty));
	CHECK(calls < 1000 || (of_kind[PART_UNMAPS] && of_kind[COLLAPSES] && batches));
	return counts();
}
