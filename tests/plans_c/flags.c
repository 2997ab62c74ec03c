/* A page table that is changed by plans while processors, threads here, walk it and set accessed and dirty flags in it: none is lost, and
 * no walk meets what was in no space. Frames that were unlinked rest until each processor has begun another walk. A page's parts have its
 * flags at the moment when it is split, and a page that is joined has both: those are counted as made by the calls.
 */
#include "calls.h"

#include <pthread.h>
#include <sched.h>
#include <stdatomic.h>
#include <stdio.h>
#include <stdlib.h>
#include <string.h>

enum { FRAMES = 200, PROCESSORS = 2, ACCESSED = 0x20, DIRTY = 0x40, PARTS = 512 };
#define OTHER (UINT64_C(1) << 41) /* where a page leads to instead */

static struct memory memory;
static struct nrvs_target target;
static uint64_t seed, none[FRAMES], resting[FRAMES], was_joined[FRAMES];
static unsigned none_count, resting_count;
static atomic_ulong walks[PROCESSORS], odd, accessed, dirtied;
static atomic_int stop;

static uint64_t any_address(uint64_t *from)
{
	return (draw(from, 2) << 39) + (draw(from, 2) << 30) + (draw(from, 2) << 21) + (draw(from, 4) << 12);
}

/* A page leads to its own addresses, or to OTHER beyond them, so that a walk shows whether it met a page that was mapped. */
static uint64_t physical_of(uint64_t base)
{
	return base & ((UINT64_C(1) << 40) - 1);
}

/* A processor that goes to an address, for a write in one of two times: as the SDM has it, flags are set in one step with a look. */
static void touch(uint64_t address, int write)
{
	uint64_t level = target.levels, frame = target.root;
	for (;; level--) {
		uint64_t *words = memory_words(&memory, frame), *at, word, bytes = UINT64_C(1) << (3 + 9 * level), flags;
		int leaf;
		if (!words) {
			atomic_fetch_add(&odd, 1);
			return;
		}
		at = &words[address >> (3 + 9 * level) & 511];
		word = __atomic_load_n(at, __ATOMIC_ACQUIRE);
		do {
			if (!(word & 1))
				return;
			leaf = level == 1 || (level < 4 && word & 128);
			flags = leaf && write ? ACCESSED | DIRTY : ACCESSED;
		} while ((word & flags) != flags &&
			 !__atomic_compare_exchange_n(at, &word, word | flags, 0, __ATOMIC_SEQ_CST, __ATOMIC_SEQ_CST));
		if (leaf) {
			atomic_fetch_add(&accessed, !(word & ACCESSED));
			atomic_fetch_add(&dirtied, !(word & DIRTY) && write);
			if ((word & ((UINT64_C(1) << 52) - bytes) & ~OTHER) != physical_of(address & ~(bytes - 1)))
				atomic_fetch_add(&odd, 1);
			return;
		}
		frame = word >> 12 & ((UINT64_C(1) << 40) - 1);
	}
}

static void *processor(void *which)
{
	atomic_ulong *count = &walks[(size_t)which];
	uint64_t own = 77 + (uint64_t)(size_t)which;
	while (!atomic_load(&stop)) {
		uint64_t address = any_address(&own);
		atomic_fetch_add(count, 1);
		touch(address, draw(&own, 2) == 0);
		atomic_fetch_add(count, 1);
	}
	return NULL;
}

/* Each processor has ended the walk in which it was. */
static void wait_for_walks(void)
{
	unsigned i;
	for (i = 0; i < PROCESSORS; i++) {
		unsigned long was = atomic_load(&walks[i]);
		while (was % 2 && atomic_load(&walks[i]) == was)
			sched_yield();
	}
}

static unsigned long flags_met, accessed_told, dirty_told, accessed_made, dirty_made, changes, splits, joins;

static void tell(uint64_t word)
{
	accessed_told += (word & ACCESSED) != 0;
	dirty_told += (word & DIRTY) != 0;
}

/* A frame that is free: the flags that are left in one whose pages were joined are those that the page had, and it is cleared. */
static void empty(uint64_t frame, int joined)
{
	uint64_t *words = memory_words(&memory, frame);
	unsigned i;
	for (i = 0; joined && i < PARTS; i++) {
		tell(words[i]);
		words[i] = 0;
	}
	none[none_count++] = frame;
}

static uint64_t take(void)
{
	if (none_count < 4) {
		wait_for_walks();
		while (resting_count) {
			resting_count--;
			empty(resting[resting_count], was_joined[resting_count] != 0);
		}
	}
	return none[--none_count];
}

static void carry_out(struct nrvs_plan *plan)
{
	const struct nrvs_plan shown = *plan;
	unsigned i;
	CHECK(nrvs_plan_carry_out(plan, words_of, &memory) == NRVS_OK);
	for (i = 0; i < plan->store_count; i++)
		flags_met += plan->stores[i].old_word != shown.stores[i].old_word;
}

/* What a plan says of flags, once it is carried out. */
static void count_flags(const struct nrvs_plan *plan, unsigned kind)
{
	if (plan->reply.code == NRVS_REMOVED)
		tell(plan->bits);
	if (kind == SPLITS && plan->store_count) {
		splits++;
		accessed_made += plan->bits & ACCESSED ? PARTS - 1 : 0;
		dirty_made += plan->bits & DIRTY ? PARTS - 1 : 0;
	}
	if (kind == JOINS && plan->store_count) {
		joins++;
		accessed_made++;
		dirty_made++;
	}
	changes += plan->store_count != 0;
}

/* A call, and what its stores find. */
static void make(struct request r)
{
	struct nrvs_plan plan;
	struct stock stock = {{0, 0, 0, 0}, 4, 0};
	unsigned i;
	for (i = 0; i < 4; i++)
		stock.frames[i] = take();
	CHECK(drive(&LIBRARY, &plan, begin(&LIBRARY, &plan, &target, r), &memory, &stock) == NRVS_PLANNED);
	carry_out(&plan);
	count_flags(&plan, r.kind);
	for (i = 0; i < plan.unlinked_count; i++) {
		was_joined[resting_count] = r.kind == JOINS;
		resting[resting_count++] = plan.unlinked[i];
	}
	for (i = plan.store_count ? stock.given : 0; i < 4; i++)
		none[none_count++] = stock.frames[i];
}

/* A map, an unmap, a protect, a remap; or a page is split, and its parts are joined again. */
static void one_call(void)
{
	static const unsigned KINDS[] = {MAPS, MAPS, UNMAPS, PROTECTS, REMAPS, SPLITS};
	struct request r = {KINDS[draw(&seed, 6)], (unsigned)draw(&seed, 4) % 3, 7, any_address(&seed), 0, 0};
	if (r.kind == MAPS || r.kind == SPLITS)
		r.address &= ~((UINT64_C(4096) << 9 * r.size) - 1);
	if (r.kind == MAPS || r.kind == REMAPS)
		r.physical = physical_of(r.address) | (draw(&seed, 2) ? OTHER : 0);
	r.rights = r.kind == PROTECTS ? (unsigned)draw(&seed, 8) : 7;
	make(r);
	if (r.kind == SPLITS) {
		r.kind = JOINS;
		make(r);
	}
}

/* The flags of the pages that are left. */
static void count_left(uint64_t level, uint64_t frame)
{
	const uint64_t *words = memory_words(&memory, frame);
	unsigned i;
	for (i = 0; i < 512; i++) {
		if (!(words[i] & 1))
			continue;
		if (level == 1 || (level < 4 && words[i] & 128))
			tell(words[i]);
		else
			count_left(level - 1, words[i] >> 12 & ((UINT64_C(1) << 40) - 1));
	}
}

static void run(uint32_t levels, unsigned long calls)
{
	pthread_t threads[PROCESSORS];
	unsigned long i;
	memory_begin(&memory, 52, levels);
	target.levels = levels;
	target.phys_bits = 52;
	target.root = memory_take(&memory);
	none_count = resting_count = 0;
	for (i = 0; i < FRAMES - 1; i++)
		none[none_count++] = memory_take(&memory);
	atomic_store(&stop, 0);
	for (i = 0; i < PROCESSORS; i++)
		if (pthread_create(&threads[i], NULL, processor, (void *)(size_t)i))
			exit(2);
	for (i = 0; i < calls; i++)
		one_call();
	atomic_store(&stop, 1);
	for (i = 0; i < PROCESSORS; i++)
		pthread_join(threads[i], NULL);
	while (resting_count) {
		resting_count--;
		empty(resting[resting_count], was_joined[resting_count] != 0);
	}
	count_left(levels, target.root);
	memory_end(&memory);
}

int main(int count, char **words)
{
	unsigned long calls = count > 1 ? (unsigned long)atol(words[1]) : 500000;
	seed = 1;
	run(4, calls);
	run(5, calls);
	CHECK(atomic_load(&odd) == 0);
	CHECK(accessed_told == atomic_load(&accessed) + accessed_made);
	CHECK(dirty_told == atomic_load(&dirtied) + dirty_made);
	printf("%lu changes beside %lu walks; %lu splits, %lu joins; %lu pages accessed and %lu written; %lu stores met a flag\n", changes,
	       (atomic_load(&walks[0]) + atomic_load(&walks[1])) / 2, splits, joins, (unsigned long)atomic_load(&accessed),
	       (unsigned long)atomic_load(&dirtied), flags_met);
	return counts();
}
