/* Three roots that have their upper half in common: the tables to which the roots lead there are linked once, and stay. What is changed
 * through one root is changed for all; each lower half is by itself.
 */
#include "calls.h"
#include "space.h"

#include <string.h>

enum { ROOTS = 3, LINKS = 2, PROBES = 24 };

static struct memory memory;
static struct space upper, lower[ROOTS];
static struct nrvs_target targets[ROOTS];
static uint64_t seed = 5, split[2];

static uint64_t any_address(int high)
{
	unsigned levels = targets[0].levels;
	uint64_t address = (draw(&seed, LINKS) << (3 + 9 * levels)) + (draw(&seed, 2) << 30) + (draw(&seed, 3) << 21) + (draw(&seed, 3) << 12);
	return high ? address - (UINT64_C(1) << (11 + 9 * levels)) : address;
}

static int same(struct walked a, struct walked b)
{
	return a.end == b.end && (a.end != ENDS_MAPPED || (a.physical == b.physical && a.size == b.size && a.rights == b.rights));
}

static void check_all(uint64_t address)
{
	unsigned i, k;
	for (i = 0; i < ROOTS; i++)
		for (k = 0; k < PROBES; k++) {
			uint64_t at = k ? any_address(k % 2 != 0) + draw(&seed, 4096) : address;
			CHECK(same(memory_walk(&memory, targets[i].levels, targets[i].root, at), space_walk(at >> 63 ? &upper : &lower[i], at)));
		}
}

static struct answered answer(struct space *space, const struct request *r, struct page page)
{
	switch (r->kind) {
	case MAPS:
		return space_map(space, page);
	case UNMAPS:
		return space_unmap(space, r->address);
	case PROTECTS:
		return space_protect(space, r->address, r->rights);
	case REMAPS:
		return space_remap(space, r->address, r->physical, r->rights, 46);
	case SPLITS:
		return space_split(space, r->address);
	default:
		return space_join(space, r->address);
	}
}

static void one_call(void)
{
	unsigned which = (unsigned)draw(&seed, ROOTS), i;
	int high = draw(&seed, 2) != 0;
	static const unsigned KINDS[] = {MAPS, MAPS, UNMAPS, PROTECTS, REMAPS, SPLITS, JOINS};
	struct request r = {KINDS[draw(&seed, 7)], (unsigned)draw(&seed, 4) % 3, (unsigned)draw(&seed, 8), any_address(high), 0, 0};
	uint64_t bytes = UINT64_C(4096) << 9 * r.size;
	struct space *space = high ? &upper : &lower[which];
	struct nrvs_target target = targets[which];
	struct nrvs_plan plan;
	struct stock stock = {{0, 0, 0, 0}, 4, 0};
	struct answered a;
	struct page page;
	target.pinned = high ? target.levels : 0;
	r.physical = draw(&seed, 1 << 10) * bytes;
	if (r.kind == MAPS || r.kind == SPLITS)
		r.address &= ~(bytes - 1);
	if (r.kind == JOINS)
		r.address = split[high];
	for (i = 0; i < 4; i++)
		stock.frames[i] = memory_take(&memory);
	CHECK(drive(&LIBRARY, &plan, begin(&LIBRARY, &plan, &target, r), &memory, &stock) == NRVS_PLANNED);
	page.base = r.address, page.physical = r.physical, page.bits = 0, page.size = r.size, page.rights = r.rights;
	a = answer(space, &r, page);
	if (r.kind == SPLITS)
		split[high] = r.address;
	CHECK(plan.reply.code == a.reply.code && plan.reply.number == a.reply.number);
	CHECK(fill(&plan, &memory));
	for (i = 0; i < plan.store_count; i++) {
		uint64_t *words = memory_words(&memory, plan.stores[i].frame);
		CHECK(words[plan.stores[i].index] == plan.stores[i].old_word);
		CHECK(!high || plan.stores[i].frame != targets[which].root);
		words[plan.stores[i].index] = plan.stores[i].new_word;
	}
	check_all(r.address);
	for (i = 0; i < plan.unlinked_count; i++)
		memory_free(&memory, plan.unlinked[i]);
	for (i = plan.store_count ? stock.given : 0; i < 4; i++)
		memory_free(&memory, stock.frames[i]);
}

static void run(uint32_t levels)
{
	unsigned i, k;
	uint64_t below;
	memory_begin(&memory, 46, levels);
	memset(&upper, 0, sizeof upper);
	memset(lower, 0, sizeof lower);
	for (i = 0; i < ROOTS; i++) {
		targets[i].levels = levels;
		targets[i].phys_bits = 46;
		targets[i].root = memory_take(&memory);
	}
	for (k = 0; k < LINKS; k++) {
		below = memory_take(&memory);
		for (i = 0; i < ROOTS; i++)
			memory_words(&memory, targets[i].root)[256 + k] = below << 12 | 7;
	}
	for (i = 0; i < 5000; i++)
		one_call();
	memory_end(&memory);
}

int main(void)
{
	run(4);
	run(5);
	return counts();
}
