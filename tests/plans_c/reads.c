/* Which words nrvs_plan_see reads: each frame is shown at a place of its own, and a trace of all reads (valgrind's lackey) has to have each
 * word of these places once at most (tests/plans). Prints where they lie.
 */
#include "calls.h"

#include <inttypes.h>
#include <stdio.h>
#include <string.h>

enum { PLACES = 256 };

static uint64_t places[PLACES][512] __attribute__((aligned(4096)));
static unsigned taken;
static struct memory memory;
static struct nrvs_target target = {0, 4, 40, 0};

static const uint64_t GIB = UINT64_C(1) << 30, MIB2 = UINT64_C(1) << 21;

/* A plan, each frame of which is shown once, at the next place. */
static void plans(unsigned kind, uint64_t address, unsigned size)
{
	struct request r = {kind, size, NRVS_WRITE, address, 0, 0};
	struct nrvs_plan plan;
	uint32_t step = begin(&LIBRARY, &plan, &target, r);
	while (step == NRVS_SEE && taken < PLACES) {
		memcpy(places[taken], memory_words(&memory, plan.frame), 4096);
		step = LIBRARY.see(&plan, places[taken++]);
	}
	CHECK(step == NRVS_PLANNED || step == NRVS_GIVE);
}

/* Tables on the way of an address down to a level, and an entry there. */
static void enters(uint64_t address, unsigned level, uint64_t word)
{
	uint64_t frame = target.root, *at;
	unsigned l;
	for (l = 4; l > level; l--) {
		at = &memory_words(&memory, frame)[address >> (3 + 9 * l) & 511];
		if (!*at)
			*at = memory_take(&memory) << 12 | 7;
		frame = *at >> 12;
	}
	memory_words(&memory, frame)[address >> (3 + 9 * level) & 511] = word;
}

int main(void)
{
	static const unsigned ON_PAGES[] = {UNMAPS, PROTECTS, ASKS, REMAPS, SPLITS, JOINS, PRUNES};
	static const uint64_t BASES[] = {0, MIB2, GIB, 2 * GIB, 3 * GIB, 4 * GIB};
	unsigned i, k;
	memory_begin(&memory, 40, 7);
	target.root = memory_take(&memory);
	enters(0, 1, 0x1003);               /* alone in its tables */
	enters(MIB2, 2, MIB2 | 0x83);       /* pages of 2 MiB and 1 GiB */
	enters(GIB, 3, GIB | 0x83);
	for (i = 0; i < 512; i++)           /* a table that can be joined, and one with no present entry */
		enters(2 * GIB + i * 4096, 1, (GIB + i * 4096) | 3);
	enters(3 * GIB, 1, 0x12340);
	enters(4 * GIB + 511 * 4096, 1, 0x2003);
	for (i = 0; i < sizeof ON_PAGES / sizeof ON_PAGES[0]; i++)
		for (k = 0; k < sizeof BASES / sizeof BASES[0]; k++)
			plans(ON_PAGES[i], BASES[k], 0);
	for (k = 0; k < sizeof BASES / sizeof BASES[0]; k++)
		for (i = 0; i < 3; i++)
			plans(MAPS, BASES[k] & ~((UINT64_C(4096) << 9 * i) - 1), i);
	memory_end(&memory);
	fprintf(stderr, "places %" PRIxPTR " %" PRIxPTR "\n", (uintptr_t)places, (uintptr_t)(places + taken));
	return counts();
}
