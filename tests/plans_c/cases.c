/* Each refusal, and the replies that no drawn call has: over tables that a kernel made itself. */
#include "calls.h"

#include <string.h>

static struct memory memory;
static struct nrvs_target target = {0, 4, 40, 0};
static uint64_t tables[4]; /* of levels 4 to 1, on the way of address 0 */

static const uint64_t GIB = UINT64_C(1) << 30, NX = UINT64_C(1) << 63;

static uint64_t *word(unsigned level, uint64_t index)
{
	return &memory_words(&memory, tables[4 - level])[index];
}

static void tables_for(uint64_t address)
{
	unsigned level;
	for (level = 4; level > 0; level--) {
		tables[4 - level] = memory_take(&memory);
		if (level < 4)
			*word(level + 1, address >> (12 + 9 * level) & 511) = tables[4 - level] << 12 | 7;
	}
	target.root = tables[0];
}

static struct nrvs_plan planned(struct request r, struct stock stock)
{
	struct nrvs_plan plan, second;
	uint32_t step = begin(&LIBRARY, &plan, &target, r);
	CHECK(step == begin(&REFERENCE, &second, &target, r));
	CHECK(drive(&LIBRARY, &plan, step, &memory, &stock) == NRVS_PLANNED);
	CHECK(drive(&REFERENCE, &second, step, &memory, &stock) == NRVS_PLANNED);
	CHECK(same_plans(&plan, &second));
	CHECK(plan.reply.code <= NRVS_FAULT || plan.store_count + plan.unlinked_count + plan.flush + plan.fills == 0);
	return plan;
}

static struct nrvs_plan maps(uint64_t base, unsigned size, unsigned rights)
{
	struct request r = {MAPS, size, rights, base, 0, 0};
	struct stock none = {{0, 0, 0, 0}, 0, 0};
	return planned(r, none);
}

/* What is refused: the plan is as it was. */
static void refusals(void)
{
	struct nrvs_target bad;
	struct nrvs_plan plan, before;
	const struct planner *p = &LIBRARY;
	memset(&plan, 0xAB, sizeof plan);
	before = plan;
	bad = target;
	CHECK(p->map(&plan, &target, 0, 3, 0, 0, 0) == NRVS_BAD_SIZE);
	CHECK(p->map(&plan, &target, 0, 256, 0, 0, 0) == NRVS_BAD_SIZE);
	CHECK(p->map(&plan, &target, 0, NRVS_4K, 0, 8, 0) == NRVS_BAD_RIGHTS);
	CHECK(p->map(&plan, &target, UINT64_C(1) << 47, NRVS_4K, 0, 0, 0) == NRVS_NOT_CANONICAL);
	CHECK(p->map(&plan, &target, 4096, NRVS_2M, 0, 0, 0) == NRVS_UNALIGNED);
	CHECK(p->map(&plan, &target, 0, NRVS_1G, 4096, 0, 0) == NRVS_PHYS_UNALIGNED);
	CHECK(p->map(&plan, &target, 0, NRVS_4K, UINT64_C(1) << 51, 0, 0) == NRVS_PHYS_RANGE);
	CHECK(p->map(&plan, &target, 0, NRVS_4K, UINT64_C(1) << 40, 0, 0) == NRVS_PHYS_RANGE);
	CHECK(p->map(&plan, &target, 0, NRVS_1G, UINT64_C(1) << 40, 0, 0) == NRVS_PHYS_RANGE);
	CHECK(p->map(&plan, &target, 0, NRVS_4K, 0, 0, 1) == NRVS_BAD_BITS);
	CHECK(p->map(&plan, &target, 0, NRVS_4K, 0, 0, NX) == NRVS_BAD_BITS);
	CHECK(p->map(&plan, &target, 0, NRVS_4K, 0, 0, 1 << 12) == NRVS_BAD_BITS);
	CHECK(p->unmap(&plan, &target, 1) == NRVS_UNALIGNED);
	CHECK(p->unmap(&plan, &target, UINT64_C(1) << 60) == NRVS_NOT_CANONICAL);
	CHECK(p->protect(&plan, &target, 0, 256) == NRVS_BAD_RIGHTS);
	CHECK(p->protect(&plan, &target, 8, 0) == NRVS_UNALIGNED);
	CHECK(p->ask(&plan, &target, UINT64_C(1) << 47) == NRVS_NOT_CANONICAL);
	CHECK(p->remap(&plan, &target, 0, 0, 8) == NRVS_BAD_RIGHTS);
	CHECK(p->remap(&plan, &target, 1, 0, 0) == NRVS_UNALIGNED);
	CHECK(p->split(&plan, &target, UINT64_C(1) << 47) == NRVS_NOT_CANONICAL);
	CHECK(p->join(&plan, &target, 2048) == NRVS_UNALIGNED);
	CHECK(p->prune(&plan, &target, UINT64_C(1) << 47) == NRVS_NOT_CANONICAL);
	CHECK(p->unmap_part(&plan, &target, UINT64_C(1) << 47, 0, 0) == NRVS_NOT_CANONICAL);
	CHECK(p->unmap_part(&plan, &target, 1, 0, 0) == NRVS_UNALIGNED);
	CHECK(p->unmap_part(&plan, &target, 0, 0, 0) == NRVS_BAD_PART && p->unmap_part(&plan, &target, 0, 0, 512) == NRVS_BAD_PART);
	CHECK(p->unmap_part(&plan, &target, 0, 511, 2) == NRVS_BAD_PART && p->unmap_part(&plan, &target, 0, 512, 1) == NRVS_BAD_PART);
	CHECK(p->unmap_part(&plan, &target, 0, UINT64_MAX, 2) == NRVS_BAD_PART);
	CHECK(p->unmap_part(&plan, &target, 0, 2, UINT64_MAX) == NRVS_BAD_PART);
	CHECK(p->collapse(&plan, &target, 0, 0, 8) == NRVS_BAD_RIGHTS && p->collapse(&plan, &target, 1, 0, 0) == NRVS_UNALIGNED);
	bad.levels = 3;
	CHECK(p->ask(&plan, &bad, 0) == NRVS_BAD_LEVELS);
	bad.levels = 4, bad.phys_bits = 35;
	CHECK(p->unmap(&plan, &bad, 0) == NRVS_PHYS_BITS);
	CHECK(p->join(&plan, &bad, 0) == NRVS_PHYS_BITS);
	bad.phys_bits = 53;
	CHECK(p->protect(&plan, &bad, 0, 0) == NRVS_PHYS_BITS);
	CHECK(p->split(&plan, &bad, 0) == NRVS_PHYS_BITS);
	bad.phys_bits = 40, bad.root = UINT64_C(1) << 28;
	CHECK(p->remap(&plan, &bad, 0, 0, 0) == NRVS_BAD_ROOT);
	CHECK(p->map(&plan, &bad, 0, NRVS_4K, 0, 0, 0) == NRVS_BAD_ROOT);
	CHECK(memcmp(&plan, &before, sizeof plan) == 0);
}

/* Calls for which the plan doesn't ask. */
static void not_asked(void)
{
	static const uint64_t empty[512];
	struct request r = {MAPS, NRVS_4K, 0, 0, 0, 0};
	struct nrvs_plan plan;
	const struct planner *p = &LIBRARY;
	CHECK(begin(p, &plan, &target, r) == NRVS_SEE);
	CHECK(plan.frame == target.root);
	CHECK(p->give(&plan, 1) == NRVS_NOT_ASKED && p->give_none(&plan) == NRVS_NOT_ASKED && p->again(&plan, 0, 1) == NRVS_NOT_ASKED);
	CHECK(p->see(&plan, empty) == NRVS_GIVE);
	CHECK(p->see(&plan, empty) == NRVS_NOT_ASKED);
	CHECK(p->give(&plan, 1) == NRVS_GIVE && p->give(&plan, 2) == NRVS_GIVE && p->give(&plan, 3) == NRVS_PLANNED);
	CHECK(plan.reply.code == NRVS_DONE && plan.store_count == 4 && plan.stores[3].frame == target.root);
	CHECK(p->give(&plan, 4) == NRVS_NOT_ASKED && p->see(&plan, empty) == NRVS_NOT_ASKED);
	CHECK(p->again(&plan, 3, 0x20) == NRVS_NOT_ASKED); /* a word that isn't present has no flags */
	CHECK(p->again(&plan, 4, 0) == NRVS_NOT_ASKED && p->again(&plan, UINT64_MAX, 0) == NRVS_NOT_ASKED);
}

/* Tables that a kernel made: with fewer rights, with no entry, with reserved bits; frames that can't be given. */
static void odd_tables(void)
{
	struct request r = {MAPS, NRVS_4K, NRVS_WRITE, GIB, 0, 0};
	struct stock far = {{UINT64_C(1) << 28, 0, 0, 0}, 1, 0};
	struct nrvs_plan plan;
	tables_for(0);
	plan = maps(0, NRVS_2M, 0);
	CHECK(plan.reply.code == NRVS_EMPTY && plan.reply.number == tables[3] && plan.bits == 0);
	*word(2, 0) = 0, *word(2, 3) = tables[3] << 12 | 7;
	plan = maps(0, NRVS_1G, 0);
	CHECK(plan.reply.code == NRVS_EMPTY && plan.reply.number == tables[3] && plan.bits == 0x600000);
	*word(2, 3) = 0, *word(2, 0) = tables[3] << 12 | 7;
	*word(1, 9) = 0x7000 | NX | 3;
	plan = maps(0, NRVS_2M, 0);
	CHECK(plan.reply.code == NRVS_OVERLAP && plan.reply.number == 0x9000);
	plan = maps(0, NRVS_1G, 0);
	CHECK(plan.reply.code == NRVS_OVERLAP && plan.reply.number == 0x9000);
	*word(3, 0) &= ~UINT64_C(2);
	plan = maps(0x1000, NRVS_4K, NRVS_WRITE | NRVS_EXEC);
	CHECK(plan.reply.code == NRVS_NARROW && plan.reply.number == 0);
	plan = maps(0x9000, NRVS_4K, NRVS_WRITE);
	CHECK(plan.reply.code == NRVS_OVERLAP && plan.reply.number == 0x9000);
	r.kind = PROTECTS, r.address = 0x9000;
	plan = planned(r, far);
	CHECK(plan.reply.code == NRVS_NARROW);
	r.rights = NRVS_EXEC;
	plan = planned(r, far);
	CHECK(plan.reply.code == NRVS_CHANGED && plan.reply.rights == 0 && plan.stores[0].new_word == 0x7001);
	r.kind = MAPS, r.rights = NRVS_WRITE, r.address = GIB;
	*word(3, 0) |= 2;
	*word(2, 1) = 0x201000 | 0x83;
	plan = maps(0x200000, NRVS_4K, 0);
	CHECK(plan.reply.code == NRVS_OVERLAP && plan.reply.number == 0x200000);
	*word(2, 1) = 0x202000 | 0x83;
	plan = maps(0x200000, NRVS_4K, 0);
	CHECK(plan.reply.code == NRVS_RESERVED && plan.reply.number == tables[2] && plan.bits == 1);
	*word(2, 1) = 0;
	plan = planned(r, far);
	CHECK(plan.reply.code == NRVS_FRAME_RANGE && plan.reply.number == UINT64_C(1) << 28);
	far.count = 0;
	plan = planned(r, far);
	CHECK(plan.reply.code == NRVS_NO_FRAME);
}

/* Where attributes are in entries of each size, and how they are asked for. */
static void attributes(void)
{
	static const struct { unsigned size; uint64_t word; } PLACED[] = {
		{NRVS_4K, UINT64_C(0xfff0000000000fff)}, {NRVS_2M, UINT64_C(0xfff0000000001fff)}, {NRVS_1G, UINT64_C(0xfff0000000001fff)},
	};
	static const uint64_t BASES[] = {0x10000, 0x600000, 3 * (UINT64_C(1) << 30)};
	struct stock none = {{0, 0, 0, 0}, 0, 0};
	unsigned i;
	for (i = 0; i < 3; i++) {
		struct request r = {MAPS, PLACED[i].size, NRVS_WRITE | NRVS_USER, BASES[i], 0, NRVS_ATTRIBUTES};
		struct nrvs_plan plan = planned(r, none);
		CHECK(plan.reply.code == NRVS_DONE && plan.store_count == 1 && plan.stores[0].new_word == PLACED[i].word);
		memory_words(&memory, plan.stores[0].frame)[plan.stores[0].index] = plan.stores[0].new_word;
		r.kind = PROTECTS, r.rights = NRVS_EXEC;
		plan = planned(r, none);
		CHECK(plan.reply.code == NRVS_CHANGED && plan.stores[0].new_word == (PLACED[i].word & ~(NX | 6)) && plan.bits == NRVS_ATTRIBUTES);
		r.kind = ASKS;
		plan = planned(r, none);
		CHECK(plan.reply.code == NRVS_MAPPED && plan.bits == NRVS_ATTRIBUTES && plan.reply.size == PLACED[i].size);
	}
}

static struct nrvs_plan asked(unsigned kind, uint64_t address, uint64_t physical, unsigned rights)
{
	struct request r = {kind, 0, rights, address, physical, 0};
	struct stock none = {{0, 0, 0, 0}, 0, 0};
	return planned(r, none);
}

/* All entries of a table: pages from a physical address on. */
static void run_of(unsigned level, uint64_t word_of_first)
{
	uint64_t i;
	for (i = 0; i < 512; i++)
		*word(level, i) = word_of_first + (i << (3 + 9 * level));
}

static void check_join(uint64_t base, unsigned level, unsigned rights, uint64_t new_word)
{
	struct nrvs_plan plan = asked(JOINS, base, 0, 0);
	CHECK(plan.reply.code == NRVS_CHANGED && plan.reply.rights == rights);
	CHECK(plan.store_count == 1 && plan.stores[0].frame == tables[4 - (level + 1)] && plan.stores[0].index == 0);
	CHECK(plan.stores[0].old_word == *word(level + 1, 0) && plan.stores[0].new_word == new_word);
	CHECK(plan.unlinked_count == 1 && plan.unlinked[0] == tables[4 - level] && !plan.fills);
	CHECK(plan.flush == NRVS_FLUSH_RANGE && plan.flush_base == base && plan.flush_size == level);
	CHECK(again(&LIBRARY, &plan, 0, plan.stores[0].old_word | 0x20) == NRVS_OK); /* the link was used: both flags stay */
	CHECK(plan.stores[0].new_word == new_word && plan.stores[0].old_word == (*word(level + 1, 0) | 0x20));
}

/* What a join asks of a table, and what it writes. */
static void joins(void)
{
	tables_for(0);
	run_of(1, GIB | NX | 3);
	check_join(0, 1, NRVS_WRITE, GIB | NX | 0xe3);
	CHECK(asked(JOINS, 0x1000, 0, 0).reply.code == NRVS_NOT_FIRST);
	*word(1, 7) |= 0x60;
	*word(2, 0) &= ~UINT64_C(2);
	check_join(0, 1, 0, GIB | NX | 0xe1);
	*word(1, 7) ^= 8;
	CHECK(asked(JOINS, 0, 0, 0).reply.code == NRVS_APART && asked(JOINS, 0, 0, 0).reply.number == 7);
	*word(1, 7) ^= 8;
	*word(1, 511) = 0;
	CHECK(asked(JOINS, 0, 0, 0).reply.code == NRVS_APART && asked(JOINS, 0, 0, 0).reply.number == 511);
	run_of(1, GIB | 0x1003);
	CHECK(asked(JOINS, 0, 0, 0).reply.code == NRVS_MISPLACED);
	*word(1, 0) = 0;
	CHECK(asked(JOINS, 0, 0, 0).reply.code == NRVS_NOT_MAPPED);
	run_of(2, GIB | 0x1107 | 0x80);
	check_join(0, 2, 7, GIB | 0x11e7);
	CHECK(asked(JOINS, 0x200000, 0, 0).reply.code == NRVS_NOT_FIRST);
	CHECK(asked(JOINS, 0x201000, 0, 0).reply.code == NRVS_INSIDE);
	*word(3, 1) = GIB | 0x83;
	CHECK(asked(JOINS, GIB, 0, 0).reply.code == NRVS_LARGEST);
	CHECK(asked(JOINS, GIB + 0x1000, 0, 0).reply.code == NRVS_INSIDE);
}

static void check_collapse(uint64_t base, unsigned level, uint64_t physical, unsigned rights, uint64_t new_word)
{
	struct nrvs_plan plan = asked(COLLAPSES, base, physical, rights);
	CHECK(plan.reply.code == NRVS_CHANGED);
	CHECK(plan.store_count == 1 && plan.stores[0].frame == tables[4 - (level + 1)] && plan.stores[0].index == 0);
	CHECK(plan.stores[0].old_word == *word(level + 1, 0) && plan.stores[0].new_word == new_word);
	CHECK(plan.unlinked_count == 1 && plan.unlinked[0] == tables[4 - level] && !plan.fills);
	CHECK(plan.flush == NRVS_FLUSH_RANGE && plan.flush_base == base && plan.flush_size == level);
	CHECK(again(&LIBRARY, &plan, 0, plan.stores[0].old_word | 0x20) == NRVS_OK);
	CHECK(plan.stores[0].new_word == new_word);
}

/* What a collapse asks of a table, and what it writes: PAT at its place, wherever the pages lie. */
static void collapses(void)
{
	tables_for(0);
	run_of(1, GIB | NX | 0x83);
	*word(1, 9) = 0x7654000 | NX | 0xe3;
	check_collapse(0, 1, 3 * GIB, 0, 3 * GIB | NX | 0x10e1);
	check_collapse(0, 1, 0x200000, 7, 0x200000 | 0x10e7);
	CHECK(asked(COLLAPSES, 0x1000, 0, 0).reply.code == NRVS_NOT_FIRST);
	CHECK(asked(COLLAPSES, 0, 0x1000, 0).reply.code == NRVS_MISPLACED);
	CHECK(asked(COLLAPSES, 0, UINT64_C(1) << 40, 0).reply.code == NRVS_BEYOND);
	*word(2, 0) &= ~UINT64_C(2);
	CHECK(asked(COLLAPSES, 0, 0, 1).reply.code == NRVS_NARROW);
	*word(1, 7) ^= 2;
	CHECK(asked(COLLAPSES, 0, 0, 0).reply.code == NRVS_APART && asked(COLLAPSES, 0, 0, 0).reply.number == 7);
	*word(1, 7) = 0;
	CHECK(asked(COLLAPSES, 0, 0, 0).reply.code == NRVS_APART && asked(COLLAPSES, 0, 0, 0).reply.number == 7);
	run_of(2, GIB | 0x1107 | 0x80);
	*word(2, 511) = 5 * GIB | 0x11a7;
	check_collapse(0, 2, 4 * GIB, 7, 4 * GIB | 0x11e7);
	*word(3, 1) = GIB | 0x83;
	CHECK(asked(COLLAPSES, GIB, 0, 0).reply.code == NRVS_LARGEST);
	CHECK(asked(COLLAPSES, 2 * GIB, 0, 0).reply.code == NRVS_NOT_MAPPED);
}

/* An unmap of parts: a split but for the gap. */
static void parts(void)
{
	struct request r = {PART_UNMAPS, 0, 0, 0x200000, 500, 12};
	struct stock one = {{77, 0, 0, 0}, 1, 0}, none = {{0, 0, 0, 0}, 0, 0};
	struct nrvs_plan plan;
	tables_for(0);
	*word(1, 1) = 0x5003;
	*word(2, 1) = GIB | NX | 0x1183;
	plan = planned(r, one);
	CHECK(plan.reply.code == NRVS_CHANGED && plan.store_count == 1 && plan.stores[0].new_word == (77 << 12 | 7) && plan.fills == 1);
	CHECK(plan.fill.first_word == (GIB | NX | 0x183) && plan.fill.step == 4096 && plan.fill.gap == 500 && plan.fill.gap_count == 12);
	CHECK(plan.flush == NRVS_FLUSH_RANGE && plan.flush_base == 0x200000 && plan.flush_size == NRVS_2M);
	CHECK(again(&LIBRARY, &plan, 0, plan.stores[0].old_word | 0x60) == NRVS_OK && plan.fill.first_word == (GIB | NX | 0x1e3));
	CHECK(planned(r, none).reply.code == NRVS_NO_FRAME);
	r.address = 0x1000;
	CHECK(planned(r, none).reply.code == NRVS_SMALLEST);
	r.address = 0x201000;
	CHECK(planned(r, none).reply.code == NRVS_INSIDE);
	r.address = 0x400000;
	CHECK(planned(r, none).reply.code == NRVS_NOT_MAPPED);
}

static void check_split(uint64_t base, unsigned level, uint64_t first_word)
{
	struct request r = {SPLITS, 0, 0, base, 0, 0};
	struct stock one = {{77, 0, 0, 0}, 1, 0}, far = {{UINT64_C(1) << 28, 0, 0, 0}, 1, 0};
	struct nrvs_plan plan = planned(r, one);
	uint64_t old_word = plan.stores[0].old_word;
	CHECK(plan.reply.code == NRVS_CHANGED && plan.store_count == 1 && plan.stores[0].new_word == (77 << 12 | 7) && !plan.unlinked_count);
	CHECK(plan.fills == 1 && plan.fill.frame == 77 && plan.fill.first_word == first_word);
	CHECK(plan.fill.step == UINT64_C(1) << (3 + 9 * (level - 1)));
	CHECK(plan.flush == NRVS_FLUSH_RANGE && plan.flush_base == base && plan.flush_size == level - 1);
	CHECK(again(&LIBRARY, &plan, 0, old_word ^ 8) == NRVS_NOT_ASKED);
	CHECK(again(&LIBRARY, &plan, 0, old_word | 0x60) == NRVS_OK);
	CHECK(plan.stores[0].new_word == (77 << 12 | 7) && plan.stores[0].old_word == (old_word | 0x60));
	CHECK(plan.fill.first_word == (first_word | 0x60) && (plan.bits & 0x60) == 0x60);
	plan = planned(r, far);
	CHECK(plan.reply.code == NRVS_FRAME_RANGE && plan.reply.number == UINT64_C(1) << 28);
	CHECK(asked(SPLITS, base, 0, 0).reply.code == NRVS_NO_FRAME);
}

/* Splits at both sizes, with PAT at its places; remaps. */
static void splits_and_remaps(void)
{
	struct nrvs_plan plan;
	tables_for(0);
	*word(1, 1) = 0x5003;
	*word(2, 1) = GIB | NX | 0x1183;
	*word(3, 1) = 2 * GIB | 0x1187;
	check_split(0x200000, 2, GIB | NX | 0x183);
	check_split(GIB, 3, 2 * GIB | 0x1187);
	CHECK(asked(SPLITS, 0x1000, 0, 0).reply.code == NRVS_SMALLEST);
	CHECK(asked(SPLITS, 0x201000, 0, 0).reply.code == NRVS_INSIDE);
	CHECK(asked(SPLITS, 0x400000, 0, 0).reply.code == NRVS_NOT_MAPPED);
	CHECK(asked(REMAPS, GIB, 0x200000, 0).reply.code == NRVS_MISPLACED);
	CHECK(asked(REMAPS, GIB, UINT64_C(1) << 40, 0).reply.code == NRVS_BEYOND);
	CHECK(asked(REMAPS, 0x1000, UINT64_C(1) << 51, 0).reply.code == NRVS_BEYOND);
	CHECK(asked(REMAPS, 0x1000, 1, 0).reply.code == NRVS_MISPLACED);
	CHECK(asked(REMAPS, GIB + 0x200000, 0, 0).reply.code == NRVS_INSIDE);
	plan = asked(REMAPS, 0x200000, 4 * GIB, NRVS_EXEC | NRVS_USER);
	CHECK(plan.reply.code == NRVS_CHANGED && plan.reply.rights == NRVS_WRITE && plan.stores[0].new_word == (4 * GIB | 0x1185));
	CHECK(plan.flush == NRVS_FLUSH_PAGE && plan.flush_size == NRVS_2M && plan.flush_base == 0x200000);
	plan = asked(REMAPS, 0x200000, GIB, NRVS_WRITE);
	CHECK(plan.reply.code == NRVS_CHANGED && plan.store_count == 0 && plan.flush == NRVS_FLUSH_NOTHING);
	*word(3, 0) &= ~UINT64_C(2);
	CHECK(asked(REMAPS, 0x200000, 4 * GIB, NRVS_WRITE).reply.code == NRVS_NARROW);
}

/* Tables with no present entry are pruned, one after another, but the root and what is pinned. */
static void prunes(void)
{
	struct nrvs_plan plan;
	unsigned level;
	tables_for(0x600000);
	*word(1, 3) = 0x1234560; /* not present */
	for (level = 1; level < 4; level++) {
		target.pinned = level + 1;
		CHECK(asked(PRUNES, 0x605123, 0, 0).store_count == 0 && asked(PRUNES, 0x605123, 0, 0).reply.code == NRVS_DONE);
		target.pinned = level + 2;
		plan = asked(PRUNES, 0x605123, 0, 0);
		CHECK(plan.reply.code == NRVS_DONE && plan.store_count == 1 && plan.stores[0].new_word == 0 && plan.bits == 0);
		CHECK(plan.stores[0].frame == tables[3 - level] && plan.unlinked_count == 1 && plan.unlinked[0] == tables[4 - level]);
		CHECK(plan.flush == NRVS_FLUSH_PAGE_AND_TABLES && plan.flush_base == 0x605123 && plan.flush_size == NRVS_4K);
		CHECK(again(&LIBRARY, &plan, 0, plan.stores[0].old_word | 0x20) == NRVS_OK);
		CHECK(plan.stores[0].new_word == 0 && plan.bits == 0);
		*word(level + 1, plan.stores[0].index) = 0;
	}
	target.pinned = 0;
	CHECK(asked(PRUNES, 0x605123, 0, 0).store_count == 0);
	tables_for(0x600000);
	*word(1, 511) = 0x7001;
	CHECK(asked(PRUNES, 0x605123, 0, 0).store_count == 0 && asked(PRUNES, 0x7ff000, 0, 0).store_count == 0);
	*word(2, 5) = 0x200083;
	CHECK(asked(PRUNES, 0xa00000, 0, 0).store_count == 0 && asked(PRUNES, 0x800000, 0, 0).store_count == 0);
}

/* Links beyond the physical addresses; tables that are pinned are joined with none. */
static void links(void)
{
	static const unsigned EACH[] = {MAPS, UNMAPS, PROTECTS, ASKS, REMAPS, SPLITS, JOINS, PRUNES};
	struct nrvs_plan plan;
	unsigned i;
	tables_for(0);
	*word(3, 7) = UINT64_C(1) << 40 | 7;
	for (i = 0; i < sizeof EACH / sizeof EACH[0]; i++) {
		plan = asked(EACH[i], 7 * GIB, 0, 0);
		CHECK(plan.reply.code == NRVS_RESERVED && plan.reply.number == tables[1] && plan.bits == 7);
	}
	plan = maps(7 * GIB, NRVS_1G, 0);
	CHECK(plan.reply.code == NRVS_RESERVED && plan.reply.number == tables[1] && plan.bits == 7);
	*word(2, 0) = 0, *word(2, 4) = UINT64_C(1) << 51 | 7;
	plan = maps(0, NRVS_1G, 0);
	CHECK(plan.reply.code == NRVS_RESERVED && plan.reply.number == tables[2] && plan.bits == 4);
	*word(3, 7) = ((UINT64_C(1) << 40) - 4096) | 7;
	CHECK(begin(&LIBRARY, &plan, &target, (struct request){ASKS, 0, 0, 7 * GIB, 0, 0}) == NRVS_SEE);
	CHECK(LIBRARY.see(&plan, memory_words(&memory, tables[0])) == NRVS_SEE);
	CHECK(LIBRARY.see(&plan, memory_words(&memory, tables[1])) == NRVS_SEE && plan.frame == (UINT64_C(1) << 28) - 1);
	tables_for(0);
	run_of(1, GIB | 3);
	target.pinned = 2;
	CHECK(asked(JOINS, 0, 0, 0).reply.code == NRVS_PINNED && asked(JOINS, 0x1000, 0, 0).reply.code == NRVS_NOT_FIRST);
	target.pinned = 3;
	CHECK(asked(JOINS, 0, 0, 0).reply.code == NRVS_CHANGED);
	target.pinned = UINT32_MAX;
	CHECK(asked(JOINS, 0, 0, 0).reply.code == NRVS_CHANGED);
	target.pinned = 0;
}

/* A plan is carried out by the header's function: flags that were set since are kept, and what somebody else wrote is left as it is. */
static void carried_out(void)
{
	struct nrvs_plan plan;
	tables_for(0);
	*word(1, 0) = GIB | 3;
	plan = asked(PROTECTS, 0, 0, NRVS_EXEC);
	*word(1, 0) |= 0x60;
	CHECK(nrvs_plan_carry_out(&plan, words_of, &memory) == NRVS_OK && *word(1, 0) == (GIB | 0x61) && plan.bits == 0x60);
	plan = asked(PROTECTS, 0, 0, NRVS_WRITE);
	*word(1, 0) = 2 * GIB | 1;
	CHECK(nrvs_plan_carry_out(&plan, words_of, &memory) == NRVS_NOT_ASKED && *word(1, 0) == (2 * GIB | 1));
	*word(1, 0) = 0;
	*word(2, 0) = GIB | 0x83;
	plan = planned((struct request){PART_UNMAPS, 0, 0, 0, 7, 2}, (struct stock){{tables[3], 0, 0, 0}, 1, 0});
	*word(2, 0) |= 0x40;
	CHECK(nrvs_plan_carry_out(&plan, words_of, &memory) == NRVS_OK && *word(2, 0) == (tables[3] << 12 | 7));
	CHECK(*word(1, 6) == (GIB | 0x6043) && *word(1, 7) == 0 && *word(1, 8) == 0 && *word(1, 9) == (GIB | 0x9043));
}

int main(void)
{
	memory_begin(&memory, 40, 3);
	target.root = memory_take(&memory);
	refusals();
	not_asked();
	odd_tables();
	attributes();
	joins();
	collapses();
	parts();
	splits_and_remaps();
	prunes();
	links();
	carried_out();
	memory_end(&memory);
	return counts();
}
