#include "slots.h"

#include <linux/gfp.h>
#include <linux/mm.h>
#include <linux/printk.h>
#include <asm/cpufeature.h>

#include "plant.h"
#include "processors.h"
#include "range.h"
#include "record.h"
#include "slot.h"
#include "space.h"

#define FIRST UINT64_C(0x100000000000)

enum { DATA = 64, OFTEN = 64, DIRTY = 0x40 };
enum kind { MAP, UNMAP, PROTECT, REMAP, SPLIT, JOIN, CLEAR };

struct slot slots[SLOTS];
static bool written[RANGE_SLOTS][PARTS];
static struct page *pages[DATA], *large[LARGE_SLOTS];
static struct slots_counts counts;

/* ---- what slots lead to ---- */

static uint64_t frames_of(unsigned size)
{
	return UINT64_C(1) << 9 * size;
}

/* A frame of data has its own number in its first word; the others are written, one by each processor. */
static void name_frames(struct page *page, unsigned long count)
{
	const uint64_t first = page_to_pfn(page);
	for (unsigned long i = 0; i < count; i++)
		*space_words(first + i) = first + i;
}

static int take_pages(void)
{
	for (unsigned i = 0; i < DATA; i++) {
		pages[i] = alloc_page(GFP_KERNEL | __GFP_ZERO);
		if (!pages[i])
			return -ENOMEM;
		name_frames(pages[i], 1);
	}
	for (unsigned i = 0; i < LARGE_SLOTS; i++) {
		large[i] = alloc_pages(GFP_KERNEL | __GFP_ZERO, 9);
		if (!large[i])
			return -ENOMEM;
		name_frames(large[i], PARTS);
	}
	return 0;
}

/* The pages of a range are small, and one range follows another. */
static struct slot range_at(unsigned k)
{
	struct slot slot = { .was[0].frame = NONE, .size = NRVS_2M, .written = written[k] };
	slot.base = FIRST + (UINT64_C(4) << 39) + ((uint64_t)(PARTS / 2 + k * PARTS) << PAGE_SHIFT);
	memset(slot.written, 0, sizeof(written[k]));
	return slot;
}

/* Pages of 4 KiB that follow one another, in some tables; large pages, and one of 1 GiB; ranges. */
static struct slot slot_at(unsigned k)
{
	const unsigned huge = SMALL_SLOTS + LARGE_SLOTS;
	struct slot slot = { .was[0].frame = NONE, .size = k < SMALL_SLOTS ? NRVS_4K : k < huge ? NRVS_2M : NRVS_1G };
	if (k > huge)
		return range_at(k - huge - 1);
	if (slot.size == NRVS_4K)
		slot.base = FIRST + ((uint64_t)(k / 4 % 2) << 39) + ((uint64_t)(k / 8 % 2) << 30) + ((uint64_t)(k / 16) << 21) + (k % 4 << 12);
	else
		slot.base = FIRST + ((uint64_t)(slot.size + 1) << 39) + ((uint64_t)k << 21);
	if (slot.size == NRVS_1G)
		slot.base = FIRST + (UINT64_C(3) << 39);
	return slot;
}

int slots_begin(void)
{
	memset(&counts, 0, sizeof(counts));
	accesses_begin();
	for (unsigned k = 0; k < SLOTS; k++)
		slots[k] = slot_at(k);
	return take_pages();
}

void slots_end(void)
{
	for (unsigned i = 0; i < DATA; i++)
		if (pages[i])
			__free_page(pages[i]);
	for (unsigned i = 0; i < LARGE_SLOTS; i++)
		if (large[i])
			__free_pages(large[i], 9);
}

/* A frame that a slot's page may lead to from its base on. The page of 1 GiB leads to the memory in which the first large page lies. */
static uint64_t draw_frame(const struct slot *slot, struct rnd_state *random)
{
	if (slot->size == NRVS_1G)
		return page_to_pfn(large[0]) & ~(frames_of(NRVS_1G) - 1);
	if (slot->size == NRVS_2M)
		return page_to_pfn(large[prandom_u32_state(random) % LARGE_SLOTS]);
	return page_to_pfn(pages[prandom_u32_state(random) % DATA]);
}

/* Often the first page of a range, behind which another range ends. */
uint64_t slot_part(const struct slot *slot, struct rnd_state *random)
{
	const uint64_t part = prandom_u32_state(random) % PARTS;
	if (slot->written && prandom_u32_state(random) % 4 == 0)
		return 0;
	if (slot->size == NRVS_1G)
		return (page_to_pfn(large[0]) + part) % frames_of(NRVS_1G);
	return slot->size == NRVS_2M ? part : 0;
}

/* ---- what is recorded ---- */

/* The page of a state as a whole, or in parts of the next smaller size: it is mapped, or unmapped. */
static void record_pages(const struct slot *slot, struct state state, bool is_map)
{
	const unsigned size = slot->size - state.in_parts;
	for (unsigned k = 0; k < (state.in_parts ? PARTS : 1); k++) {
		const uint64_t offset = k * frames_of(size) << PAGE_SHIFT, physical = (state.frame << PAGE_SHIFT) + offset;
		if (is_map)
			record_update(nrvs_map(slot->base + offset, size, physical, state.rights), nrvs_done());
		else
			record_update(nrvs_unmap(slot->base + offset), nrvs_removed(physical, size, state.rights));
	}
}

static void record_change(const struct slot *slot, enum kind kind, struct state was, struct state is)
{
	for (unsigned k = 0; kind == PROTECT && k < (is.in_parts ? PARTS : 1); k++)
		record_update(nrvs_protect(slot->base + k * PAGE_SIZE, is.rights), nrvs_changed(was.rights));
	if (was.frame != NONE && kind != PROTECT)
		record_pages(slot, was, false);
	if (is.frame != NONE && kind != PROTECT)
		record_pages(slot, is, true);
}

/* ---- changes ---- */

static enum kind draw_kind(const struct slot *slot, struct state state, struct rnd_state *random)
{
	static const enum kind kinds[] = { UNMAP, UNMAP, UNMAP, PROTECT, PROTECT, PROTECT, REMAP, REMAP, REMAP, CLEAR, CLEAR, CLEAR };
	static const enum kind of_ranges[] = { UNMAP, PROTECT, CLEAR };
	if (state.frame == NONE)
		return MAP;
	if (slot->written)
		return of_ranges[prandom_u32_state(random) % ARRAY_SIZE(of_ranges)];
	if (state.in_parts)
		return JOIN;
	if (slot->size != NRVS_4K && prandom_u32_state(random) % 8 == 0)
		return SPLIT;
	return kinds[prandom_u32_state(random) % ARRAY_SIZE(kinds)];
}

static struct state changed(const struct slot *slot, struct state state, enum kind kind, struct rnd_state *random)
{
	if (kind == MAP || kind == REMAP)
		state.frame = draw_frame(slot, random);
	if (kind == MAP || kind == REMAP || kind == PROTECT)
		state.rights = prandom_u32_state(random) & 7;
	if (kind == UNMAP)
		state = (struct state){ NONE, 0, false };
	state.in_parts = kind == SPLIT || (slot->written && kind != UNMAP);
	return state;
}

static uint32_t begin(struct nrvs_plan *plan, const struct slot *slot, enum kind kind, struct state is)
{
	const uint64_t physical = is.frame << PAGE_SHIFT;
	switch (kind) {
	case MAP:
		return space_map(plan, slot->base, slot->size, physical, is.rights);
	case UNMAP:
		return space_unmap(plan, slot->base);
	case PROTECT:
		return space_protect(plan, slot->base, is.rights);
	case REMAP:
		return space_remap(plan, slot->base, physical, is.rights);
	case SPLIT:
		return nrvs_plan_split(plan, &space_target, slot->base);
	default:
		return nrvs_plan_join(plan, &space_target, slot->base);
	}
}

/* What a plan has to answer. */
static bool is_answered(const struct slot *slot, enum kind kind, struct state was, struct nrvs_reply reply)
{
	if (kind == MAP)
		return reply.code == NRVS_DONE;
	if (kind == UNMAP)
		return reply.code == NRVS_REMOVED && reply.size == slot->size && reply.rights == was.rights &&
		       reply.number == was.frame << PAGE_SHIFT;
	return reply.code == NRVS_CHANGED && reply.rights == was.rights;
}

/* Whether each entry of a table that was filled is dirty. */
static bool are_dirty(uint64_t frame)
{
	uint64_t all = DIRTY;
	for (unsigned i = 0; i < PARTS; i++)
		all &= space_words(frame)[i];
	return all != 0;
}

/* A page that was written is dirty: when it is unmapped; and in all of its parts if it was written before the store that splits it. */
static void look_for_lost(const struct slot *slot, enum kind kind, const struct nrvs_plan *plan, bool was_written)
{
	if (kind == UNMAP)
		counts.lost += READ_ONCE(slot->is_written) && !(plan->bits & DIRTY);
	if (kind == SPLIT)
		counts.lost += was_written && !are_dirty(plan->fill.frame);
}

/* Whether the page of some slot leads to some of these frames. */
static bool is_led_to(uint64_t frame, uint64_t count)
{
	for (unsigned k = 0; k < SLOTS; k++) {
		const struct state is = slots[k].was[slots[k].next % HISTORY];
		if (is.frame != NONE && is.frame < frame + count && frame < is.frame + frames_of(slots[k].size))
			return true;
	}
	return false;
}

/* The memory to which no page leads any more is somebody else's from here on. */
static void give_away(const struct slot *slot, struct state was)
{
	if (was.frame != NONE && !is_led_to(was.frame, frames_of(slot->size)))
		record_release(was.frame << PAGE_SHIFT, slot->size);
}

/* The change is over: no access may find what was before it. */
static void end(struct slot *slot)
{
	smp_store_release(&slot->done, slot->next);
	record_replies();
	record_allow(is_planted(PLANT_NONE) ? 2 : OFTEN);
}

/* The stores, the flush, and then the end; the tables that were unlinked are free. */
static void carry_out(struct slot *slot, struct nrvs_plan *plan, struct state was)
{
	space_store(plan);
	if (is_planted(PLANT_GIVEN))
		give_away(slot, was);
	if (is_planted(PLANT_EARLY)) {
		end(slot);
		space_free(plan);
		processors_go_on(200);
	}
	space_flush(plan);
	if (is_planted(PLANT_EARLY))
		return;
	end(slot);
	space_free(plan);
	if (is_planted(PLANT_NONE))
		give_away(slot, was);
}

/* A change is under way. */
static void begins(struct slot *slot, enum kind kind, struct state is)
{
	record_change(slot, kind, slot->was[slot->next % HISTORY], is);
	record_allow(2);
	if (kind == MAP)
		WRITE_ONCE(slot->is_written, false);
	slot->was[(slot->next + 1) % HISTORY] = is;
	smp_store_release(&slot->next, slot->next + 1);
}

/* From what a page is to what it is to be. */
static void change(struct slot *slot, enum kind kind, struct state is, bool waits)
{
	const struct state was = slot->was[slot->next % HISTORY];
	struct nrvs_plan plan;
	bool was_written;
	begins(slot, kind, is);
	if (space_plan(&plan, begin(&plan, slot, kind, is)) != NRVS_PLANNED || !is_answered(slot, kind, was, plan.reply)) {
		if (counts.wrong++ == 0)
			pr_err("nrvs_space: change %u of %llx is answered %u\n", kind, slot->base, plan.reply.code);
	}
	if (waits)
		processors_go_on(300);
	was_written = READ_ONCE(slot->is_written);
	carry_out(slot, &plan, was);
	look_for_lost(slot, kind, &plan, was_written);
	counts.changes[kind]++;
}

/* ---- ranges ---- */

static struct stretch range;
static bool was_written[PARTS];

/* Each page that was written is dirty in the word that is found. */
static void look_for_lost_in(const struct slot *slot)
{
	const uint64_t first = (range.at - slot->base) >> PAGE_SHIFT;
	for (uint64_t i = 0; range.step != NRVS_PLANNED && i < range.run.count; i++)
		counts.lost += was_written[first + i] && !(range.found[i] & DIRTY);
	if (range.step == NRVS_PLANNED)
		counts.lost += was_written[first] && !(range.run.plan.bits & DIRTY);
}

/* All pages of a range are there, or none: a step that isn't done, or finds that a page is missing, is wrong. */
static void change_words(struct slot *slot, enum range_kind kind, struct state is)
{
	memcpy(was_written, slot->written, sizeof(was_written));
	range_begin(&range, kind, slot->base, PARTS * PAGE_SIZE);
	range.physical = is.frame << PAGE_SHIFT;
	range.rights = is.rights;
	while (range_next(&range)) {
		counts.wrong += range.step == NRVS_ABSENT;
		if (kind == RANGE_UNMAP || kind == RANGE_HARVEST)
			look_for_lost_in(slot);
	}
	counts.wrong += range.bytes != 0;
	counts.ranges++;
}

static void change_range(struct slot *slot, enum kind kind, struct state is)
{
	begins(slot, kind, is);
	if (kind == MAP)
		memset(slot->written, 0, PARTS * sizeof(*slot->written));
	change_words(slot, kind == MAP ? RANGE_MAP : kind == UNMAP ? RANGE_UNMAP : RANGE_PROTECT, is);
	if (is_planted(PLANT_EARLY)) {
		end(slot);
		range_free(&range);
		processors_go_on(200);
	}
	range_flush(&range);
	if (is_planted(PLANT_EARLY))
		return;
	end(slot);
	range_free(&range);
}

/* The flags of all pages are collected, by one flush. */
static void harvest(struct slot *slot)
{
	change_words(slot, RANGE_HARVEST, slot->was[slot->next % HISTORY]);
	range_flush(&range);
	memset(slot->written, 0, PARTS * sizeof(*slot->written));
	counts.changes[CLEAR]++;
}

/* ---- any change ---- */

/* The dirty flag is collected, as a kernel does to learn what was written since: the processors set it again. */
static void clear(struct slot *slot)
{
	space_clear_flags(slot->base);
	WRITE_ONCE(slot->is_written, false);
	counts.changes[CLEAR]++;
}

/* One change of eight is of a range. */
static struct slot *draw_slot(struct rnd_state *random)
{
	const bool is_range = prandom_u32_state(random) % 8 == 0;
	return is_range ? &slots[SLOTS - 1 - prandom_u32_state(random) % RANGE_SLOTS] : &slots[prandom_u32_state(random) % SLOTS];
}

/* After a map and after a collection flags are clear. If the processors are held from then on until the next change has its plan, they
 * set them between that and its stores.
 */
void slots_change(struct rnd_state *random)
{
	struct slot *slot = draw_slot(random);
	const bool waits = prandom_u32_state(random) % 4 == 0 && !slot->written;
	if (slot->size == NRVS_1G && !boot_cpu_has(X86_FEATURE_GBPAGES))
		return;
	if (waits)
		processors_hold();
	for (unsigned twice = 0; twice < 1 + waits; twice++) {
		const struct state was = slot->was[slot->next % HISTORY];
		const enum kind kind = draw_kind(slot, was, random);
		if (slot->written && kind == CLEAR)
			harvest(slot);
		else if (slot->written)
			change_range(slot, kind, changed(slot, was, kind, random));
		else if (kind == CLEAR)
			clear(slot);
		else
			change(slot, kind, changed(slot, was, kind, random), waits && twice == 1);
	}
	if (waits)
		processors_release();
}

void slots_unmap_all(void)
{
	for (unsigned k = 0; k < SLOTS; k++) {
		struct slot *slot = &slots[k];
		struct state is = slot->was[slot->next % HISTORY];
		if (is.frame != NONE && slot->written) {
			change_range(slot, UNMAP, (struct state){ NONE, 0, false });
			continue;
		}
		if (is.in_parts) {
			is.in_parts = false;
			change(slot, JOIN, is, false);
		}
		if (is.frame != NONE)
			change(slot, UNMAP, (struct state){ NONE, 0, false }, false);
	}
}

struct slots_counts slots_counts(void)
{
	struct slots_counts all = counts;
	accesses_add(&all);
	return all;
}
