#include "changes.h"

#include "../kernel/say.h"
#include "plans.h"
#include "plant.h"
#include "processors.h"
#include "record.h"
#include "slots.h"

struct pool pool;
struct nrvs_target targets[SPACES];

/* ---- the calls that are open, of each space: processor 0 is thread 0, and has as many more as it needs ---- */

static struct {
	struct {
		uint32_t call;
		nrvs_answer answer;
	} open[1 + PARTS];
	uint32_t count, placed;
} calls[SPACES];

/* Before the first store of a change: one more update of this space, or of both, and what is answered to it. */
static void open_updates(unsigned space, nrvs_request request, nrvs_answer answer)
{
	for (unsigned k = 0; k < SPACES; k++) {
		const uint32_t at = calls[k].count, thread = at == 0 ? 0 : PROCESSORS - 1 + at;
		if (space != ALL_SPACES && space != k)
			continue;
		calls[k].open[at].answer = answer;
		calls[k].open[at].call = record_call(k, 0, thread, request);
		record_place(k, calls[k].placed++, calls[k].open[at].call);
		calls[k].count++;
	}
}

/* After the flush: that they were answered so, which the kernel has seen to. */
static void close_updates(void)
{
	for (unsigned k = 0; k < SPACES; k++) {
		for (uint32_t i = 0; i < calls[k].count; i++)
			record_reply(k, calls[k].open[i].call, calls[k].placed - calls[k].count + i, calls[k].open[i].answer);
		calls[k].count = 0;
	}
}

void changes_cut(void)
{
	record_cut();
	for (unsigned k = 0; k < SPACES; k++)
		calls[k].placed = 0;
}

uint32_t changes_placed(unsigned space)
{
	return calls[space].placed;
}

/* ---- changes ---- */

/* A cut takes some parts of a large page away, and a mend maps them again. */
enum kind { MAP, UNMAP, PROTECT, REMAP, SPLIT, JOIN, CUT, MEND, COLLAPSE };

static enum kind draw_kind(const struct slot *slot, struct state state, uint64_t *seed)
{
	if (!state.mapped)
		return MAP;
	if (state.in_parts)
		return state.gap_count > 0 ? MEND : draw(seed, 2) ? JOIN : COLLAPSE;
	if (is_planted(PLANT_REFILL) && slot->size != NRVS_4K) /* many new pages are split */
		return draw(seed, 2) ? SPLIT : UNMAP;
	switch (draw(seed, slot->size == NRVS_4K ? 8 : 10)) {
	case 0:
	case 1:
	case 2:
		return UNMAP;
	case 3:
	case 4:
		return REMAP;
	case 8:
		return SPLIT;
	case 9:
		return CUT;
	default:
		return PROTECT;
	}
}

static struct state changed(struct state state, enum kind kind, uint64_t *seed)
{
	if (kind == MAP)
		return (struct state){ .mapped = 1, .writable = draw(seed, 2) != 0, .which = (uint8_t)draw(seed, 2) };
	if (kind == REMAP || kind == COLLAPSE)
		return (struct state){ .mapped = 1, .writable = draw(seed, 2) != 0, .which = !state.which };
	if (kind == PROTECT)
		state.writable = !state.writable;
	state.mapped = kind != UNMAP;
	state.in_parts = kind == SPLIT || kind == CUT || kind == MEND;
	state.gap_count = kind == CUT ? 1 + (uint16_t)draw(seed, 3) : 0;
	if (kind == CUT)
		state.gap = (uint16_t)draw(seed, PARTS - state.gap_count);
	return state;
}

/* A page of a slot in a state, or a part of it, is mapped; and unmapped. */
static void record_map(const struct slot *slot, struct state state, unsigned k)
{
	const unsigned size = slot->size - state.in_parts;
	open_updates(slot->space, nrvs_map(slot->base + k * bytes_of(size), (nrvs_size)size, page_of(slot, state.which) + k * bytes_of(size),
					   rights_of(state)), nrvs_done());
}

static void record_unmap(const struct slot *slot, struct state state, unsigned k)
{
	const unsigned size = slot->size - state.in_parts;
	open_updates(slot->space, nrvs_unmap(slot->base + k * bytes_of(size)),
		     nrvs_removed(page_of(slot, state.which) + k * bytes_of(size), (nrvs_size)size, rights_of(state)));
}

/* The memory of a page that leads elsewhere now, or nowhere, is somebody else's from here on. That of 1 GiB is the other pages' too. */
static void give_away(const struct slot *slot, struct state was, struct state state)
{
	const uint64_t page = page_of(slot, was.which);
	if (!was.mapped || (state.mapped && state.which == was.which) || slot->size == NRVS_1G || slots_lead_to(slot, page, bytes_of(slot->size)))
		return;
	for (unsigned k = 0; k < SPACES; k++)
		if (slot->space == ALL_SPACES || slot->space == k)
			record_release(k, page, slot->size);
}

/* From one state to another: a mend maps what is missing, other changes unmap all and map all. */
static void record_change(const struct slot *slot, enum kind kind, struct state was, struct state state)
{
	record_allow(2);
	if (kind == PROTECT)
		open_updates(slot->space, nrvs_protect(slot->base, rights_of(state)), nrvs_changed(rights_of(was)));
	for (unsigned k = 0; kind != PROTECT && kind != MEND && was.mapped && k < (was.in_parts ? PARTS : 1u); k++)
		record_unmap(slot, was, k);
	for (unsigned k = 0; kind != PROTECT && state.mapped && k < (state.in_parts ? PARTS : 1u); k++)
		if (kind == MEND ? is_missing(was, k) : !is_missing(state, k))
			record_map(slot, state, k);
}

static uint32_t begin(struct nrvs_plan *plan, const struct nrvs_target *target, const struct slot *slot, enum kind kind, struct state state)
{
	switch (kind) {
	case MAP:
		return nrvs_plan_map(plan, target, slot->base, slot->size, page_of(slot, state.which), rights_of(state), 0);
	case UNMAP:
		return nrvs_plan_unmap(plan, target, slot->base);
	case PROTECT:
		return nrvs_plan_protect(plan, target, slot->base, rights_of(state));
	case REMAP:
		return nrvs_plan_remap(plan, target, slot->base, page_of(slot, state.which), rights_of(state));
	case SPLIT:
		return nrvs_plan_split(plan, target, slot->base);
	case CUT:
		return nrvs_plan_unmap_part(plan, target, slot->base, state.gap, state.gap_count);
	case COLLAPSE:
		return nrvs_plan_collapse(plan, target, slot->base, page_of(slot, state.which), rights_of(state));
	default:
		return nrvs_plan_join(plan, target, slot->base);
	}
}

/* What a plan has to answer. */
static int is_answered(const struct slot *slot, enum kind kind, struct state was, struct nrvs_reply reply)
{
	if (kind == MAP || kind == MEND)
		return reply.code == NRVS_DONE;
	if (kind == UNMAP)
		return reply.code == NRVS_REMOVED && reply.size == slot->size && reply.rights == rights_of(was) &&
		       reply.number == page_of(slot, was.which);
	return reply.code == NRVS_CHANGED && reply.rights == rights_of(was);
}

/* Whether each entry of a new table is dirty, but for those that are missing. */
static int are_dirty(const uint64_t *words, struct state state)
{
	uint64_t all = DIRTY;
	for (unsigned k = 0; k < PARTS; k++)
		all &= is_missing(state, k) ? DIRTY : words[k];
	return all != 0;
}

static uint32_t was_written(const struct slot *slot)
{
	return __atomic_load_n(&slot->written, __ATOMIC_SEQ_CST);
}

/* A page that was written is dirty: when it is unmapped; and in all of its parts if it was written before the store that splits it. */
static void look_for_lost(const struct slot *slot, enum kind kind, const struct nrvs_plan *plan, uint32_t written_before)
{
	int is_lost = 0;
	if (kind == UNMAP)
		is_lost = was_written(slot) && !(plan->bits & DIRTY);
	if (kind == SPLIT || kind == CUT)
		is_lost = written_before && !are_dirty(frame_words(plan->fill.frame), slot_state(slot));
	if (is_lost)
		slots_lose();
}

/* What is asked for, by one plan; of a mend by one for each missing part. Whether the page was written when the plan was there. */
static uint32_t carry_out(struct nrvs_plan *plan, const struct nrvs_target *target, const struct slot *slot, enum kind kind,
			  struct state was)
{
	const struct state state = slot_state(slot);
	uint32_t written = 0;
	if (kind != MEND) {
		plans_make(&pool, plan, begin(plan, target, slot, kind, state));
		written = was_written(slot);
		plans_finish(&pool, plan);
	}
	for (unsigned k = was.gap; kind == MEND && is_missing(was, k); k++)
		plans_run(&pool, plan, nrvs_plan_map(plan, target, slot->base + k * bytes_of(slot->size - 1), slot->size - 1,
						     page_of(slot, state.which) + k * bytes_of(slot->size - 1), rights_of(state), 0));
	return written;
}

unsigned changes_make(unsigned which, uint64_t *seed)
{
	struct slot *slot = &slots[which < SLOTS ? which : draw(seed, SLOTS)];
	struct nrvs_target target = targets[slot->space == ALL_SPACES ? draw(seed, SPACES) : slot->space];
	const struct state was = slot_state(slot);
	const enum kind kind = draw_kind(slot, was, seed);
	const struct state state = changed(was, kind, seed);
	struct nrvs_plan plan;
	uint32_t written;
	target.pinned = slot->space == ALL_SPACES ? target.levels : 0;
	record_change(slot, kind, was, state);
	if (kind == MAP)
		__atomic_store_n(&slot->written, 0, __ATOMIC_SEQ_CST);
	slot_begins(slot, state);
	if (is_planted(PLANT_GIVEN))
		give_away(slot, was, state);
	written = carry_out(&plan, &target, slot, kind, was);
	slot_ends(slot);
	if (!is_answered(slot, kind, was, plan.reply))
		stop("a change is answered", plan.reply.code);
	close_updates();
	if (!is_planted(PLANT_GIVEN))
		give_away(slot, was, state);
	record_allow(is_planted(PLANT_SHOOTDOWN) ? 40 : 2);
	look_for_lost(slot, kind, &plan, written);
	return (unsigned)(slot - slots);
}
