#include "updates.h"

#include "../kernel/say.h"
#include "nodes.h"
#include "plant.h"
#include "record.h"
#include "slots.h"

enum kind { MAP, UNMAP, PROTECT, REMAP };

/* Updates that are one call, and what each has to be answered. */
struct batch {
	unsigned count, processor;
	nrvs_request requests[BATCH];
	nrvs_answer expected[BATCH];
	uint32_t calls[BATCH];
	struct told told[BATCH];
};

static uint64_t wrong, placed_before; /* updates of the segments before */

static void add(struct batch *batch, nrvs_request request, nrvs_answer expected)
{
	if (batch->count == BATCH)
		stop("a call has too many updates", 0);
	batch->expected[batch->count] = expected;
	batch->requests[batch->count++] = request;
}

/* ---- a call: recorded from before it begins until it is over ---- */

/* A thread of the chain has one call open at a time: each processor has as many as it needs. */
static unsigned thread_of(unsigned processor, unsigned call)
{
	return call == 0 ? processor : PROCESSORS + processor * BATCH + call;
}

static void update(struct batch *batch)
{
	const unsigned node = node_of(batch->processor);
	for (unsigned i = 0; i < batch->count; i++)
		batch->calls[i] = record_call(0, node, thread_of(batch->processor, i), batch->requests[i]);
	nodes_update(node, batch->requests, batch->count, batch->told);
}

/* Waits for all nodes. Returns the flags that processors of any node had set in what is unmapped. */
static uint64_t wait_for_all(const struct batch *batch)
{
	uint64_t flags = 0;
	if (is_planted(PLANT_REPLY))
		return DIRTY;
	nodes_wait(batch->told[batch->count - 1].place);
	for (unsigned i = 0; i < batch->count; i++)
		flags |= nodes_flags(batch->told[i].place);
	return flags;
}

static void reply(const struct batch *batch)
{
	for (unsigned i = 0; i < batch->count; i++) {
		const uint32_t place = (uint32_t)(batch->told[i].place - placed_before);
		record_place(0, place, batch->calls[i]);
		record_reply(0, batch->calls[i], place, batch->told[i].answer);
	}
}

/* The others make so many accesses, unless they are to be held. */
static void wait_for_others(uint64_t number)
{
	const uint64_t until = slots_accesses() + number;
	while (slots_accesses() < until && !processors_are_held())
		processors_pause();
}

/* ---- a changer's own slots ---- */

static unsigned pages_of(const struct slot *slot)
{
	return slot->size == NRVS_4K ? slot->parts : 1;
}

static void add_maps(struct batch *batch, const struct slot *slot, struct state state)
{
	for (unsigned k = 0; k < pages_of(slot); k++)
		add(batch, nrvs_map(slot->base + k * bytes_of(NRVS_4K), slot->size, page_of(slot, state.which) + k * bytes_of(NRVS_4K),
				    rights_of(state)), nrvs_done());
}

static void add_unmaps(struct batch *batch, const struct slot *slot, struct state state)
{
	for (unsigned k = 0; k < pages_of(slot); k++)
		add(batch, nrvs_unmap(slot->base + k * bytes_of(NRVS_4K)),
		    nrvs_removed(page_of(slot, state.which) + k * bytes_of(NRVS_4K), slot->size, rights_of(state)));
}

static void add_protects(struct batch *batch, const struct slot *slot, struct state was, struct state state)
{
	for (unsigned k = 0; k < pages_of(slot); k++)
		add(batch, nrvs_protect(slot->base + k * bytes_of(NRVS_4K), rights_of(state)), nrvs_changed(rights_of(was)));
}

static enum kind draw_kind(const struct slot *slot, struct state state, uint64_t *seed)
{
	const uint64_t drawn = draw(seed, 2 * pages_of(slot) > BATCH ? 6 : 8);
	return !state.mapped ? MAP : drawn < 3 ? UNMAP : drawn < 6 ? PROTECT : REMAP;
}

static struct state changed(struct state state, enum kind kind, uint64_t *seed)
{
	if (kind == MAP)
		return (struct state){ .mapped = 1, .writable = draw(seed, 2) != 0, .which = (uint8_t)draw(seed, 2) };
	if (kind == REMAP)
		return (struct state){ .mapped = 1, .writable = draw(seed, 2) != 0, .which = !state.which };
	if (kind == PROTECT)
		state.writable = !state.writable;
	state.mapped = kind != UNMAP;
	return state;
}

static void fill(struct batch *batch, const struct slot *slot, enum kind kind, struct state was, struct state state)
{
	if (kind == PROTECT)
		add_protects(batch, slot, was, state);
	if (was.mapped && kind != PROTECT)
		add_unmaps(batch, slot, was);
	if (state.mapped && kind != PROTECT)
		add_maps(batch, slot, state);
}

static void compare(const struct batch *batch)
{
	for (unsigned i = 0; i < batch->count; i++) {
		const nrvs_answer is = batch->told[i].answer, should = batch->expected[i];
		if (is.code != should.code || is.size != should.size || is.rights != should.rights || is.value != should.value)
			__atomic_fetch_add(&wrong, 1, __ATOMIC_SEQ_CST);
	}
}

/* A page that was written is dirty on some node when it is unmapped. Then it is written no more. */
static void look_for_lost(struct slot *slot, uint64_t found, uint32_t written)
{
	if (written && !(found & DIRTY))
		slots_lose();
	__atomic_store_n(&slot->written, 0, __ATOMIC_SEQ_CST);
}

/* While all other processors are held, the memory of a page that was unmapped is given to somebody else; that of 1 GiB is shared. */
static void give_away(unsigned processor, const struct slot *slot, enum kind kind, struct state was)
{
	const uint64_t page = page_of(slot, was.which), bytes = pages_of(slot) * bytes_of(slot->size);
	if (kind != UNMAP || processor != 0 || !processors_are_held() || slot->size == NRVS_1G || slots_lead_to(slot, page, bytes))
		return;
	for (unsigned k = 0; k < pages_of(slot); k++)
		record_release(0, page + k * bytes_of(slot->size), slot->size);
}

/* What gives something, as a map, is answered as soon as it is in the log, and other nodes learn of it by a fault. What takes something
 * away is answered once each node is done with it.
 */
static void change_to(unsigned processor, struct slot *slot, enum kind kind, struct state state)
{
	const struct state was = slot_state(slot);
	const uint32_t written = __atomic_load_n(&slot->written, __ATOMIC_SEQ_CST);
	struct batch batch = { .processor = processor };
	uint64_t found = 0;
	fill(&batch, slot, kind, was, state);
	if (kind == MAP)
		__atomic_store_n(&slot->written, 0, __ATOMIC_SEQ_CST);
	slot_begins(slot, state);
	update(&batch);
	if (is_planted(PLANT_GIVEN))
		give_away(processor, slot, kind, was);
	if (kind == UNMAP || kind == REMAP || (kind == PROTECT && was.writable))
		found = wait_for_all(&batch);
	slot_ends(slot);
	compare(&batch);
	if (kind == UNMAP || kind == REMAP)
		look_for_lost(slot, found, written);
	reply(&batch);
	if (!is_planted(PLANT_GIVEN))
		give_away(processor, slot, kind, was);
}

static void change_own(unsigned processor, struct slot *slot, uint64_t *seed)
{
	const enum kind kind = draw_kind(slot, slot_state(slot), seed);
	change_to(processor, slot, kind, changed(slot_state(slot), kind, seed));
}

/* A look at a slot's first page, on a processor's node. */
static nrvs_answer look(unsigned processor, const struct slot *slot)
{
	const uint32_t call = record_call(0, node_of(processor), processor, nrvs_resolve(slot->base));
	uint64_t at;
	const nrvs_answer answer = nodes_look(node_of(processor), slot->base, &at);
	record_reply(0, call, (uint32_t)(at - placed_before), answer);
	return answer;
}

/* ---- nodes that lag, by no chance: all is done by the first processor, and by those that it lets ---- */

struct wish updates_wish;

static void unmap(struct slot *slot)
{
	struct state state = slot_state(slot);
	state.mapped = 0;
	if (slot_state(slot).mapped)
		change_to(0, slot, UNMAP, state);
}

static void map(struct slot *slot, uint64_t *seed)
{
	change_to(0, slot, MAP, (struct state){ .mapped = 1, .writable = 1, .which = (uint8_t)draw(seed, 2) });
}

/* Each other processor makes one access of a slot, which is recorded. */
static void let_all(struct slot *slot, int is_write)
{
	updates_wish = (struct wish){ slot, is_write };
	record_allow(1);
	for (unsigned k = 1; k < PROCESSORS; k++)
		processors_let(k);
	updates_wish.slot = 0;
}

/* As many times at least as there are other nodes something was met; a mistake may be why it wasn't. */
static void has_met(const char *what, uint64_t times)
{
	if (times + 1 < nodes_count() && is_planted(PLANT_NONE))
		stop(what, times);
}

/* A map that each other node learns of by a fault; and an unmap that it has heard of when that is over. */
static void lag_behind(struct slot *slot, int is_write, uint64_t *seed)
{
	uint64_t before;
	unmap(slot);
	nodes_level();
	before = nodes_again;
	map(slot, seed);
	let_all(slot, is_write);
	has_met("nodes learned of a map by a fault:", nodes_again - before);
	unmap(slot);
	let_all(slot, is_write);
}

/* A map that no other node has applied, which a look on each finds: it syncs. */
static void look_behind(struct slot *slot, uint64_t *seed)
{
	unmap(slot);
	nodes_level();
	map(slot, seed);
	for (unsigned k = 1; k < PROCESSORS; k++)
		if (look(k, slot).code != NRVS_MAPPED)
			__atomic_fetch_add(&wrong, 1, __ATOMIC_SEQ_CST);
}

/* As many updates as a ring has entries, of which the other nodes know nothing; so the next one finds no room. */
static void fill_ring(struct slot *slot, uint64_t *seed)
{
	uint64_t before;
	unmap(slot);
	nodes_level();
	before = nodes_held_up;
	map(slot, seed);
	unmap(slot);
	has_met("waits for a full ring:", nodes_held_up - before);
}

/* Slots of the first changer, of one page and of 16. */
void updates_stall(uint64_t *seed)
{
	nodes_forget();
	lag_behind(&slots[4], 0, seed);
	lag_behind(&slots[12], 1, seed);
	look_behind(&slots[4], seed);
	fill_ring(&slots[0], seed);
}

/* ---- slots of both ---- */

static void change_contended(unsigned processor, const struct slot *slot, uint64_t *seed)
{
	const unsigned rights = draw(seed, 2) ? NRVS_WRITE : 0;
	const uint64_t kind = draw(seed, 4), physical = page_of(slot, (unsigned)draw(seed, 2));
	struct batch batch = { .processor = processor };
	add(&batch, kind < 2 ? nrvs_map(slot->base, slot->size, physical, rights) : kind == 2 ? nrvs_unmap(slot->base) :
	    nrvs_protect(slot->base, rights), nrvs_done());
	update(&batch);
	if (kind >= 2)
		wait_for_all(&batch);
	reply(&batch);
}

void updates_make(unsigned processor, uint64_t *seed)
{
	struct slot *slot = &slots[draw(seed, SLOTS)];
	if (draw(seed, 8) == 0) {
		look(processor, slot);
		return;
	}
	if (slot->is_contended)
		change_contended(processor, slot, seed);
	else
		change_own(processor, (unsigned)(slot - slots) % CHANGERS == processor ? slot : &slots[(slot - slots) ^ 1], seed);
	record_allow(is_planted(PLANT_NONE) ? 2 : 40);
	wait_for_others(is_planted(PLANT_NONE) ? draw(seed, 2) * 40 : 100);
}

/* ---- begin and end ---- */

/* Slots of 16 pages, which are one call; of both changers; and of 1 GiB a part that isn't too much memory. */
void updates_begin(unsigned levels, int is_sent)
{
	slots_begin(levels);
	for (unsigned k = 0; k < SLOTS; k++) {
		slots[k].space = ALL_SPACES;
		slots[k].is_contended = k == 2 || k == 3;
		if (slots[k].size == NRVS_4K && k % 8 < 2)
			slots[k].parts = BATCH;
		if (slots[k].size == NRVS_1G)
			slots[k].parts = 80;
	}
	slots_fill();
	record_begin(0, nodes_count(), node_target(0), is_sent);
}

void updates_cut(void)
{
	record_cut();
	placed_before = nodes_completed();
}

void updates_end(void)
{
	nodes_level();
	for (unsigned n = 0; n < nodes_count(); n++)
		record_dump(0, n, (uint32_t)(nodes_completed() - placed_before), node_target(n)->root);
	record_end(0);
}

uint64_t updates_wrong(void)
{
	return __atomic_load_n(&wrong, __ATOMIC_SEQ_CST);
}
