#include "accesses.h"
#include "frames.h"
#include "options.h"
#include "random.h"
#include "worker.h"

#include <sched.h>
#include <time.h>

atomic_uint hot_slot, change_count;

static nrvs_answer answer_of(struct worker *worker, const struct seen *seen, uint64_t offset)
{
	if (seen->fault) {
		const uint64_t is_a_lie = options.slip == LYING_HANDLER && draw(&worker->random, 512) == 0;

		return nrvs_fault((seen->fault & ~FAULT) ^ is_a_lie << 1);
	}
	if (options.slip == WRONG_FRAME && draw(&worker->random, 512) == 0)
		return nrvs_allowed(phys_of(seen->number + 1) + offset);
	return nrvs_allowed(phys_of(seen->number) + offset);
}

nrvs_act draw_act(uint64_t *random) { return (nrvs_act)draw(random, options_refuse("fetches") ? 2 : 3); }

void touch_slot(struct worker *worker, unsigned s)
{
	struct slot *slot = &slots[s];
	const nrvs_act act = worker->only_reads ? NRVS_READS : draw_act(&worker->random);
	const uint64_t page = slot->size == NRVS_2M ? draw(&worker->random, 512) * 4096 : 0, offset = act == NRVS_FETCHES ? CODE_AT : 0;
	const uint64_t address = slot->base + page + offset;
	const unsigned version = slot->version;
	const uint32_t call = touch_begin(worker->id, 0, address, act);
	const struct seen seen = act == NRVS_READS ? access_read(address) : act == NRVS_WRITES ? access_write(address) : access_fetch(address);

	touch_end(call, answer_of(worker, &seen, offset));
	worker->touches++;
	worker->faults += seen.fault != 0;
	worker->overlaps += version % 2 != 0 || slot->version != version;
}

/* A processor that sleeps leaves its flushes for when it wakes up. */
static void nap(struct worker *worker)
{
	const struct timespec rest = { 0, 1000 * (long)draw(&worker->random, 100) };

	if (draw(&worker->random, 2))
		sched_yield();
	else
		nanosleep(&rest, NULL);
}

void touch_some(struct worker *worker)
{
	const uint64_t where = draw(&worker->random, 8);
	unsigned slot = where < 4 ? hot_slot : where < 7 ? slot_draw(&worker->random) : (unsigned)draw(&worker->random, SLOTS);

	/* most touches come soon after some change */
	for (unsigned k = 0, count = change_count; k < 512 && count == change_count && record_has_room(); k++)
		if (k % 8 == 7)
			sched_yield();
	if (!slot_is_there(slot))
		slot = slot_draw(&worker->random);
	for (uint64_t k = draw(&worker->random, 6) + 1; k > 0 && record_has_room(); k--)
		touch_slot(worker, slot);
	if (draw(&worker->random, 128) == 0)
		nap(worker);
}
