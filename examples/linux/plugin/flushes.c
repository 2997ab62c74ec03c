#include "flushes.h"

#include "owing.h"
#include "rests.h"
#include "say.h"

#include <inttypes.h>

#define TASKS 64

static struct {
	uint64_t task;
	struct flush flush;
} latest[TASKS];
static unsigned next;

static unsigned find(uint64_t task)
{
	unsigned k = 0;

	while (k < TASKS && latest[k].task != task)
		k++;
	return k;
}

void flushes_stored(unsigned cpu)
{
	uint64_t task = guest_task(cpu);
	unsigned k = find(task);

	if (k == TASKS)
		k = next++ % TASKS;
	latest[k].task = task;
	latest[k].flush = guest_flush(cpu);
}

void flushes_begin(unsigned cpu, uint64_t space, int is_of_all)
{
	say("@flushing %u %" PRIx64 " %d\n", cpu, guest_task(cpu), is_of_all);
	if (owing_has(guest_task(cpu)))
		rests_flushing(guest_loaded(cpu) == space);
}

static struct flush of_task(unsigned cpu)
{
	static const struct flush all = { .end = NOWHERE };
	unsigned k = find(guest_task(cpu));

	if (guest.nested)
		return all;
	return k < TASKS ? latest[k].flush : guest_flush(cpu);
}

void flushes_end(unsigned cpu, uint64_t space)
{
	struct flush flush = of_task(cpu);

	if (flush.space && flush.space != space) /* none: all that the processors have */
		return;
	owing_flushed();
	say("@flushed %u %" PRIx64 " %" PRIx64 " %" PRIx64 "\n", cpu, guest_task(cpu), flush.begin, flush.end);
}
