#define _GNU_SOURCE
#include "record.h"
#include "options.h"

#include <stddef.h>
#include <sys/mman.h>

enum { EVENTS = NRVS_MAX_EVENTS, PLACES = NRVS_MAX_PLACES, TABLES = 16, LEAST = 256 };

/* What the two recorders have. */
struct memory {
	nrvs_trace traces[2];
	uint64_t events[2][EVENTS][3];
	nrvs_atomic places[2][PLACES];
	nrvs_frame tables[2][TABLES];
	atomic_uint current; /* the recorder that records */
	nrvs_atomic updates; /* places that are given */
	atomic_int is_cut;
	atomic_uint most;    /* events, above which no worker begins anything */
};

static struct memory *memory;
static uint32_t under_way; /* events that all workers together may have under way */

static nrvs_trace *trace(void) { return &memory->traces[memory->current]; }

static void must(nrvs_status status, const char *what)
{
	if (status != NRVS_OK)
		stop("%s: %s", what, nrvs_status_text(status));
}

void record_begin(unsigned workers, uint32_t events, uint32_t reserve)
{
	memory = mmap(NULL, sizeof(*memory), PROT_READ | PROT_WRITE, MAP_SHARED | MAP_ANONYMOUS, -1, 0);
	if (memory == MAP_FAILED)
		stop("no memory for the recorders");
	under_way = reserve;
	if (reserve + LEAST > events)
		stop("%u events are too few for so many threads: --events %u", events, reserve + LEAST);
	record_limit(events);
	for (unsigned k = 0; k < 2; k++) {
		const nrvs_config config = {
			.levels = 4, .replicas = 1, .threads = (uint16_t)(workers * LANES), .tables = 4096,
			.events = memory->events[k], .event_room = events, .log = memory->places[k], .log_room = events / 2,
			.frames = memory->tables[k], .frame_room = TABLES,
		};

		must(nrvs_begin_chain(&memory->traces[k], &config), "a recorder");
	}
}

void record_start(uint64_t root, nrvs_lend lend) { must(nrvs_start(trace(), root, lend, NULL), "the start of a chain"); }

void record_limit(uint32_t events) { memory->most = events > under_way + LEAST ? events - under_way : LEAST; }

int record_has_room(void) { return !memory->is_cut && nrvs_load(&trace()->stamps) < memory->most; }

uint32_t record_events(void) { return nrvs_events(trace()); }

void record_cut_now(void)
{
	if (memory)
		memory->is_cut = 1;
}

unsigned change_call(struct change *change, nrvs_request request, nrvs_answer answer)
{
	const unsigned lane = change->count++;

	if (lane >= LANES)
		stop("a change of more than %d updates", LANES);
	must(nrvs_call(trace(), 0, change->worker * LANES + lane, request, &change->calls[lane]), "a call");
	change->answers[lane] = answer;
	return lane;
}

static void answer(struct change *change)
{
	/* the counter is an nrvs_atomic, so that the places of one change follow one another */
	const uint32_t first = atomic_fetch_add(&memory->updates, change->count);

	for (unsigned k = 0; k < change->count; k++)
		must(nrvs_place(trace(), first + k, change->calls[k]), "a place");
	for (unsigned k = 0; k < change->count; k++)
		must(nrvs_reply(trace(), change->calls[k], first + k, change->answers[k]), "a reply");
	change->is_answered = 1;
}

void change_called(struct change *change)
{
	if (options.slip == EARLY_REPLY)
		answer(change);
}

void change_done(struct change *change)
{
	if (!change->is_answered)
		answer(change);
}

uint32_t touch_begin(unsigned worker, unsigned lane, uint64_t address, nrvs_act act)
{
	uint32_t call;

	must(nrvs_call(trace(), 0, worker * LANES + lane, nrvs_touch(address, NRVS_USER_MODE, act), &call), "a touch");
	return call;
}

void touch_end(uint32_t call, nrvs_answer answered) { must(nrvs_reply(trace(), call, 0, answered), "a touch's reply"); }

void record_switch(uint64_t root, nrvs_lend lend)
{
	const unsigned next = !memory->current;

	must(nrvs_next(trace(), &memory->traces[next]), "the next segment");
	must(nrvs_start(&memory->traces[next], root, lend, NULL), "the start of a segment");
	memory->updates = 0;
	memory->current = next;
}

int record_write(nrvs_write write, void *context)
{
	const nrvs_status status = nrvs_finish(&memory->traces[!memory->current], write, context);

	if (status != NRVS_OK && status != NRVS_WRITE_FAILED)
		must(status, "a segment");
	return status != NRVS_OK;
}

uint64_t record_most_bytes(void) { return (uint64_t)options.events * 26 + TABLES * 4104 + 4096; }
