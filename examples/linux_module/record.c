#include "record.h"

#include <linux/io.h>
#include <linux/percpu.h>
#include <linux/string.h>
#include <linux/threads.h>
#include <linux/vmalloc.h>

#include "processors.h"
#include "slots.h"
#include "space.h"

enum { MOST_EVENTS = 1 << 16, MOST_PLACES = 1 << 15, MOST_FRAMES = 192, MOST_TABLES = 512, MOST_PROCESSORS = 64 };
enum { RELEASES = 1 + MOST_PROCESSORS + PARTS };

static struct {
	nrvs_trace trace;
	uint64_t events[MOST_EVENTS][3];
	nrvs_atomic places[MOST_PLACES];
	nrvs_frame frames[MOST_FRAMES];
	uint64_t root[512];
	struct {
		uint32_t call;
		nrvs_answer answer;
	} open[2 * PARTS];
	uint32_t open_count, placed;
	unsigned port;
} *chain;
static DEFINE_PER_CPU(unsigned, allowed);

static void must(nrvs_status status)
{
	if (status != NRVS_RECORDED)
		panic("nrvs_space: the recorder says: %s", nrvs_status_text(status));
}

/* The lower half alone is the module's. */
static int lend(void *context, uint64_t number, const uint64_t **words)
{
	*words = space_words(number);
	if (number == space_target.root) {
		memcpy(chain->root, *words, sizeof(chain->root) / 2);
		*words = chain->root;
	}
	return 0;
}

static int send(void *context, const uint8_t *bytes, uint32_t length)
{
	if (chain->port)
		outsb(chain->port, bytes, length);
	return 0;
}

int record_begin(unsigned port)
{
	nrvs_config config = { .replicas = 1, .threads = 1 + RELEASES, .tables = MOST_TABLES, .event_room = MOST_EVENTS,
			       .log_room = MOST_PLACES, .frame_room = MOST_FRAMES };
	chain = vzalloc(sizeof(*chain));
	if (!chain)
		return -ENOMEM;
	config.levels = (uint8_t)space_target.levels;
	config.events = chain->events;
	config.log = chain->places;
	config.frames = chain->frames;
	chain->port = port;
	must(nrvs_begin_chain(&chain->trace, &config));
	must(nrvs_start(&chain->trace, space_target.root, lend, NULL));
	return 0;
}

void record_end(void)
{
	must(nrvs_dump(&chain->trace, 0, chain->placed, space_target.root, lend, NULL));
	must(nrvs_finish(&chain->trace, send, NULL));
	vfree(chain);
}

/* A thread has one call open at a time: who changes pages is thread 0, and as many more as it needs; processor k is thread 1 + k. The last
 * one is who gives memory away, which may be while updates are open.
 */
void record_update(nrvs_request request, nrvs_answer answer)
{
	const uint32_t at = chain->open_count++, thread = at == 0 ? 0 : MOST_PROCESSORS + at;
	chain->open[at].answer = answer;
	must(nrvs_call(&chain->trace, 0, thread, request, &chain->open[at].call));
	must(nrvs_place(&chain->trace, chain->placed++, chain->open[at].call));
}

void record_replies(void)
{
	for (uint32_t i = 0; i < chain->open_count; i++)
		must(nrvs_reply(&chain->trace, chain->open[i].call, chain->placed - chain->open_count + i, chain->open[i].answer));
	chain->open_count = 0;
}

void record_release(uint64_t physical, unsigned size)
{
	uint32_t call;
	must(nrvs_call(&chain->trace, 0, RELEASES, nrvs_release(physical, (nrvs_size)size), &call));
	must(nrvs_reply(&chain->trace, call, 0, nrvs_done()));
}

void record_allow(unsigned number)
{
	unsigned cpu;
	for_each_possible_cpu(cpu)
		WRITE_ONCE(per_cpu(allowed, cpu), number);
}

uint32_t record_touch(unsigned processor, uint64_t address, bool is_write)
{
	const unsigned left = __this_cpu_read(allowed);
	uint32_t call;
	if (left == 0)
		return NRVS_NONE;
	__this_cpu_write(allowed, left - 1);
	must(nrvs_call(&chain->trace, 0, 1 + processor, nrvs_touch(address, NRVS_SUPERVISOR_MODE, is_write ? NRVS_WRITES : NRVS_READS), &call));
	return call;
}

void record_touched(uint32_t call, nrvs_answer answer)
{
	if (call != NRVS_NONE)
		must(nrvs_reply(&chain->trace, call, 0, answer));
}

void record_cut(void)
{
	if (nrvs_events(&chain->trace) < MOST_EVENTS / 2)
		return;
	processors_hold();
	must(nrvs_finish(&chain->trace, send, NULL));
	must(nrvs_next(&chain->trace, &chain->trace));
	must(nrvs_start(&chain->trace, space_target.root, lend, NULL));
	chain->placed = 0;
	processors_release();
}
