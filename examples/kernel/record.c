#include "record.h"

#include "machine.h"
#include "nrvs_trace.h"
#include "say.h"

/* A segment has the switch from the boot tables, or the rounds between two cuts. */
enum { MOST_EVENTS = 1 << 15, MOST_TABLES = 512 };

#define LARGE __attribute__((section(".bss.large")))

static nrvs_trace trace;
static uint64_t events[MOST_EVENTS][3] LARGE;
static nrvs_atomic places[MOST_EVENTS] LARGE;
static nrvs_frame frames[MOST_TABLES] LARGE;
static uint32_t updates;
static int is_listened_to;

static void must(nrvs_status status)
{
	if (status != NRVS_OK)
		stop(nrvs_status_text(status), status);
}

/* The kernel's addresses are physical ones. */
static int lend(void *context, uint64_t number, const uint64_t **words)
{
	(void)context;
	*words = (const uint64_t *)(number * 4096);
	return 0;
}

void record_begin(unsigned levels, uint64_t root, unsigned tables, int is_sent)
{
	const nrvs_config config = {
		.levels = (uint8_t)levels, .replicas = 1, .threads = 1, .tables = (uint16_t)tables,
		.events = events, .event_room = MOST_EVENTS, .log = places, .log_room = MOST_EVENTS,
		.frames = frames, .frame_room = MOST_TABLES,
	};

	must(nrvs_begin_chain(&trace, &config));
	must(nrvs_start(&trace, root, lend, 0));
	updates = 0;
	is_listened_to = is_sent;
}

uint32_t record_call(enum record_kind kind, unsigned size, unsigned rights, uint64_t address, uint64_t physical)
{
	const nrvs_request request = { (uint8_t)kind, nrvs_byte(size), nrvs_byte(rights), address, physical };
	uint32_t call;
	nrvs_status status = nrvs_call(&trace, 0, 0, request, &call);

	if (status != NRVS_BAD_EVENT)
		must(status);
	return call;
}

void record_answer(enum record_kind kind, uint32_t call, struct answer answer)
{
	const nrvs_answer told = { nrvs_byte(answer.code), nrvs_byte(answer.size), nrvs_byte(answer.rights), answer.number };
	uint32_t at = kind == RECORD_TOUCH ? 0 : updates;

	if (kind < RECORD_RESOLVE)
		must(nrvs_place(&trace, updates++, call));
	must(nrvs_reply(&trace, call, at, told));
}

static int send(void *context, const uint8_t *bytes, uint32_t length)
{
	(void)context;
	if (is_listened_to)
		machine_send(1, bytes, length);
	return 0;
}

void record_cut(void)
{
	must(nrvs_finish(&trace, send, 0));
	must(nrvs_next(&trace, &trace));
	updates = 0;
}

void record_end(uint64_t root)
{
	must(nrvs_dump(&trace, 0, updates, root, lend, 0));
	must(nrvs_finish(&trace, send, 0));
}
