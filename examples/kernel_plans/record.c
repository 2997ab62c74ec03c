#include "record.h"

#include "../kernel/machine.h"
#include "../kernel/say.h"
#include "processors.h"

enum { MOST_EVENTS = 1 << 15, FULL = 1 << 12, MOST_PLACES = 1 << 14, MOST_IN_DUMPS = 320, MOST_TABLES = 512 };

static struct chain {
	nrvs_trace trace;
	uint64_t events[MOST_EVENTS][3];
	nrvs_atomic places[MOST_PLACES];
	nrvs_frame frames[MOST_IN_DUMPS];
	int is_begun, is_sent;
	unsigned levels;
} chains[CHAINS];

static uint32_t allowed[PROCESSORS];

static void must(nrvs_status status)
{
	if (status != NRVS_RECORDED)
		stop(nrvs_status_text(status), status);
}

static const uint64_t *words_of(uint64_t frame)
{
	return (const uint64_t *)(frame * 4096); /* the kernel's addresses are physical ones */
}

/* The map of all memory, by which each frame can be reached, isn't recorded: it is the first entry of a table of level 4. */
static uint64_t table_of_all(uint64_t root, unsigned levels)
{
	return levels == 4 ? root : words_of(root)[0] >> 12 & ((UINT64_C(1) << 40) - 1);
}

static int lend(void *context, uint64_t number, const uint64_t **words)
{
	static uint64_t without_first[512];
	const uint64_t *has_all = context;
	*words = words_of(number);
	if (number != *has_all)
		return 0;
	for (unsigned i = 1; i < 512; i++)
		without_first[i] = (*words)[i];
	*words = without_first;
	return 0;
}

static int send(void *context, const uint8_t *bytes, uint32_t length)
{
	const struct chain *chain = context;
	if (chain->is_sent)
		machine_send(1 + (unsigned)(chain - chains), bytes, length);
	return 0;
}

void record_begin(unsigned which, unsigned copies, const struct nrvs_target *target, int is_sent)
{
	struct chain *chain = &chains[which];
	uint64_t has_all = table_of_all(target->root, target->levels);
	const nrvs_config config = {
		.levels = (uint8_t)target->levels, .replicas = (uint8_t)copies, .threads = 1 + MOST_THREADS, .tables = MOST_TABLES,
		.events = chain->events, .event_room = MOST_EVENTS, .log = chain->places, .log_room = MOST_PLACES,
		.frames = chain->frames, .frame_room = MOST_IN_DUMPS,
	};
	must(nrvs_begin_chain(&chain->trace, &config));
	must(nrvs_start(&chain->trace, target->root, lend, &has_all));
	chain->levels = target->levels;
	chain->is_begun = 1;
	chain->is_sent = is_sent;
}

uint32_t record_call(unsigned chain, unsigned copy, unsigned thread, nrvs_request request)
{
	uint32_t call;
	must(nrvs_call(&chains[chain].trace, copy, thread, request, &call));
	return call;
}

void record_place(unsigned chain, uint32_t place, uint32_t call)
{
	must(nrvs_place(&chains[chain].trace, place, call));
}

void record_reply(unsigned chain, uint32_t call, uint32_t at, nrvs_answer answer)
{
	must(nrvs_reply(&chains[chain].trace, call, at, answer));
}

void record_release(unsigned chain, uint64_t physical, unsigned size)
{
	record_reply(chain, record_call(chain, 0, RELEASES, nrvs_release(physical, (nrvs_size)size)), 0, nrvs_done());
}

void record_allow(unsigned number)
{
	for (unsigned k = 0; k < PROCESSORS; k++)
		__atomic_store_n(&allowed[k], number, __ATOMIC_SEQ_CST);
}

uint32_t record_touch(unsigned chain, unsigned copy, unsigned processor, uint64_t address, int write)
{
	const uint32_t left = __atomic_load_n(&allowed[processor], __ATOMIC_SEQ_CST);
	if (left == 0)
		return NRVS_NONE;
	__atomic_store_n(&allowed[processor], left - 1, __ATOMIC_SEQ_CST);
	return record_call(chain, copy, processor, nrvs_touch(address, NRVS_SUPERVISOR_MODE, write ? NRVS_WRITES : NRVS_READS));
}

void record_touched(unsigned chain, uint32_t call, nrvs_answer answer)
{
	if (call != NRVS_NONE)
		record_reply(chain, call, 0, answer);
}

int record_is_full(void)
{
	int is_full = 0;
	for (struct chain *chain = chains; chain < chains + CHAINS; chain++)
		is_full |= chain->is_begun && nrvs_events(&chain->trace) > FULL;
	return is_full;
}

void record_cut(void)
{
	for (struct chain *chain = chains; chain < chains + CHAINS; chain++) {
		if (!chain->is_begun)
			continue;
		must(nrvs_finish(&chain->trace, send, chain));
		must(nrvs_next(&chain->trace, &chain->trace));
	}
}

void record_dump(unsigned chain, unsigned copy, uint32_t applied, uint64_t root)
{
	uint64_t has_all = table_of_all(root, chains[chain].levels);
	must(nrvs_dump(&chains[chain].trace, copy, applied, root, lend, &has_all));
}

void record_end(unsigned chain)
{
	must(nrvs_finish(&chains[chain].trace, send, &chains[chain]));
}
