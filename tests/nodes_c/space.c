/* An address space on several nodes: each has a page table of nrvs.h in frames of its own, and changes all tables through one log. Threads
 * map, unmap and protect drawn pages, and translate addresses; the run is recorded, and its trace written to standard output.
 * space THREADS NODES CALLS SEED [SLIP]: a mistake that the trace must show, and that is met at the end at the latest. It is no-sync, a read
 * that takes its node as it is; twice, the last node applies each eighth entry twice, and an unmap of its own; or lost, it does not apply
 * the last entry.
 * space drawn SEED: 2 to 64 threads on 1 to 8 nodes, on 1 to all of the processors. Threads stop for a moment while they apply entries, and
 * after they have loaded what is completed. A trace has four tables at most: node n is its replica n % 4. The first four nodes are
 * dumped, and each other one has to answer as they do. Status 3 after ten minutes.
 */
#define _GNU_SOURCE
#include <nrvs.h>
#include <nrvs_nodes.h>
#include <nrvs_trace.h>
#include <pthread.h>
#include <sched.h>
#include <signal.h>
#include <stdio.h>
#include <stdlib.h>
#include <string.h>
#include <time.h>
#include <unistd.h>

enum { MOST_THREADS = 64, MOST_BATCH = 3, MOST_NODES = 8, FRAMES = 13, LEVELS = 4, EVENTS = NRVS_MAX_EVENTS, PLACES = NRVS_MAX_PLACES };
enum { KEPT = 0x1000, OWN = 0x2000, NAMES = NRVS_MAX_THREADS };

/* A node: its lock and machine, and its page table. */
struct home {
	pthread_mutex_t lock;
	struct nrvs_node machine;
	struct nrvs_table table;
	struct nrvs_words frames[FRAMES];
	struct nrvs_mark marks[FRAMES];
	uint64_t drawn; /* whether whoever has it stops for a moment */
};

static struct nrvs_log_words words;
static struct nrvs_node_words shared[MOST_NODES];
static struct home homes[MOST_NODES];
static unsigned threads, nodes, calls, batch = MOST_BATCH;
static uint64_t seed;
static bool pauses;
static const char *slip = "";

static nrvs_trace trace;
static uint64_t events[EVENTS][3];
static nrvs_atomic places[PLACES];
static nrvs_frame dumped[NRVS_MAX_REPLICAS * FRAMES];

static void fail(const char *why)
{
	fprintf(stderr, "failed: %s\n", why);
	exit(2);
}

static void recorded(nrvs_status status)
{
	if (status != NRVS_RECORDED)
		fail(nrvs_status_text(status));
}

static uint64_t draw(uint64_t *drawn, uint64_t below)
{
	*drawn = *drawn * 6364136223846793005 + 1442695040888963407;
	return (*drawn >> 33) % below;
}

/* Stops for a moment now and then: another thread runs, or none for some microseconds. */
static void pause_now_and_then(uint64_t *drawn)
{
	uint64_t what = pauses ? draw(drawn, 64) : 64;

	if (what < 4)
		sched_yield();
	else if (what == 4)
		nanosleep(&(struct timespec){ 0, (long)draw(drawn, 100000) }, NULL);
}

/* ---- an update in two words, as docs/FORMATS.md has them, and its answer with its place in two ---- */

static struct nrvs_node_update packed(nrvs_request it, uint64_t call)
{
	return (struct nrvs_node_update){ it.address + it.kind + 4u * it.size + 16u * it.rights, it.phys / 4096 + (call << 39) };
}

static nrvs_request unpacked(const struct nrvs_node_update *entry)
{
	return (nrvs_request){ entry->first & 3, entry->first >> 2 & 3, entry->first >> 4 & 7, entry->first & ~(uint64_t)0xfff,
			       (entry->second & (((uint64_t)1 << 39) - 1)) * 4096 };
}

static struct nrvs_node_reply packed_answer(const struct nrvs_reply *it, uint64_t place)
{
	return (struct nrvs_node_reply){ it->code + ((uint64_t)it->size << 8) + ((uint64_t)it->rights << 16) + (place << 24), it->number };
}

static nrvs_answer unpacked_answer(const struct nrvs_node_reply *it)
{
	return (nrvs_answer){ it->first & 0xff, it->first >> 8 & 0xff, it->first >> 16 & 0xff, it->second };
}

/* ---- the page table of a node ---- */

static struct nrvs_reply change(struct home *it, nrvs_request what)
{
	struct nrvs_reply reply = { 0, 0, 0, 0 };
	uint32_t status;

	if (what.kind == NRVS_KIND_MAP)
		status = nrvs_table_map(&it->table, it->frames, FRAMES, it->marks, FRAMES, what.address, what.size, what.phys, what.rights,
					&reply);
	else if (what.kind == NRVS_KIND_UNMAP)
		status = nrvs_table_unmap(&it->table, it->frames, FRAMES, it->marks, FRAMES, what.address, &reply);
	else
		status = nrvs_table_protect(&it->table, it->frames, FRAMES, it->marks, FRAMES, what.address, what.rights, &reply);
	if (status != 0)
		fail("an update is refused");
	return reply;
}

static struct nrvs_reply look(const struct home *it, nrvs_request what)
{
	struct nrvs_reply reply = { 0, 0, 0, 0 };
	uint32_t status;

	if (what.kind == NRVS_KIND_RESOLVE)
		status = nrvs_table_resolve(&it->table, it->frames, FRAMES, it->marks, FRAMES, what.address, &reply);
	else
		status = nrvs_table_access(&it->table, it->frames, FRAMES, it->marks, FRAMES, what.address, what.rights, what.size, &reply);
	if (status != 0)
		fail("a read is refused");
	return reply;
}

/* ---- the calls of a node ---- */

static struct nrvs_node_reply apply(void *context, const struct nrvs_node_update *entry)
{
	struct home *home = context;
	uint64_t place = nrvs_node_at(&home->machine);
	const int is_last = home == &homes[nodes - 1];
	nrvs_request what = unpacked(entry);
	struct nrvs_reply reply = { 0, 0, 0, 0 };

	pause_now_and_then(&home->drawn);
	if (!(is_last && strcmp(slip, "lost") == 0 && what.kind == NRVS_KIND_UNMAP && what.address == KEPT))
		reply = change(home, what);
	if (is_last && strcmp(slip, "twice") == 0 && (place % 8 == 0 || what.address == OWN))
		reply = change(home, what);
	return packed_answer(&reply, place);
}

static void lags(void *context, uint64_t other);

static void run_to_end(struct home *home, uint32_t code)
{
	if (code >= NRVS_NODE_REFUSED)
		fail("a call is refused");
	if (nrvs_node_run(&home->machine, &words, shared, apply, lags, home) != NRVS_NODE_DONE)
		fail("a node is broken");
}

static void lags(void *context, uint64_t other)
{
	struct home *home = &homes[other];

	(void)context;
	if (pthread_mutex_trylock(&home->lock) != 0) {
		sched_yield();
		return;
	}
	run_to_end(home, nrvs_node_sync(&home->machine, UINT64_MAX));
	pthread_mutex_unlock(&home->lock);
}

/* A batch: each of its updates is the call of another of the thread's names in the trace, since one name has one call open. */
static void update(unsigned thread, const nrvs_request *requests, unsigned count)
{
	const unsigned node = thread % nodes;
	struct home *home = &homes[node];
	struct nrvs_node_update updates[MOST_BATCH];
	struct nrvs_node_reply replies[MOST_BATCH];
	uint32_t call[MOST_BATCH];

	for (unsigned i = 0; i < count; i++) {
		recorded(nrvs_call(&trace, node % NRVS_MAX_REPLICAS, thread * batch + i, requests[i], &call[i]));
		updates[i] = packed(requests[i], call[i]);
	}
	pthread_mutex_lock(&home->lock);
	run_to_end(home, nrvs_node_update(&home->machine, updates, count));
	memcpy(replies, home->machine.replies, sizeof replies);
	pthread_mutex_unlock(&home->lock);
	for (unsigned i = 0; i < count; i++) {
		uint32_t place = (uint32_t)(replies[i].first >> 24);

		recorded(nrvs_place(&trace, place, call[i]));
		recorded(nrvs_reply(&trace, call[i], place, unpacked_answer(&replies[i])));
	}
}

static void read_page(unsigned node, unsigned name, nrvs_request request, uint64_t *drawn)
{
	struct home *home = &homes[node];
	struct nrvs_reply reply;
	uint64_t completed;
	uint32_t call, at;

	recorded(nrvs_call(&trace, node % NRVS_MAX_REPLICAS, name, request, &call));
	completed = atomic_load(&words.completed);
	pause_now_and_then(drawn);
	pthread_mutex_lock(&home->lock);
	if (strcmp(slip, "no-sync") != 0)
		run_to_end(home, nrvs_node_sync(&home->machine, completed));
	reply = look(home, request);
	at = (uint32_t)nrvs_node_at(&home->machine);
	pthread_mutex_unlock(&home->lock);
	recorded(nrvs_reply(&trace, call, at, (nrvs_answer){ reply.code, reply.size, reply.rights, reply.number }));
}

/* ---- drawn calls ---- */

/* Pages of 4 KiB in eight page tables, for which there are not frames enough, and of 2 MiB in their place. */
static uint64_t draw_address(uint64_t *drawn, nrvs_size size)
{
	uint64_t table = ((uint64_t)1 << 46) + (draw(drawn, 4) << 30) + (draw(drawn, 2) << 21);

	return size == NRVS_4K ? table + (draw(drawn, 4) << 12) : table;
}

static nrvs_request draw_update(uint64_t *drawn)
{
	nrvs_size size = draw(drawn, 6) == 0 ? NRVS_2M : NRVS_4K;
	uint64_t address = draw_address(drawn, size), kind = draw(drawn, 4);
	unsigned rights = (unsigned)draw(drawn, 8);

	return kind < 2 ? nrvs_map(address, size, (draw(drawn, 64) + 1) << 21, rights) :
	       kind == 2 ? nrvs_unmap(address) : nrvs_protect(address, rights);
}

static nrvs_request draw_read(uint64_t *drawn)
{
	uint64_t address = draw_address(drawn, NRVS_4K) + draw(drawn, 4096);

	return draw(drawn, 2) == 0 ? nrvs_resolve(address) :
	       nrvs_access(address, (nrvs_mode)draw(drawn, 2), (nrvs_act)draw(drawn, 3));
}

static void *work(void *context)
{
	unsigned thread = (unsigned)(uintptr_t)context;
	uint64_t drawn = (seed * MOST_THREADS + thread) * 0x9E3779B97F4A7C15 + 1;

	for (unsigned i = 0; i < calls; i++) {
		nrvs_request requests[MOST_BATCH];
		unsigned count = (unsigned)draw(&drawn, batch + 3);

		for (unsigned k = 0; k < MOST_BATCH; k++)
			requests[k] = draw_update(&drawn);
		if (count > 0 && count <= batch)
			update(thread, requests, count);
		else
			read_page(thread % nodes, thread * batch, draw_read(&drawn), &drawn);
	}
	return NULL;
}

/* ---- the run ---- */

static void begin(void)
{
	const unsigned tables = nodes < NRVS_MAX_REPLICAS ? nodes : NRVS_MAX_REPLICAS;
	nrvs_config config = { .levels = LEVELS, .replicas = (uint8_t)tables, .threads = (uint16_t)(threads * batch), .tables = FRAMES,
			       .events = events, .event_room = EVENTS, .log = places, .log_room = PLACES,
			       .frames = dumped, .frame_room = NRVS_MAX_REPLICAS * FRAMES };

	recorded(nrvs_begin(&trace, &config));
	for (unsigned n = 0; n < nodes; n++) {
		struct home *it = &homes[n];

		it->drawn = seed + n;
		pthread_mutex_init(&it->lock, NULL);
		if (nrvs_node_new(&it->machine, nodes, n) != NRVS_NODE_DONE)
			fail("no node");
		if (nrvs_table_new(&it->table, it->frames, FRAMES, it->marks, FRAMES, LEVELS, ((uint64_t)1 << 39) + 4096 * n) != 0)
			fail("no page table");
	}
}

static int lend(void *context, uint64_t number, const uint64_t **found)
{
	const struct home *it = context;
	uint64_t frame = number - it->table.base;

	*found = frame < FRAMES ? it->frames[frame].word : NULL;
	return 0;
}

static int write_some(void *context, const uint8_t *bytes, uint32_t length)
{
	return fwrite(bytes, 1, length, context) != length;
}

/* A node that isn't dumped has the same pages as the first. */
static void compare(const struct home *it)
{
	for (uint64_t at = 0; at < 64; at++) {
		const uint64_t page = ((uint64_t)1 << 46) + (at / 16 << 30) + (at / 8 % 2 << 21) + (at % 8 << 12);
		struct nrvs_reply one = look(&homes[0], nrvs_resolve(page)), two = look(it, nrvs_resolve(page));

		if (one.code != two.code || one.size != two.size || one.rights != two.rights || one.number != two.number)
			fail("a node has other pages than the first");
	}
	if (nrvs_node_at(&it->machine) != nrvs_node_at(&homes[0].machine))
		fail("a node has another number of entries than the first");
}

static void finish(void)
{
	for (unsigned n = 0; n < nodes; n++) {
		run_to_end(&homes[n], nrvs_node_sync(&homes[n].machine, UINT64_MAX));
		if (n >= NRVS_MAX_REPLICAS)
			compare(&homes[n]);
		else
			recorded(nrvs_dump(&trace, n, (uint32_t)nrvs_node_at(&homes[n].machine), homes[n].table.root, lend, &homes[n]));
	}
	recorded(nrvs_finish(&trace, write_some, stdout));
	if (fflush(stdout) != 0)
		fail("standard output");
}

/* What a run has: of its words, or drawn. */
static void draw_run(const char *word)
{
	uint64_t drawn;
	cpu_set_t processors;

	seed = strtoull(word, NULL, 10);
	drawn = seed * 0x9E3779B97F4A7C15 + 1;
	threads = 2 + (unsigned)draw(&drawn, draw(&drawn, 2) == 0 ? 7 : 63);
	nodes = 1 + (unsigned)draw(&drawn, MOST_NODES);
	batch = threads * MOST_BATCH <= NAMES ? 1 + (unsigned)draw(&drawn, MOST_BATCH) : 1;
	calls = 2 + (unsigned)draw(&drawn, 1 + 300 / threads);
	pauses = draw(&drawn, 4) != 0;
	CPU_ZERO(&processors);
	for (uint64_t i = 0, most = 1 + draw(&drawn, 4); i < most; i++)
		CPU_SET(i, &processors);
	sched_setaffinity(0, sizeof processors, &processors);
	alarm(600);
}

static void hangs(int signal)
{
	(void)signal;
	_exit(3);
}

static void read_words(int count, char **args)
{
	if (count == 3 && strcmp(args[1], "drawn") == 0) {
		signal(SIGALRM, hangs);
		draw_run(args[2]);
		return;
	}
	if (count < 5)
		fail("space THREADS NODES CALLS SEED [no-sync | twice | lost], or space drawn SEED");
	threads = (unsigned)strtoul(args[1], NULL, 10);
	nodes = (unsigned)strtoul(args[2], NULL, 10);
	calls = (unsigned)strtoul(args[3], NULL, 10);
	seed = strtoull(args[4], NULL, 10);
	slip = count > 5 ? args[5] : "";
	if (threads < 1 || threads * batch > NAMES || nodes < 1 || nodes > MOST_NODES)
		fail("1 to 8 nodes, and at most 21 threads");
}

int main(int count, char **args)
{
	pthread_t thread[MOST_THREADS];
	uint64_t drawn = 1;

	read_words(count, args);
	begin();
	update(0, (nrvs_request[]){ nrvs_map(KEPT, NRVS_4K, KEPT, NRVS_WRITE) }, 1);
	update(0, (nrvs_request[]){ nrvs_map(OWN, NRVS_4K, OWN, NRVS_WRITE) }, 1);
	for (unsigned t = 0; t < threads; t++)
		if (pthread_create(&thread[t], NULL, work, (void *)(uintptr_t)t) != 0)
			fail("no thread");
	for (unsigned t = 0; t < threads; t++)
		pthread_join(thread[t], NULL);
	if (strcmp(slip, "twice") == 0)
		update(nodes - 1, (nrvs_request[]){ nrvs_unmap(OWN) }, 1);
	/* each node reads what the first has just changed */
	update(0, (nrvs_request[]){ draw_update(&drawn) }, 1);
	for (unsigned n = 0; n < nodes; n++)
		read_page(n, 0, draw_read(&drawn), &drawn);
	update(0, (nrvs_request[]){ nrvs_unmap(KEPT) }, 1);
	finish();
	return 0;
}
