#define _POSIX_C_SOURCE 200809L
#include "record.h"

#include "bugs.h"

#include <pthread.h>
#include <sched.h>
#include <stdatomic.h>
#include <stdio.h>
#include <stdlib.h>

/* What the lock guards: the page table, and how many updates it has taken in this segment. */
static pthread_mutex_t lock = PTHREAD_MUTEX_INITIALIZER;
struct page_table table;
static uint32_t updates;

/* Two segments, so that one is written while the other is recorded; a trace is the first of them. */
static nrvs_trace traces[2];
static nrvs_trace *trace = &traces[0];

/*
 * A request holds the gate for reading from before its first stamp until after its second; a cut holds it for writing, so that no
 * call is open. A request takes a ticket, and where this segment has no more of them a cut comes first: so events and places suffice.
 */
static pthread_rwlock_t gate = PTHREAD_RWLOCK_INITIALIZER;
static atomic_uint tickets;
static unsigned most_tickets;

static void cut_where_full(struct worker *worker);

static void must(nrvs_status status)
{
	if (status != NRVS_OK)
		stop(nrvs_status_text(status));
}

/* ---- the requests, recorded ---- */

static nrvs_answer apply(nrvs_request request)
{
	if (request.kind == NRVS_KIND_MAP)
		return page_table_map(&table, request.address, (nrvs_size)request.size, request.phys, request.rights);
	if (request.kind == NRVS_KIND_UNMAP)
		return page_table_unmap(&table, request.address);
	return page_table_protect(&table, request.address, request.rights);
}

/* How many bytes the page has that is there; those of a small one where none is. */
static uint64_t page_bytes(uint64_t address)
{
	return (uint64_t)4096 << (9 * page_table_resolve(&table, address).size);
}

/*
 * No TLB keeps the page any more that was there before the update, at none of its addresses, nor what was there before that page. A map
 * takes nothing away, so it flushes nothing: the flush of what was there may still be under way on another thread, whose answer says when
 * that is over.
 */
static void flush(nrvs_request request, uint64_t bytes)
{
	if (request.kind == NRVS_KIND_MAP)
		return;
	for (unsigned k = 0; k < worker_count; k++)
		tlb_flush(&workers[k].tlb, request.address, bytes);
}

/* Some requests wait a little after their first stamp, so that calls overlap where there are few processors too. */
static void begin_work(struct worker *worker)
{
	if (worker->is_slow)
		sched_yield();
}

/* Rights were added to a page, and nothing was taken away: a processor that kept the old ones faults by them, and walks again. */
static int adds_rights(nrvs_request request, nrvs_answer answer)
{
	return request.kind == NRVS_KIND_PROTECT && answer.code == nrvs_changed(0).code && (answer.rights & ~request.rights) == 0;
}

/*
 * The memory of the page is somebody else's from here on. The closing requests release what they had mapped, since no other
 * page has that memory. It is recorded on a thread of its own: that of the worker may have its call open.
 */
static void give_back(nrvs_request request, nrvs_answer answer)
{
	uint32_t call;

	if (!closing || settings.segments == 0 || request.kind != NRVS_KIND_UNMAP || answer.code != nrvs_removed(0, NRVS_4K, 0).code)
		return;
	must(nrvs_call(trace, 0, worker_count, nrvs_release(answer.value, (nrvs_size)answer.size), &call)); /* chain */
	must(nrvs_reply(trace, call, 0, nrvs_done()));             /* chain */
}

static void update(struct worker *worker, nrvs_request request)
{
	uint32_t call, at;
	uint64_t bytes;
	nrvs_answer answer;

	must(nrvs_call(trace, 0, worker->thread, request, &call)); /* trace */
	begin_work(worker);
	pthread_mutex_lock(&lock);
	bytes = page_bytes(request.address);
	answer = apply(request);
	if (bug(REPLY_BEFORE_PLACE, 1, 0) || bug(SWAPPED_UPDATES, 1, 0)) {
		at = updates;
		pthread_mutex_unlock(&lock);
		if (chosen_bug == REPLY_BEFORE_PLACE)
			must(nrvs_reply(trace, call, at, answer));
		let_other_in(worker);
		pthread_mutex_lock(&lock);
	}
	at = updates++;
	must(nrvs_place(trace, at, call));                         /* trace */
	pthread_mutex_unlock(&lock);
	if (bug(LATE_FLUSH, 1, 0)) {
		must(nrvs_reply(trace, call, at, answer));
		let_other_in(worker);
		flush(request, bytes);
		return;
	}
	if (bug(FREED_EARLY, 1, 0))
		give_back(request, answer);
	if (!settings.is_late || !adds_rights(request, answer))
		flush(request, bytes);
	if (!bug(REPLY_BEFORE_PLACE, 1, 0))
		must(nrvs_reply(trace, call, at, answer));         /* trace */
	if (chosen_bug != FREED_EARLY)
		give_back(request, answer);
	if (bug(ANSWERED_TWICE, 16, at))
		must(nrvs_reply(trace, call, at, answer));
}

static void resolve(struct worker *worker, nrvs_request request)
{
	uint32_t call, at;
	nrvs_answer answer;
	int is_cached;

	must(nrvs_call(trace, 0, worker->thread, request, &call)); /* trace */
	begin_work(worker);
	is_cached = worker->has_cached && worker->cached_address == request.address;
	if (is_cached && bug(STALE_READ, 1, 0)) {
		must(nrvs_reply(trace, call, worker->cached_at, worker->cached));
		return;
	}
	pthread_mutex_lock(&lock);
	at = updates;
	/* a cached translation is good only while no update came in between */
	if (is_cached && (worker->cached_at == at || bug(NO_SHOOTDOWN, 1, 0)))
		answer = worker->cached;
	else
		answer = page_table_resolve(&table, request.address);
	pthread_mutex_unlock(&lock);
	must(nrvs_reply(trace, call, at, answer));                 /* trace */
	worker->has_resolved = worker->has_cached = 1;
	worker->cached_at = at;
	worker->cached_address = request.address;
	worker->cached = answer;
}

/* An access through the worker's TLB, which may lag; so it is recorded as a touch. */
static void touch(struct worker *worker, nrvs_request request)
{
	const nrvs_mode mode = (nrvs_mode)request.rights;
	const nrvs_act act = (nrvs_act)request.size;
	uint32_t call;
	nrvs_answer answer, found;

	must(nrvs_call(trace, 0, worker->thread, request, &call)); /* trace */
	begin_work(worker);
	if (!tlb_find(&worker->tlb, request.address, mode, act, &answer)) {
		pthread_mutex_lock(&lock);
		found = page_table_resolve(&table, request.address);
		tlb_keep(&worker->tlb, request.address, found);
		pthread_mutex_unlock(&lock);
		answer = access_answer(found, mode, act);
	}
	must(nrvs_reply(trace, call, 0, answer));                  /* trace */
}

void request(struct worker *worker, nrvs_request asked)
{
	for (;;) {
		pthread_rwlock_rdlock(&gate);                      /* chain */
		if (atomic_fetch_add(&tickets, 1) < most_tickets)
			break;
		pthread_rwlock_unlock(&gate);
		cut_where_full(worker);
	}
	if (asked.kind == NRVS_KIND_RESOLVE)
		resolve(worker, asked);
	else if (asked.kind == NRVS_KIND_TOUCH)
		touch(worker, asked);
	else
		update(worker, asked);
	pthread_rwlock_unlock(&gate);                              /* chain */
}

/* ---- starts and dumps ---- */

static int lend(void *context, uint64_t number, const uint64_t **words)
{
	(void)context;
	if (number >= FIRST_FRAME && number - FIRST_FRAME < FRAME_ROOM && table.in_use[number - FIRST_FRAME])
		*words = table.memory[number - FIRST_FRAME];
	return 0;
}

static void start(void) { must(nrvs_start(trace, table.root, lend, NULL)); }

static void dump(nrvs_trace *full)
{
	must(nrvs_dump(full, 0, updates, table.root, lend, NULL));
	for (unsigned k = 0; k < FRAME_ROOM; k++)
		if (table.in_use[k])
			must(nrvs_dump_frame(full, 0, FIRST_FRAME + k, lend, NULL));
}

/* ---- the writer ---- */

static pthread_t writer;
static pthread_mutex_t writer_lock = PTHREAD_MUTEX_INITIALIZER;
static pthread_cond_t writer_moved = PTHREAD_COND_INITIALIZER;
static nrvs_trace *to_write;
static int is_last;

static int write_out(void *context, const uint8_t *bytes, uint32_t length)
{
	return fwrite(bytes, 1, length, context) != length;
}

static void write_whole(nrvs_trace *full)
{
	must(nrvs_finish(full, write_out, stdout));
	if (fflush(stdout) != 0)
		stop("write failed");
}

static void *write_segments(void *context)
{
	(void)context;
	pthread_mutex_lock(&writer_lock);
	for (;;) {
		while (!to_write && !is_last)
			pthread_cond_wait(&writer_moved, &writer_lock);
		if (!to_write)
			break;
		pthread_mutex_unlock(&writer_lock);
		write_whole(to_write);
		pthread_mutex_lock(&writer_lock);
		to_write = NULL;
		pthread_cond_broadcast(&writer_moved);
	}
	pthread_mutex_unlock(&writer_lock);
	return NULL;
}

/* The writer has nothing left to write; and then it gets this. */
static void hand_over(nrvs_trace *full, int last)
{
	pthread_mutex_lock(&writer_lock);
	while (to_write)
		pthread_cond_wait(&writer_moved, &writer_lock);
	to_write = full;
	is_last = last;
	pthread_cond_broadcast(&writer_moved);
	pthread_mutex_unlock(&writer_lock);
}

/* ---- cuts ---- */

static int is_nth(unsigned number, unsigned every) { return every != 0 && number % every == 0; }

/* `cached_at` counts the updates of this segment: what was cached after the last one is good as of the beginning of the next. */
static void renumber_cached(void)
{
	for (unsigned k = 0; k < worker_count; k++) {
		if (workers[k].cached_at != updates && !bug(CACHED_OVER_CUT, 1, 0))
			workers[k].has_cached = 0;
		workers[k].cached_at = 0;
	}
}

/*
 * No call is open. A page is mapped, used and unmapped just before the cut, and used again just behind it: there the last
 * bugs are met.
 */
static void cut_here(struct worker *worker)
{
	const nrvs_request map = map_at_cut();
	nrvs_trace *full = trace;
	const int has_dump = is_nth(segment, settings.dumps), has_start = is_nth(segment + 1, settings.starts);
	const int changes_late = has_start && chosen_bug == EARLY_START && segment + 1 >= bug_from;

	update(worker, map);
	resolve(worker, nrvs_resolve(map.address));
	if (!changes_late)
		update(worker, nrvs_unmap(map.address));
	segment++;
	hand_over(NULL, 0);                                        /* chain: the other one is written */
	trace = full == &traces[0] ? &traces[1] : &traces[0];      /* chain */
	must(nrvs_next(full, trace));                              /* chain */
	if (has_start)
		start();                                           /* chain */
	if (changes_late) {
		nrvs_trace *next = trace;

		trace = full;
		update(worker, nrvs_unmap(map.address));
		trace = next;
	}
	if (has_dump)
		dump(full);                                        /* chain */
	renumber_cached();
	updates = 0;                                               /* chain */
	hand_over(full, 0);                                        /* chain */
	resolve(worker, nrvs_resolve(map.address));
}

static unsigned tickets_of_segment(void) { return (settings.threads + settings.touching) * settings.requests; }

void cut(struct worker *worker)
{
	cut_here(worker);
	most_tickets = segment + 1 == settings.segments ? UINT32_MAX : tickets_of_segment();
	atomic_store(&tickets, 0);
}

/* The first thread that gets here cuts; for the others there is a new segment. */
static void cut_where_full(struct worker *worker)
{
	pthread_rwlock_wrlock(&gate);                              /* chain */
	if (atomic_load(&tickets) >= most_tickets)
		cut(worker);
	pthread_rwlock_unlock(&gate);                              /* chain */
}

/* ---- all of it ---- */

static void begin_one(nrvs_trace *it, uint32_t calls)
{
	nrvs_config config = {
		.levels = 4, .replicas = 1, .threads = (uint16_t)(worker_count + (settings.segments > 0)), .tables = (uint16_t)settings.tables,
		.event_room = 2 * calls + calls / 8 + 16, .log_room = calls, .frame_room = 2 * settings.tables,
	};

	if (chosen_bug == LEAKED_TABLE)
		config.frame_room = 2 * FRAME_ROOM;
	if (config.event_room > NRVS_MAX_EVENTS || calls > NRVS_MAX_PLACES)
		stop("more requests than a trace has room for");
	config.events = calloc(config.event_room, sizeof(*config.events));
	config.log = calloc(config.log_room, sizeof(*config.log));
	config.frames = calloc(config.frame_room, sizeof(*config.frames));
	if (!config.events || !config.log || !config.frames)
		stop("out of memory");
	must(settings.segments ? nrvs_begin_chain(it, &config) : nrvs_begin(it, &config));
}

void record_begin(uint32_t calls)
{
	begin_one(&traces[0], calls);
	most_tickets = UINT32_MAX;
	if (settings.segments == 0)
		return;
	begin_one(&traces[1], calls);
	if (settings.is_filled)
		start();
	if (settings.segments > 1)
		most_tickets = tickets_of_segment() + 2; /* two requests come before the random ones */
	if (pthread_create(&writer, NULL, write_segments, NULL) != 0)
		stop("no thread");
}

void record_end(void)
{
	dump(trace);
	if (settings.segments == 0) {
		write_whole(trace);
	} else {
		hand_over(trace, 1);
		pthread_join(writer, NULL);
	}
	for (unsigned k = 0; k < (settings.segments ? 2 : 1); k++) {
		free(traces[k].config.events);
		free(traces[k].config.log);
		free(traces[k].config.frames);
	}
}
