/* Threads on several nodes that append updates and read, beside a log that each node keeps of what it applied.
 * threads THREADS NODES CALLS [READS]: of each four calls, so many read, 1 if none is said */
#define _POSIX_C_SOURCE 200809L
#include <nrvs_nodes.h>
#include <pthread.h>
#include <sched.h>
#include <stdio.h>
#include <stdlib.h>
#include <string.h>

_Static_assert(sizeof(struct nrvs_node) == 8 * (8 + 2 + 2 * NRVS_NODE_RING + 86), "the struct has room for the library's");

enum { MOST_THREADS = 64, MOST_BATCH = 3 };

/* One call: when it began and ended, its first place and how many updates it has; or what a read saw. */
struct call {
	uint64_t began, ended, place, reach;
	bool reads;
};

/* A node: its lock, machine, and the entries that it applied. */
struct home {
	pthread_mutex_t lock;
	struct nrvs_node machine;
	struct nrvs_node_update *log;
};

static struct nrvs_log_words words;
static struct nrvs_node_words shared[NRVS_MOST_NODES];
static struct home homes[NRVS_MOST_NODES];
static _Atomic uint64_t clock_now;
static uint64_t threads, nodes, calls, reads, most;
static struct call *made[MOST_THREADS];

static void fail(const char *why)
{
	fprintf(stderr, "failed: %s\n", why);
	exit(1);
}

static struct nrvs_node_reply apply(void *context, const struct nrvs_node_update *entry)
{
	struct home *home = context;
	uint64_t place = home->machine.applied;

	if (place >= most)
		fail("more entries than updates");
	home->log[place] = *entry;
	return (struct nrvs_node_reply){ place, entry->first };
}

static void lags(void *context, uint64_t other)
{
	struct home *home = &homes[other];

	(void)context;
	if (pthread_mutex_trylock(&home->lock) != 0) {
		sched_yield();
		return;
	}
	if (nrvs_node_sync(&home->machine, UINT64_MAX) < NRVS_NODE_REFUSED &&
	    nrvs_node_run(&home->machine, &words, shared, apply, lags, home) != NRVS_NODE_DONE)
		fail("a node that lagged is broken");
	pthread_mutex_unlock(&home->lock);
}

static void update(struct home *home, struct call *call, uint64_t name, uint64_t count)
{
	struct nrvs_node_update updates[MOST_BATCH];

	for (uint64_t i = 0; i < count; i++)
		updates[i] = (struct nrvs_node_update){ name, i };
	pthread_mutex_lock(&home->lock);
	if (nrvs_node_update(&home->machine, updates, count) >= NRVS_NODE_REFUSED)
		fail("an update is refused");
	if (nrvs_node_run(&home->machine, &words, shared, apply, lags, home) != NRVS_NODE_DONE)
		fail("a node is broken");
	if (home->machine.reply_count != count)
		fail("another number of replies");
	for (uint64_t i = 0; i < count; i++)
		if (home->machine.replies[i].second != name || home->machine.replies[i].first != home->machine.replies[0].first + i)
			fail("another update was replied to");
	call->place = home->machine.replies[0].first;
	call->reach = call->place + count;
	pthread_mutex_unlock(&home->lock);
}

static void read_at(struct home *home, struct call *call)
{
	uint64_t completed = atomic_load(&words.completed);

	pthread_mutex_lock(&home->lock);
	if (nrvs_node_sync(&home->machine, completed) >= NRVS_NODE_REFUSED)
		fail("a sync is refused");
	if (nrvs_node_run(&home->machine, &words, shared, apply, lags, home) != NRVS_NODE_DONE)
		fail("a node is broken");
	if (nrvs_node_at(&home->machine) < completed)
		fail("a read sees less than was completed");
	call->place = call->reach = nrvs_node_at(&home->machine);
	pthread_mutex_unlock(&home->lock);
}

static void *work(void *context)
{
	uint64_t thread = (uint64_t)(uintptr_t)context, drawn = thread * 0x9E3779B97F4A7C15 + 1;
	struct home *home = &homes[thread % nodes];

	for (uint64_t i = 0; i < calls; i++) {
		struct call *call = &made[thread][i];

		drawn = drawn * 6364136223846793005 + 1442695040888963407;
		call->reads = (drawn >> 33) % 4 < reads;
		call->began = atomic_fetch_add(&clock_now, 1);
		if (call->reads)
			read_at(home, call);
		else
			update(home, call, thread * calls + i, 1 + (drawn >> 40) % MOST_BATCH);
		call->ended = atomic_fetch_add(&clock_now, 1);
	}
	return NULL;
}

/* Each update is at its places in the log, all nodes have the same log, and it is as long as there are updates. */
static void check_logs(void)
{
	uint64_t total = 0;

	for (uint64_t t = 0; t < threads; t++)
		for (uint64_t i = 0; i < calls; i++) {
			struct call *call = &made[t][i];

			total += call->reach - call->place;
			for (uint64_t p = call->place; p < call->reach; p++)
				if (homes[0].log[p].first != t * calls + i || homes[0].log[p].second != p - call->place)
					fail("an update isn't at its place");
		}
	for (uint64_t n = 0; n < nodes; n++) {
		if (nrvs_node_at(&homes[n].machine) != total)
			fail("a node has another number of entries");
		if (memcmp(homes[n].log, homes[0].log, total * sizeof *homes[0].log) != 0)
			fail("a node has another log");
	}
	if (total > 0 && (!nrvs_nodes_done(shared, nodes, total - 1) || nrvs_nodes_done(shared, nodes, total)))
		fail("not all nodes are done");
}

/* Of calls in the order in which they began, none has its position below the reach of one that ended before. */
static int by_begin(const void *a, const void *b)
{
	const struct call *x = *(struct call *const *)a, *y = *(struct call *const *)b;

	return x->began < y->began ? -1 : x->began > y->began;
}

static int by_end(const void *a, const void *b)
{
	const struct call *x = *(struct call *const *)a, *y = *(struct call *const *)b;

	return x->ended < y->ended ? -1 : x->ended > y->ended;
}

static void check_precedence(void)
{
	uint64_t total = threads * calls, next = 0, reached = 0;
	struct call **begun = malloc(total * sizeof *begun), **ended = malloc(total * sizeof *ended);

	for (uint64_t t = 0; t < threads; t++)
		for (uint64_t i = 0; i < calls; i++)
			begun[t * calls + i] = ended[t * calls + i] = &made[t][i];
	qsort(begun, total, sizeof *begun, by_begin);
	qsort(ended, total, sizeof *ended, by_end);
	for (uint64_t i = 0; i < total; i++) {
		for (; next < total && ended[next]->ended < begun[i]->began; next++)
			if (ended[next]->reach > reached)
				reached = ended[next]->reach;
		if (begun[i]->place < reached)
			fail("a call comes before one that ended before it began");
	}
	free(begun);
	free(ended);
}

int main(int count, char **args)
{
	pthread_t thread[MOST_THREADS];

	threads = count > 1 ? strtoull(args[1], NULL, 10) : 4;
	nodes = count > 2 ? strtoull(args[2], NULL, 10) : 2;
	calls = count > 3 ? strtoull(args[3], NULL, 10) : 1000;
	reads = count > 4 ? strtoull(args[4], NULL, 10) : 1;
	if (threads > MOST_THREADS || nodes > NRVS_MOST_NODES)
		fail("too many");
	most = threads * calls * MOST_BATCH;
	for (uint64_t n = 0; n < nodes; n++) {
		pthread_mutex_init(&homes[n].lock, NULL);
		homes[n].log = calloc(most, sizeof *homes[n].log);
		if (nrvs_node_new(&homes[n].machine, nodes, n) != NRVS_NODE_DONE)
			fail("no node");
	}
	for (uint64_t t = 0; t < threads; t++) {
		made[t] = calloc(calls, sizeof *made[t]);
		if (pthread_create(&thread[t], NULL, work, (void *)(uintptr_t)t) != 0)
			fail("no thread");
	}
	for (uint64_t t = 0; t < threads; t++)
		pthread_join(thread[t], NULL);
	for (uint64_t n = 0; n < nodes; n++) {
		if (nrvs_node_sync(&homes[n].machine, UINT64_MAX) >= NRVS_NODE_REFUSED ||
		    nrvs_node_run(&homes[n].machine, &words, shared, apply, lags, &homes[n]) != NRVS_NODE_DONE)
			fail("a node is broken in the end");
	}
	check_logs();
	check_precedence();
	printf("%llu entries\n", (unsigned long long)(atomic_load(&words.head) / 128));
	return 0;
}
