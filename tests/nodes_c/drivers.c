/* The header's loop and its reads, as C, as C++, and as Linux has its atomics: threads add numbers on several nodes, each of which keeps
 * the sum. A reply is the sum at its place, and a read sees each number whose call was over before. drivers THREADS NODES CALLS */
#ifndef __cplusplus
#define _POSIX_C_SOURCE 200809L
#endif
#include <nrvs_nodes.h>
#include <pthread.h>
#include <sched.h>
#include <stdint.h>
#include <stdio.h>
#include <stdlib.h>

enum { MOST_THREADS = 64 };

/* A node: its lock, its machine, and the sum of the numbers that it has applied. */
struct home {
	pthread_mutex_t lock;
	struct nrvs_node machine;
	uint64_t sum;
};

static struct nrvs_log_words words;
static struct nrvs_node_words shared[NRVS_MOST_NODES];
static struct home homes[NRVS_MOST_NODES];
static uint64_t over; /* how many calls are over */
static unsigned nodes, calls;

static void fails(const char *what)
{
	fprintf(stderr, "%s\n", what);
	exit(1);
}

static struct nrvs_node_reply apply(void *context, const struct nrvs_node_update *entry)
{
	struct home *home = (struct home *)context;
	struct nrvs_node_reply reply = { 0, 0 };

	home->sum += entry->first;
	reply.first = home->sum;
	reply.second = nrvs_node_at(&home->machine);
	return reply;
}

static void lags(void *context, uint64_t other)
{
	struct home *home = &homes[other];

	(void)context;
	if (pthread_mutex_trylock(&home->lock) != 0) {
		sched_yield();
		return;
	}
	if (nrvs_read_ready(&home->machine, UINT64_MAX, &words, shared, apply, lags, home) != NRVS_NODE_DONE)
		fails("a node that lags doesn't sync");
	pthread_mutex_unlock(&home->lock);
}

/* Adds 1 as often as there are updates, in one call. Each is answered at its place the sum there. */
static void add(struct home *home, size_t count)
{
	struct nrvs_node_update updates[NRVS_NODE_RING];
	uint32_t code;

	for (size_t i = 0; i < count; i++)
		updates[i].first = 1, updates[i].second = 0;
	pthread_mutex_lock(&home->lock);
	code = nrvs_node_update(&home->machine, updates, count);
	if (code < NRVS_NODE_REFUSED)
		code = nrvs_node_run(&home->machine, &words, shared, apply, lags, home);
	if (code != NRVS_NODE_DONE || home->machine.reply_count != count)
		fails("an update isn't over");
	for (size_t i = 0; i < count; i++)
		if (home->machine.replies[i].first != home->machine.replies[i].second + 1)
			fails("a reply isn't the sum at its place");
	pthread_mutex_unlock(&home->lock);
	__atomic_fetch_add(&over, count, __ATOMIC_SEQ_CST);
}

static void read_sum(struct home *home)
{
	const uint64_t before = __atomic_load_n(&over, __ATOMIC_SEQ_CST), completed = nrvs_read_begin(&words);

	pthread_mutex_lock(&home->lock);
	if (nrvs_read_ready(&home->machine, completed, &words, shared, apply, lags, home) != NRVS_NODE_DONE)
		fails("a node can't be read");
	if (home->sum < before || home->sum != nrvs_node_at(&home->machine))
		fails("a read doesn't see what was over");
	pthread_mutex_unlock(&home->lock);
}

static void *work(void *context)
{
	const uintptr_t number = (uintptr_t)context;

	for (unsigned i = 0; i < calls; i++) {
		add(&homes[number % nodes], 1 + (number + i) % NRVS_NODE_RING);
		read_sum(&homes[(number + i) % nodes]);
	}
	return NULL;
}

int main(int count, char **arguments)
{
	const unsigned threads = count == 4 ? (unsigned)atoi(arguments[1]) : 0;
	pthread_t thread[MOST_THREADS];

	nodes = count == 4 ? (unsigned)atoi(arguments[2]) : 0;
	calls = count == 4 ? (unsigned)atoi(arguments[3]) : 0;
	if (threads < 1 || threads > MOST_THREADS || nodes < 1 || nodes > NRVS_MOST_NODES)
		return 2;
	for (unsigned n = 0; n < nodes; n++) {
		pthread_mutex_init(&homes[n].lock, NULL);
		if (nrvs_node_new(&homes[n].machine, nodes, n) != NRVS_NODE_DONE || (uintptr_t)&homes[n].machine % 128 != 0)
			fails("a node isn't made, or shares a line");
	}
	for (uintptr_t k = 0; k < threads; k++)
		pthread_create(&thread[k], NULL, work, (void *)k);
	for (unsigned k = 0; k < threads; k++)
		pthread_join(thread[k], NULL);
	for (unsigned n = 0; n < nodes; n++)
		read_sum(&homes[n]);
	if (!nrvs_nodes_done(shared, nodes, over - 1) || nrvs_nodes_done(shared, nodes, over) || nrvs_nodes_done(shared, 0, 0))
		fails("not all are done with all");
	printf("%llu numbers\n", (unsigned long long)over);
	return 0;
}
