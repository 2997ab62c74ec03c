/* A process that is stopped for good, at each kind of operation, before it and after it. The others, over the same memory, go on until they
 * are 16 entries ahead of its node. Then that node is named, and reads on other nodes still end. Where the process goes on, all calls end.
 */
#define _GNU_SOURCE
#include <nrvs_nodes.h>
#include <pthread.h>
#include <sched.h>
#include <signal.h>
#include <stdio.h>
#include <stdlib.h>
#include <string.h>
#include <sys/mman.h>
#include <sys/wait.h>
#include <time.h>
#include <unistd.h>

/* Node 0 is the one whose process is stopped; those of 1 and 2 append, that of 3 reads. */
enum { NODES = 4, READER = 3, MORE = 40, LOG = 1 << 16, KINDS = 12, ENOUGH = 20 };

static const char *const kinds[KINDS] = {
	"a load of the head", "a load of a local tail", "a store of a first word", "a store of a second word", "an exchange",
	"a load of a first word", "a load of a second word", "a store of its local tail", "an entry to apply",
	"a store of what is done", "a load of what is completed", "a maximum of what is completed",
};

/* A node: its lock and machine, and the entries that it applied. */
struct home {
	pthread_mutex_t lock;
	struct nrvs_node machine;
	uint64_t log[LOG];
};

/* What the processes share: how often in turn node 0 was named to a process, how many calls it has ended, and whether it is over. */
struct all {
	struct nrvs_log_words words;
	struct nrvs_node_words nodes[NODES];
	struct home home[NODES];
	_Atomic uint64_t named[NODES], ended[NODES], over[NODES];
	_Atomic bool stopped, wrong;
};

static struct all *all;
static unsigned me, kind;
static bool after;
static pid_t process[NODES];

static void fail(const char *why)
{
	fprintf(stderr, "failed: %s, %s %s\n", why, after ? "after" : "before", kinds[kind]);
	for (unsigned n = 0; n < NODES; n++)
		if (process[n] > 0)
			kill(process[n], SIGKILL);
	if (me < NODES)
		all->wrong = true;
	_exit(1);
}

static struct nrvs_node_reply apply(void *context, const struct nrvs_node_update *entry)
{
	struct home *home = context;
	uint64_t place = nrvs_node_at(&home->machine);

	if (place >= LOG)
		fail("more entries than updates");
	home->log[place] = entry->first;
	return (struct nrvs_node_reply){ place, entry->first };
}

static void lags(void *context, uint64_t other)
{
	struct home *home = &all->home[other];

	(void)context;
	all->named[me] = other == 0 ? all->named[me] + 1 : 0;
	if (pthread_mutex_trylock(&home->lock) != 0) {
		nanosleep(&(struct timespec){ 0, 20000 }, NULL);
		return;
	}
	if (nrvs_node_sync(&home->machine, UINT64_MAX) >= NRVS_NODE_REFUSED ||
	    nrvs_node_run(&home->machine, &all->words, all->nodes, apply, lags, home) != NRVS_NODE_DONE)
		fail("a node that lagged is broken");
	pthread_mutex_unlock(&home->lock);
}

/* Which kind of operation a node asks for. */
static unsigned kind_of(const struct nrvs_node_asked *asked)
{
	static const unsigned loads[] = { 0, 10, 1, KINDS, 5, 6 }, stores[] = { KINDS, KINDS, 7, 9, 2, 3 };

	switch (asked->code) {
	case NRVS_NODE_LOAD:
		return loads[asked->word];
	case NRVS_NODE_STORE:
		return stores[asked->word];
	case NRVS_NODE_EXCHANGE:
		return 4;
	case NRVS_NODE_MAX:
		return 11;
	default:
		return asked->code == NRVS_NODE_APPLY ? 8 : KINDS;
	}
}

static void stop(void)
{
	all->stopped = true;
	raise(SIGSTOP);
}

/* The header's loop, which stops once at the kind of operation that is asked for. */
static uint32_t run_and_stop(struct home *home, bool stops)
{
	uint32_t code = home->machine.asked.code;

	while (code != NRVS_NODE_DONE && code != NRVS_NODE_BROKEN) {
		struct nrvs_node_asked asked = home->machine.asked;
		bool here = stops && kind_of(&asked) == kind && !all->stopped;
		struct nrvs_node_reply reply;
		uint64_t was = 0;

		if (here && !after)
			stop();
		if (code == NRVS_NODE_APPLY)
			reply = apply(home, &asked.entry);
		else if (code == NRVS_NODE_LAGS)
			lags(home, asked.node);
		else
			was = nrvs_carry_out(nrvs_word_of(&all->words, all->nodes, &asked), &asked);
		if (here && after)
			stop();
		code = code == NRVS_NODE_APPLY ? nrvs_node_applied(&home->machine, &reply) : nrvs_node_told(&home->machine, was);
	}
	return code;
}

static void update(uint64_t name, bool stops)
{
	struct home *home = &all->home[me];
	const struct nrvs_node_update what = { name, 1 };

	pthread_mutex_lock(&home->lock);
	if (nrvs_node_update(&home->machine, &what, 1) >= NRVS_NODE_REFUSED || run_and_stop(home, stops) != NRVS_NODE_DONE)
		fail("an update doesn't end");
	if (home->machine.reply_count != 1 || home->machine.replies[0].second != name || home->log[home->machine.replies[0].first] != name)
		fail("another update was replied to");
	pthread_mutex_unlock(&home->lock);
}

static void read_node(void)
{
	struct home *home = &all->home[me];
	uint64_t completed = atomic_load(&all->words.completed);

	pthread_mutex_lock(&home->lock);
	if (nrvs_node_sync(&home->machine, completed) >= NRVS_NODE_REFUSED ||
	    nrvs_node_run(&home->machine, &all->words, all->nodes, apply, lags, home) != NRVS_NODE_DONE)
		fail("a read doesn't end");
	if (nrvs_node_at(&home->machine) < completed)
		fail("a read sees less than was completed");
	pthread_mutex_unlock(&home->lock);
}

/* The work of a process: some calls more, once one is stopped. */
static void work(void)
{
	unsigned left = MORE;

	for (uint64_t i = 0; me == READER ? !all->over[1] || !all->over[2] : left > 0; i++) {
		left -= all->stopped;
		if (me == READER)
			read_node();
		else
			update(LOG * (me + 1) + i, me == 0 && i > 3);
		if (me == READER || (me != 0 && !all->stopped))
			nanosleep(&(struct timespec){ 0, 50000 }, NULL);
		all->ended[me]++;
	}
	all->over[me] = 1;
	_exit(0);
}

/* Waits, for minutes at the most. */
static void wait_until(bool (*holds)(void), const char *why)
{
	for (unsigned i = 0; i < 200000 && !holds() && !all->wrong; i++)
		nanosleep(&(struct timespec){ 0, 1000000 }, NULL);
	if (!holds() || all->wrong)
		fail(why);
}

static bool is_stopped(void)
{
	return all->stopped;
}

static bool are_held_up(void)
{
	return all->named[1] > ENOUGH && all->named[2] > ENOUGH;
}

static uint64_t read_before;

static bool reads_go_on(void)
{
	return all->ended[READER] > read_before + ENOUGH;
}

static bool are_over(void)
{
	return all->over[0] && all->over[1] && all->over[2] && all->over[READER];
}

static void begin(void)
{
	pthread_mutexattr_t of_all;

	memset(all, 0, sizeof *all);
	pthread_mutexattr_init(&of_all);
	pthread_mutexattr_setpshared(&of_all, PTHREAD_PROCESS_SHARED);
	for (unsigned n = 0; n < NODES; n++) {
		pthread_mutex_init(&all->home[n].lock, &of_all);
		if (nrvs_node_new(&all->home[n].machine, NODES, n) != NRVS_NODE_DONE)
			fail("no node");
	}
	for (unsigned n = 0; n < NODES; n++) {
		process[n] = fork();
		if (process[n] < 0)
			fail("no process");
		if (process[n] == 0) {
			memset(process, 0, sizeof process);
			me = n;
			work();
		}
	}
}

/* All nodes have the same log, as far as they have applied it. */
static void check_logs(void)
{
	for (unsigned n = 1; n < NODES; n++) {
		const uint64_t one = nrvs_node_at(&all->home[0].machine), two = nrvs_node_at(&all->home[n].machine);

		if (memcmp(all->home[0].log, all->home[n].log, (one < two ? one : two) * sizeof *all->home[0].log) != 0)
			fail("a node has another log");
	}
}

/* The process is stopped, for good or until all others are held up. */
static void try_it(bool for_good)
{
	int status;

	begin();
	wait_until(is_stopped, "this operation doesn't come up");
	if (waitpid(process[0], &status, WUNTRACED) != process[0] || !WIFSTOPPED(status))
		fail("it doesn't stop");
	wait_until(are_held_up, "the others aren't held up by that node, or another is named");
	if (atomic_load(&all->words.head) / 128 != atomic_load(&all->nodes[0].local) + NRVS_NODE_RING)
		fail("the others are held up before they are a ring ahead");
	read_before = all->ended[READER];
	wait_until(reads_go_on, "reads are held up");
	if (for_good) {
		for (unsigned n = 0; n < NODES; n++)
			kill(process[n], SIGKILL);
	} else {
		kill(process[0], SIGCONT);
		wait_until(are_over, "not all calls end");
	}
	for (unsigned n = 0; n < NODES; n++)
		waitpid(process[n], NULL, 0);
	check_logs();
	memset(process, 0, sizeof process);
}

int main(void)
{
	me = NODES;
	all = mmap(NULL, sizeof *all, PROT_READ | PROT_WRITE, MAP_SHARED | MAP_ANONYMOUS, -1, 0);
	if (all == MAP_FAILED)
		return 2;
	for (kind = 0; kind < KINDS; kind++) {
		for (after = false;; after = true) {
			try_it(true);
			try_it(false);
			if (after)
				break;
		}
	}
	printf("%d kinds of operations\n", KINDS);
	return 0;
}
