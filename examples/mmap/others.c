/* Another process beside the threads: one that is forked, and one that shares the window. */
#define _GNU_SOURCE
#include "others.h"
#include "accesses.h"
#include "frames.h"
#include "operations.h"
#include "options.h"
#include "random.h"
#include "updates.h"

#include <errno.h>
#include <sched.h>
#include <signal.h>
#include <stdlib.h>
#include <string.h>
#include <sys/prctl.h>
#include <sys/wait.h>
#include <unistd.h>

/*
 * The child of a fork has the pages as they were. In the trace they are at other addresses: they are mapped there by the fork, and unmapped
 * when the child has ended.
 */
#define OF_CHILD ((uint64_t)1 << 41)
enum { CHILD_TOUCHES = 160, STORES_BEHIND = 6 };

uint32_t others_reserve(void) { return 2 * CHILD_TOUCHES + 4 * SMALL_SLOTS + 8 * (STORES_BEHIND + 1); }

static void touch_as_child(unsigned worker, uint64_t *random)
{
	const struct slot *slot = &slots[draw(random, options.pages)];
	const nrvs_act act = draw_act(random);
	const uint64_t offset = act == NRVS_FETCHES ? CODE_AT : 0, address = slot->base + offset;
	const uint32_t call = touch_begin(worker, 0, address + OF_CHILD, act);
	const struct seen seen = act == NRVS_READS ? access_read(address) : act == NRVS_WRITES ? access_write(address) : access_fetch(address);

	touch_end(call, seen.fault ? nrvs_fault(seen.fault & ~FAULT) : nrvs_allowed(phys_of(seen.number) + offset));
}

/* It has a stack of its own, which isn't copied: it goes on whatever the kernel makes of the copies. */
static int be_child(void *random)
{
	uint64_t own = *(uint64_t *)random;

	prctl(PR_SET_PDEATHSIG, SIGKILL);
	for (unsigned k = 0; k < CHILD_TOUCHES; k++) {
		touch_as_child(options.threads, &own);
		if (k % 32 == 31)
			sched_yield();
	}
	return 0;
}

static pid_t fork_child(const uint64_t *random)
{
	enum { STACK = 1 << 16 };
	static char *stack;

	if (!stack)
		stack = mmap(NULL, STACK, PROT_READ | PROT_WRITE, MAP_SHARED | MAP_ANONYMOUS, -1, 0);
	if (stack == MAP_FAILED)
		stop("no memory for a stack");
	return clone(be_child, stack + STACK, SIGCHLD, (void *)(uintptr_t)random);
}

/* The slot of each page that is mapped, as it will be in the child. */
static unsigned copy_mapped(struct slot *childs, struct change *change)
{
	unsigned count = 0;

	for (unsigned k = 0; k < SMALL_SLOTS; k++) {
		if (!slots[k].is_mapped)
			continue;
		childs[count] = slots[k];
		childs[count].base += OF_CHILD;
		call_map(change, &childs[count], slots[k].number, slots[k].prot);
		count++;
	}
	return count;
}

/* The parent goes on to write what it shares with its child. */
static void store_behind(struct worker *worker)
{
	for (unsigned k = 0; k < STORES_BEHIND; k++) {
		const struct range range = range_of_slot((unsigned)draw(&worker->random, options.pages));

		range_lock(&range);
		store_to(worker, range.first);
		range_unlock(&range);
	}
}

static void wait_for(pid_t child)
{
	int status;

	while (waitpid(child, &status, 0) < 0)
		if (errno != EINTR)
			stop("waitpid: %s", strerror(errno));
	if (WIFEXITED(status) && WEXITSTATUS(status) != 0)
		_exit(WEXITSTATUS(status));
	if (WIFSIGNALED(status))
		found("the child of a fork was ended by signal %d", WTERMSIG(status));
}

static enum outcome fork_once(struct worker *worker)
{
	const struct range all = { &regions[SMALL], 0, regions[SMALL].count, regions[SMALL].base, regions[SMALL].bytes };
	struct slot childs[SMALL_SLOTS];
	struct change change;
	unsigned count;
	pid_t child;

	range_lock(&all);
	change_begin(&change, worker->id);
	count = copy_mapped(childs, &change);
	change_called(&change);
	child = fork_child(&worker->random);
	change_done(&change);
	range_unlock(&all);
	if (child < 0)
		stop("fork: %s", strerror(errno));
	store_behind(worker);
	wait_for(child);
	change_begin(&change, worker->id);
	for (unsigned k = 0; k < count; k++)
		call_unmap(&change, &childs[k]);
	change_done(&change);
	return MADE;
}

static enum outcome make_fork(struct worker *worker)
{
	static pthread_mutex_t one = PTHREAD_MUTEX_INITIALIZER;
	enum outcome outcome;

	/* it takes as long as some hundred others */
	if (options.pages == 0 || (!options.only && draw(&worker->random, 8)) || pthread_mutex_trylock(&one) != 0)
		return NOTHING;
	outcome = fork_once(worker);
	pthread_mutex_unlock(&one);
	return outcome;
}

const struct operation others[] = {
	{ "fork", "fork; the child accesses its pages", make_fork, 1 },
	{ 0 },
};

static int raise_flag(void *flag)
{
	*(volatile int *)flag = 1;
	return 0;
}

static int (*process_body)(void *);

static int be_process(void *argument)
{
	prctl(PR_SET_PDEATHSIG, SIGKILL);
	return process_body(argument);
}

static int run_in_clone(int (*body)(void *), void *argument)
{
	enum { STACK = 1 << 18 };
	char *stack = malloc(STACK);
	int status = 0;
	pid_t child;

	if (!stack)
		stop("out of memory");
	/* the thread sleeps until that process ends, so that they may share what a thread has of its own */
	process_body = body;
	child = clone(be_process, stack + STACK, CLONE_VM | CLONE_VFORK | SIGCHLD, argument);
	if (child < 0)
		return errno;
	while (waitpid(child, &status, 0) < 0 && errno == EINTR)
		;
	if (WIFSIGNALED(status))
		found("the process that shares the window was ended by signal %d", WTERMSIG(status));
	free(stack);
	return 0;
}

int run_as_process(int (*body)(void *), void *argument)
{
	volatile int flag = 0;
	const int why = run_in_clone(raise_flag, (void *)&flag);

	if (why || !flag)
		return why ? why : EOPNOTSUPP;
	return run_in_clone(body, argument);
}
