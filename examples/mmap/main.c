/*
 * What the kernel promises by mmap, munmap, mprotect, mremap and madvise, tested from user space: threads change pages of a window of this
 * process, and others access them; nrvs judges the recording.
 */
#define _GNU_SOURCE
#include "accesses.h"
#include "frames.h"
#include "judge.h"
#include "operations.h"
#include "options.h"
#include "others.h"
#include "pace.h"
#include "random.h"

#include <errno.h>
#include <inttypes.h>
#include <sched.h>
#include <signal.h>
#include <stdio.h>
#include <stdlib.h>
#include <string.h>
#include <sys/prctl.h>
#include <sys/time.h>
#include <sys/utsname.h>
#include <sys/wait.h>
#include <time.h>
#include <unistd.h>

enum { MOST_WORKERS = 64, SHORT = 4096, SHORTEST = 256 }; /* events of short segments, beside those that may be under way */

static struct worker workers[MOST_WORKERS];
static pthread_barrier_t gate;      /* of all workers and the main thread: before and after each segment */
static uint64_t segment;            /* that is recorded */
static atomic_int is_over;          /* no segment comes any more */
static volatile sig_atomic_t is_asked_to_end;

static void on_end(int signal_number)
{
	(void)signal_number;
	is_asked_to_end = 1;
	record_cut_now();
}

static void on_refusal(int signal_number, siginfo_t *info, void *context)
{
	(void)signal_number;
	(void)context;
	stop("a seccomp filter refuses system call %d", info->si_syscall);
}

/* Some segments are recorded with each thread on a processor of its own, some as the kernel likes. */
static void choose_processor(const struct worker *worker)
{
	const long processors = sysconf(_SC_NPROCESSORS_CONF);
	const int is_pinned = options.pinned >= 0 ? options.pinned : (int)(segment / 2 % 2);
	cpu_set_t set;

	CPU_ZERO(&set);
	for (unsigned p = 0; p < (unsigned)processors && p < CPU_SETSIZE; p++)
		if (!is_pinned || p == worker->id % (unsigned)processors)
			CPU_SET(p, &set);
	/* where that is refused, it runs where it runs */
	(void)sched_setaffinity(0, sizeof(set), &set);
}

static int work(void *argument)
{
	struct worker *worker = argument;

	for (;;) {
		pthread_barrier_wait(&gate);
		if (is_over)
			return 0;
		choose_processor(worker);
		worker->only_reads = !worker->is_changer && draw(&worker->random, 3) == 0;
		while (record_has_room()) {
			if (!worker->is_changer) {
				touch_some(worker);
				continue;
			}
			operation_some(worker);
			for (uint64_t k = draw(&worker->random, 3); k > 0 && record_has_room(); k--)
				touch_slot(worker, worker->last);
		}
		pthread_barrier_wait(&gate);
	}
}

/* The last thread is a process of its own, that shares the window. */
static void *run_worker(void *argument)
{
	const struct worker *worker = argument;
	int why = 0;

	if (options_want("process") && worker->id > 0 && worker->id + 1 == options.threads)
		why = run_as_process(work, argument);
	else
		work(argument);
	if (why) {
		printf("left out: a process that shares the window: %s\n", strerror(why));
		work(argument);
	}
	return NULL;
}

static void read_line(void)
{
	char byte = 0;

	while (byte != '\n' && read(STDIN_FILENO, &byte, 1) == 1)
		;
}

static void *end_at_a_line(void *nothing)
{
	read_line();
	on_end(0);
	return nothing;
}

/* The first line begins the recording, and the next one ends it. */
static void wait_for_a_line(void)
{
	pthread_t ends;

	printf("READY\n");
	fflush(stdout);
	read_line();
	if (pthread_create(&ends, NULL, end_at_a_line, NULL) != 0)
		stop("no thread");
}

static void start_workers(pthread_t *threads)
{
	sigset_t ends;

	sigemptyset(&ends);
	sigaddset(&ends, SIGALRM);
	sigaddset(&ends, SIGINT);
	sigaddset(&ends, SIGTERM);
	pthread_sigmask(SIG_BLOCK, &ends, NULL);
	pthread_barrier_init(&gate, NULL, options.threads + 1);
	for (unsigned k = 0; k < options.threads; k++) {
		workers[k].id = k;
		workers[k].is_changer = k < options.changers;
		workers[k].random = options.seed * 0x10001 + k;
		if (pthread_create(&threads[k], NULL, run_worker, &workers[k]) != 0)
			stop("no thread %u", k);
	}
	pthread_sigmask(SIG_UNBLOCK, &ends, NULL);
}

/* Records segments, and writes each while the next one is recorded, until the end or until the auditor takes no more. */
static void record_segments(void)
{
	uint32_t events = 0; /* of the segment that is written */
	int has_failed = 0;

	record_limit(pace_events(0));
	for (;;) {
		pthread_barrier_wait(&gate);
		/* the workers record this segment, while the one before it is written */
		if (segment > 0) {
			judge_segment(events);
			has_failed = record_write(judge_take, NULL);
			if (has_failed)
				record_cut_now();
		}
		pthread_barrier_wait(&gate);
		if (has_failed)
			break;
		events = record_events();
		pace_recorded(events);
		record_switch(window_tables(), window_lend);
		segment++;
		const uint32_t next = pace_events(judge_judged());
		record_limit(next);
		if (is_asked_to_end || (options.segments && segment >= options.segments) || next == 0) {
			judge_segment(events);
			record_write(judge_take, NULL);
			break;
		}
	}
	is_over = 1;
	pthread_barrier_wait(&gate);
}

/* ---- what it says ---- */

static void print_operations(void)
{
	for (unsigned k = 0; operation(k); k++)
		printf("%-16s %s\n", operation(k)->name, operation(k)->call);
	printf("%-16s %s\n", "reclaim", "32K to memory.reclaim of its cgroup, as root (for --only)");
	printf("%-16s %s\n", "process", "clone, CLONE_VM: one of the threads is a process of its own");
	printf("%-16s %s\n", "no-rights", "pages of PROT_NONE (for --without)");
	printf("%-16s %s\n", "execution", "pages of PROT_EXEC (for --without)");
	printf("%-16s %s\n", "shared", "mappings of MAP_SHARED (for --without)");
	printf("%-16s %s\n", "private", "private mappings of a file (for --without)");
	printf("%-16s %s\n", "fetches", "accesses that execute (for --without)");
}

static void print_system(void)
{
	struct utsname system;

	if (uname(&system) == 0)
		printf("%s %s, %ld processors; %u threads, of which %u change pages; seed %" PRIu64 "\n", system.sysname, system.release,
		       sysconf(_SC_NPROCESSORS_ONLN), options.threads, options.changers, options.seed);
}

static void print_counts(double seconds)
{
	uint64_t touches = 0, faults = 0, overlaps = 0, calls = 0;

	for (unsigned w = 0; w < options.threads; w++) {
		touches += workers[w].touches;
		faults += workers[w].faults;
		overlaps += workers[w].overlaps;
		for (unsigned k = 0; operation(k); k++)
			calls += workers[w].made[k];
	}
	printf("%.1f s, %" PRIu64 " segments: %" PRIu64 " calls, %" PRIu64 " touches, %" PRIu64 " of them faults, %" PRIu64
	       " of a page that was being changed\n", seconds, segment, calls, touches, faults, overlaps);
	printf("calls:");
	for (unsigned k = 0; operation(k); k++) {
		uint64_t made = 0;

		for (unsigned w = 0; w < options.threads; w++)
			made += workers[w].made[k];
		printf(" %s %" PRIu64 "%s", operation(k)->name, made, operation(k + 1) ? "," : "\n");
	}
	for (unsigned k = 0; operation(k); k++)
		if (operation_refused(k))
			printf("left out: %s, %s: %s\n", operation(k)->name, operation(k)->call, operation_refused(k));
	if (!regions[HUGE].is_there)
		printf("left out: pages of 2 MiB: %s\n", files.missing_huge);
}

/* ---- all of it ---- */

static void handle(int signal_number, void (*handler)(int))
{
	struct sigaction action;

	memset(&action, 0, sizeof(action));
	action.sa_handler = handler;
	action.sa_flags = SA_RESTART;
	sigaction(signal_number, &action, NULL);
}

static void handle_refusals(void)
{
	struct sigaction action;

	memset(&action, 0, sizeof(action));
	action.sa_sigaction = on_refusal;
	action.sa_flags = SA_SIGINFO;
	sigaction(SIGSYS, &action, NULL);
}

static void set_end(void)
{
	const time_t whole = (time_t)options.seconds;
	const struct itimerval end = { .it_value = { whole, (suseconds_t)((options.seconds - (double)whole) * 1e6) } };

	handle(SIGALRM, on_end);
	handle(SIGINT, on_end);
	handle(SIGTERM, on_end);
	if (options.seconds > 0)
		setitimer(ITIMER_REAL, &end, NULL);
}

/* The whole run, in a process of its own: the status to end with. */
static int record_and_judge(void)
{
	static pthread_t threads[MOST_WORKERS];
	const uint32_t reserve = options.threads * (2 * LANES + 16) + others_reserve();
	const uint32_t least = reserve + SHORT < options.events ? reserve + SHORT : options.events;
	double begin;

	handle_refusals();
	frames_begin();
	judge_begin(least > reserve + SHORTEST ? least - reserve : SHORTEST);
	operations_begin();
	window_begin(files.huge >= 0);
	if (!accesses_begin(WINDOW, WINDOW_END))
		printf("left out: the trap's error code, which signals don't have here; si_code alone is judged\n");
	/* one more worker: the child of a fork */
	record_begin(options.threads + 1, options.events, reserve);
	watched_begin();
	record_start(window_tables(), window_lend);
	print_system();
	fflush(stdout);
	start_workers(threads);
	/* what is reclaimed are the pages of the window, and not the recorders */
	if (options_weight("reclaim", 0) > 0 && mlockall(MCL_CURRENT) != 0)
		stop("mlockall: %s", strerror(errno));
	if (options.waits)
		wait_for_a_line();
	set_end();
	begin = pace_now();
	pace_begin(options.seconds > 0 && !options.write ? begin + options.seconds : 0, least, options.events);
	judge_until(options.seconds > 0 ? begin + options.seconds + 1 : 0);
	record_segments();
	for (unsigned k = 0; k < options.threads; k++)
		pthread_join(threads[k], NULL);
	print_counts(pace_now() - begin);
	return judge_end();
}

int main(int count, char **words)
{
	pid_t child;
	int status = 0;

	options_read(count, words);
	operations_choose();
	if (options.list) {
		print_operations();
		return 0;
	}
	child = fork();
	if (child == 0) {
		/* whoever ends the parent gets the verdict on what there is */
		prctl(PR_SET_PDEATHSIG, SIGTERM);
		status = record_and_judge();
		fflush(stdout);
		return status;
	}
	signal(SIGINT, SIG_IGN);
	while (child > 0 && waitpid(child, &status, 0) < 0 && errno == EINTR)
		;
	if (child < 0)
		stop("fork: %s", strerror(errno));
	if (WIFSIGNALED(status) && WTERMSIG(status) == SIGSYS)
		stop("ended by SIGSYS: a seccomp filter refuses a system call that this needs");
	if (WIFSIGNALED(status))
		found("ended by signal %d (%s)", WTERMSIG(status), strsignal(WTERMSIG(status)));
	return WEXITSTATUS(status);
}
