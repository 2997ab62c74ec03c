/*
 * A page table under one mutex, driven by threads with random requests and recorded: the trace goes to standard output, or a
 * chain of segments.
 *
 *     cc -std=c11 -O2 -pthread -o recorded examples/recorded/[a-z]*.c
 *     ./recorded --threads 8 --seed 1 | nrvs audit
 *     ./recorded --bug lost-update | nrvs audit
 *     ./recorded --threads 8 --segments 50 | nrvs audit --chain --quiet
 */
#include "bugs.h"
#include "record.h"

#include <pthread.h>
#include <sched.h>
#include <stdatomic.h>
#include <stdio.h>
#include <stdlib.h>
#include <string.h>

enum bug chosen_bug = NO_BUG;
unsigned bug_from = 0, segment = 0;
int closing = 0;

static const char *const bug_names[BUGS] = {
	"none", "answered-twice", "reply-before-place", "stale-read", "no-shootdown", "lost-update", "swapped-updates",
	"unmap-neighbour", "freed-table", "shared-table", "unaligned-large-page", "leaked-table", "leaf-rights",
	"cached-over-cut", "early-start", "late-flush", "freed-early",
};

struct settings settings = { .threads = 4, .requests = 200, .tables = 24, .dumps = 1, .seed = 1 };
struct worker *workers;
unsigned worker_count;

void stop(const char *what)
{
	fprintf(stderr, "recorded: %s\n", what);
	exit(2);
}

/* ---- which thread may run ---- */

static pthread_mutex_t turn_lock = PTHREAD_MUTEX_INITIALIZER;
static pthread_cond_t turn_moved = PTHREAD_COND_INITIALIZER;
static unsigned turn = 0; /* the closing request that may begin */

static void set_turn(unsigned to)
{
	pthread_mutex_lock(&turn_lock);
	if (turn < to)
		turn = to;
	pthread_cond_broadcast(&turn_moved);
	pthread_mutex_unlock(&turn_lock);
}

static void wait_for_turn(unsigned to)
{
	pthread_mutex_lock(&turn_lock);
	while (turn < to)
		pthread_cond_wait(&turn_moved, &turn_lock);
	pthread_mutex_unlock(&turn_lock);
}

/* The closing request after the one under way runs whole. Among random requests, another thread may run or not. */
void let_other_in(struct worker *worker)
{
	if (!closing) {
		sched_yield();
	} else if (worker->lets_other_in) {
		set_turn(worker->step + 1);
		wait_for_turn(worker->step + 2);
	}
}

/* ---- random requests ---- */

/* splitmix64 */
static uint64_t draw(struct worker *worker, uint64_t below)
{
	uint64_t z = worker->random += 0x9e3779b97f4a7c15u;

	z = (z ^ z >> 30) * 0xbf58476d1ce4e5b9u;
	z = (z ^ z >> 27) * 0x94d049bb133111ebu;
	return (z ^ z >> 31) % below;
}

/* The linear address of those indexes, the root's first; bits 63:48 are as bit 47. */
static uint64_t address_of(uint64_t i4, uint64_t i3, uint64_t i2, uint64_t i1)
{
	return (i4 >= 256 ? ~(uint64_t)0 << 48 : 0) | i4 << 39 | i3 << 30 | i2 << 21 | i1 << 12;
}

/* Few addresses, so that requests meet: at both ends of both halves of the address space. */
static uint64_t random_address(struct worker *worker)
{
	static const uint64_t top[] = { 0, 255, 256, 511 };

	return address_of(top[draw(worker, 4)], draw(worker, 2), draw(worker, 2), draw(worker, 8));
}

static nrvs_request random_map(struct worker *worker)
{
	uint64_t of_size = draw(worker, 10);
	nrvs_size size = of_size < 7 ? NRVS_4K : of_size < 9 ? NRVS_2M : NRVS_1G;
	uint64_t bytes = (uint64_t)4096 << (9 * size);

	return nrvs_map(random_address(worker) / bytes * bytes, size, draw(worker, ((uint64_t)1 << 51) / bytes) * bytes,
			(unsigned)draw(worker, 8));
}

static nrvs_request random_request(struct worker *worker)
{
	nrvs_request map = random_map(worker);
	uint64_t kind = draw(worker, 100);

	if (kind >= 85 && worker->has_resolved)
		return nrvs_resolve(worker->cached_address);
	if (kind < 40)
		return map;
	if (kind < 60)
		return nrvs_unmap(map.address);
	if (kind < 70)
		return nrvs_protect(map.address, map.rights);
	return nrvs_resolve(map.address + draw(worker, 4096));
}

static nrvs_request random_touch(struct worker *worker)
{
	uint64_t address = random_address(worker) + draw(worker, 4096);

	return nrvs_touch(address, (nrvs_mode)draw(worker, 2), (nrvs_act)draw(worker, 3));
}

/* The threads that have not come yet: the others wait for them without sleeping, so that all begin at once and their calls overlap. */
static atomic_uint missing;

static void *work(void *argument)
{
	struct worker *worker = argument;
	const int only_touches = worker >= workers + worker_count - settings.touching;

	atomic_fetch_sub(&missing, 1);
	while (atomic_load(&missing) > 0)
		sched_yield();
	for (unsigned k = 0; k < worker->requests; k++) {
		worker->is_slow = draw(worker, 16) == 0;
		request(worker, only_touches ? random_touch(worker) : random_request(worker));
	}
	worker->is_slow = 0;
	return NULL;
}

/* ---- the closing requests ---- */

/*
 * One after the other, by threads 0 and 1 and the first that touches, at addresses that no random request has; each bug is met
 * here at the latest. Within a request marked `together` the next one runs whole, where a bug calls let_other_in.
 */
enum page {
	A, B, C, D,      /* pages of 4 KiB, next to each other; D is for the requests at a cut */
	LARGE_PAGE = 64, /* a page of 2 MiB */
	OTHER,           /* a page of 4 KiB which is the only one of its table */
};

static uint64_t base_of(enum page page)
{
	if (page == LARGE_PAGE)
		return address_of(300, 0, 1, 0);
	return page == OTHER ? address_of(300, 0, 2, 0) : address_of(300, 0, 0, page);
}

enum ask { MAP, UNMAP, PROTECT, RESOLVE, TOUCH };

static const struct step { unsigned thread, together; enum ask ask; enum page page; } steps[] = {
	{ 0, 1, MAP, B },
	{ 1, 0, UNMAP, B },
	{ 0, 0, MAP, B },
	{ 0, 0, RESOLVE, B },
	{ 1, 0, UNMAP, B },
	{ 0, 0, RESOLVE, B },
	{ 1, 0, MAP, C },
	{ 0, 0, MAP, B },
	{ 0, 0, PROTECT, A },
	{ 1, 0, UNMAP, B },
	{ 0, 0, RESOLVE, C },
	{ 0, 0, MAP, B },
	{ 1, 0, MAP, LARGE_PAGE },
	{ 1, 0, RESOLVE, LARGE_PAGE },
	{ 0, 0, UNMAP, OTHER },
	{ 1, 0, MAP, OTHER },
	{ 0, 0, RESOLVE, OTHER },
	{ 2, 0, TOUCH, B },
	{ 0, 1, UNMAP, B },
	{ 2, 0, TOUCH, B },
};
#define STEPS (sizeof(steps) / sizeof(steps[0]))

static nrvs_request step_request(const struct step *step)
{
	uint64_t address = base_of(step->page);

	switch (step->ask) {
	case MAP:
		return nrvs_map(address, step->page == LARGE_PAGE ? NRVS_2M : NRVS_4K, 0x40000000 + (address & 0x3fffffff), 7);
	case UNMAP:
		return nrvs_unmap(address);
	case PROTECT:
		return nrvs_protect(address, NRVS_WRITE);
	case TOUCH:
		return nrvs_touch(address + 0x123, NRVS_USER_MODE, NRVS_WRITES);
	default:
		return nrvs_resolve(address + 0x123);
	}
}

nrvs_request map_at_cut(void)
{
	const struct step step = { 0, 0, MAP, D };

	return step_request(&step);
}

/* The worker of a step: the first that touches comes behind the others. */
static struct worker *worker_of(const struct step *step)
{
	return step->thread < 2 ? &workers[step->thread] : &workers[worker_count - settings.touching];
}

static void *close_up(void *argument)
{
	struct worker *worker = argument;

	for (unsigned k = 0; k < STEPS; k++) {
		if (steps[k].ask == TOUCH && settings.touching == 0) {
			wait_for_turn(k);
			set_turn(k + 1);
			continue;
		}
		if (worker_of(&steps[k]) != worker)
			continue;
		wait_for_turn(k);
		worker->step = k;
		worker->lets_other_in = steps[k].together != 0;
		request(worker, step_request(&steps[k]));
		set_turn(k + 1);
	}
	return NULL;
}

/* ---- all of it ---- */

/* These two run the body, and the last workers, as many as touch. */
static void run(void *(*body)(void *), unsigned threads, unsigned touching)
{
	pthread_t started[64];
	unsigned count = threads + touching;

	atomic_store(&missing, count);
	for (unsigned t = 0; t < count; t++) {
		struct worker *worker = t < threads ? &workers[t] : &workers[worker_count - settings.touching + t - threads];

		if (pthread_create(&started[t], NULL, body, worker) != 0)
			stop("no thread");
	}
	for (unsigned t = 0; t < count; t++)
		pthread_join(started[t], NULL);
}

static void make_workers(void)
{
	unsigned segments = settings.segments ? settings.segments : 1;

	worker_count = (settings.threads < 2 ? 2 : settings.threads) + settings.touching;
	workers = calloc(worker_count, sizeof(*workers));
	if (!workers)
		stop("out of memory");
	for (unsigned t = 0; t < worker_count; t++) {
		workers[t].thread = t;
		workers[t].requests = settings.requests * segments;
		workers[t].random = settings.seed * 64 + t;
		tlb_make(&workers[t].tlb);
	}
}

/* The pages whose tables the closing requests use, without rights; and others, where recording begins with a filled table. */
static void fill(void)
{
	const nrvs_request a = nrvs_map(base_of(A), NRVS_4K, 0x1000, 0), other = nrvs_map(base_of(OTHER), NRVS_4K, 0x2000, 0);
	struct worker filler = { .random = ~settings.seed };

	page_table_map(&table, a.address, NRVS_4K, a.phys, 0);
	page_table_map(&table, other.address, NRVS_4K, other.phys, 0);
	for (unsigned k = 0; k < 40; k++) {
		nrvs_request map = random_map(&filler);

		page_table_map(&table, map.address, (nrvs_size)map.size, map.phys, map.rights);
	}
}

static void usage(void)
{
	fprintf(stderr, "recorded [--threads 1..8] [--requests N] [--seed N] [--tables 8..%u] [--bug NAME] >TRACE\n"
		"recorded .. [--segments N] [--start] [--starts N] [--dumps N] [--touching 1..8] [--late] [--from K] >CHAIN\n"
		"N requests a thread, and of a chain a segment; a start or dump each N segments; --start: begins with pages;\n"
		"--touching: threads that access through TLBs; --late: no flush where rights are added;\n"
		"--from: the segment with which the bug begins\n"
		"bugs:", FRAME_ROOM);
	for (unsigned k = 0; k < BUGS; k++)
		fprintf(stderr, " %s", bug_names[k]);
	fprintf(stderr, "\n");
	exit(2);
}

static uint64_t number(const char *word, uint64_t least, uint64_t most)
{
	char *end;
	uint64_t value = strtoull(word, &end, 10);

	if (*word < '0' || *word > '9' || *end || value < least || value > most)
		usage();
	return value;
}

static enum bug named_bug(const char *word)
{
	for (unsigned k = 0; k < BUGS; k++)
		if (!strcmp(word, bug_names[k]))
			return (enum bug)k;
	usage();
	return NO_BUG;
}

static void take(const char *name, const char *word)
{
	if (!strcmp(name, "--threads"))
		settings.threads = (unsigned)number(word, 1, 8);
	else if (!strcmp(name, "--requests"))
		settings.requests = (unsigned)number(word, 0, 65536);
	else if (!strcmp(name, "--seed"))
		settings.seed = number(word, 0, UINT64_MAX);
	else if (!strcmp(name, "--tables"))
		settings.tables = (unsigned)number(word, 8, FRAME_ROOM);
	else if (!strcmp(name, "--bug"))
		chosen_bug = named_bug(word);
	else if (!strcmp(name, "--segments"))
		settings.segments = (unsigned)number(word, 1, 1000000);
	else if (!strcmp(name, "--starts"))
		settings.starts = (unsigned)number(word, 1, 1000000);
	else if (!strcmp(name, "--dumps"))
		settings.dumps = (unsigned)number(word, 0, 1000000);
	else if (!strcmp(name, "--touching"))
		settings.touching = (unsigned)number(word, 1, 8);
	else if (!strcmp(name, "--from"))
		bug_from = (unsigned)number(word, 0, 1000000);
	else
		usage();
}

int main(int count, char **words)
{
	for (int k = 1; k < count; k++) {
		if (!strcmp(words[k], "--start"))
			settings.is_filled = 1;
		else if (!strcmp(words[k], "--late"))
			settings.is_late = 1;
		else if (k + 1 == count)
			usage();
		else
			take(words[k], words[k + 1]), k++;
	}
	if (settings.segments == 0 && (settings.is_filled || settings.starts || settings.touching))
		settings.segments = 1;
	if (!page_table_make(&table, settings.tables))
		stop("out of memory");
	make_workers();
	if (settings.is_filled)
		fill();
	record_begin((settings.threads + settings.touching) * settings.requests + (uint32_t)STEPS + 6);
	if (!settings.is_filled) {
		request(&workers[0], nrvs_map(base_of(A), NRVS_4K, 0x1000, 0));
		request(&workers[0], nrvs_map(base_of(OTHER), NRVS_4K, 0x2000, 0));
	}
	run(work, settings.threads, settings.touching);
	while (segment + 1 < settings.segments)
		cut(&workers[0]);
	closing = 1;
	run(close_up, 2, settings.touching ? 1 : 0);
	record_end();
	page_table_drop(&table);
	free(workers);
	return 0;
}
