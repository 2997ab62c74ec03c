/* What the recipes share: tables in memory, the memory of a trace, threads, and the six steps of docs/RECORDING.md but those of a request.
   A recipe has a `request`, and takes the name of a mistake on its command line. */
#include <pthread.h>
#include <stdio.h>
#include <stdlib.h>
#include <string.h>
#include <time.h>
#include "nrvs_trace.h"

enum { THREADS = 4, REQUESTS = 2000, TABLES = 80, RIGHTS = NRVS_WRITE | NRVS_USER };
#define ENTRY(phys) ((phys) | 7 | 1ull << 63) /* of a page with these rights */
#define PHYS(entry) ((entry) & 0xffffffffff000)

static _Atomic uint64_t tables[TABLES][512]; /* table n lies at physical n * 4096; the root is table 0 */
static unsigned tables_used = 1;
static pthread_mutex_t linking = PTHREAD_MUTEX_INITIALIZER;
static nrvs_atomic updates; /* how many there are: the next one's place */
static const char *mistake = "";

/* 1. memory for the trace */
static nrvs_trace trace;
static uint64_t events[4 * THREADS * REQUESTS][3];
static nrvs_atomic places[THREADS * REQUESTS];
static nrvs_frame frames[TABLES];

static void request(unsigned thread, unsigned count, unsigned random);
static inline int is(const char *name) { return !strcmp(mistake, name); }
static inline void must(nrvs_status status) { if (status != NRVS_OK) exit(2); }

/* Others come in between here, now and then. */
static inline void linger(unsigned random) { if (random % 4 == 0) nanosleep(&(struct timespec){ .tv_nsec = 20000 }, 0); }

/* One of eight pages, each in a table of its own, that all threads use at about the same time; later they are others. */
static inline uint64_t drawn(unsigned count, unsigned random) { return 0x400000 + (count / 32 + random % 8) * 0x200000ull; }

/* The leaf table of an address: 0 if it isn't linked, unless that is asked for. A link is stored once, and stays. */
static inline unsigned leaf(uint64_t address, int links)
{
	unsigned table = 0;
	if (links) pthread_mutex_lock(&linking);
	for (int shift = 39; shift > 12; shift -= 9) {
		_Atomic uint64_t *link = &tables[table][address >> shift & 511];
		if (links && !*link) *link = (uint64_t)tables_used++ << 12 | 7;
		table = (unsigned)(PHYS(*link) >> 12);
		if (!table) break;
	}
	if (links) pthread_mutex_unlock(&linking);
	return table;
}

static void *work(void *thread)
{
	unsigned random = *(unsigned *)thread;
	for (unsigned count = 0; count < REQUESTS; count++)
		request(*(unsigned *)thread, count, (random = random * 1664525 + 1013904223) >> 8);
	return 0;
}

static int lend(void *context, uint64_t n, const uint64_t **words) { (void)context; *words = (const uint64_t *)tables[n]; return 0; }
static int put(void *file, const uint8_t *bytes, uint32_t length) { return fwrite(bytes, 1, length, file) != length; }

/* 2. begin, while nothing is mapped; 6. dump the tables, and write */
static int record(int count, char **words, nrvs_status (*begin)(nrvs_trace *, const nrvs_config *))
{
	nrvs_config config = { .levels = 4, .replicas = 1, .threads = 2 * THREADS, .tables = 4096, .events = events,
	                       .event_room = 4 * THREADS * REQUESTS, .log = places, .log_room = THREADS * REQUESTS,
	                       .frames = frames, .frame_room = TABLES };
	unsigned numbers[THREADS] = { 0, 1, 2, 3 };
	pthread_t threads[THREADS];
	if (count > 1) mistake = words[1];
	must(begin(&trace, &config));
	for (unsigned n = 0; n < THREADS; n++)
		must(pthread_create(&threads[n], 0, work, &numbers[n]) ? NRVS_BAD_CONFIG : NRVS_OK);
	for (unsigned n = 0; n < THREADS; n++) pthread_join(threads[n], 0);
	must(nrvs_dump(&trace, 0, updates, 0, lend, 0));
	must(nrvs_finish(&trace, put, stdout));
	return fflush(stdout) != 0;
}
