/* A page table under a mutex that records itself. The numbers are the six steps of docs/RECORDING.md.
   cc -std=c11 -O2 -pthread -I recorders -o minimal examples/minimal/minimal.c && ./minimal | nrvs audit */
#include <pthread.h>
#include <stdio.h>
#include <stdlib.h>
#include "nrvs_trace.h"

enum { THREADS = 4, REQUESTS = 1000, TABLES = 16, RIGHTS = NRVS_WRITE | NRVS_USER };

static uint64_t tables[TABLES][512]; /* table n lies at physical n * 4096; the root is table 0 */
static uint32_t tables_used = 1, updates;
static pthread_mutex_t lock = PTHREAD_MUTEX_INITIALIZER;

/* 1. memory for the trace */
static nrvs_trace trace;
static uint64_t events[2 * THREADS * REQUESTS][3];
static nrvs_atomic places[THREADS * REQUESTS];
static nrvs_frame frames[TABLES];

static void must(nrvs_status status) { if (status != NRVS_OK) exit(2); }

/* The entry of the page of 4 KiB at the address. Links tables on the way. */
static uint64_t *entry(uint64_t address)
{
	uint64_t *table = tables[0];
	for (int shift = 39; shift > 12; shift -= 9) {
		uint64_t *link = &table[address >> shift & 511];
		if (!(*link & 1))
			*link = (uint64_t)tables_used++ << 12 | 7;
		table = tables[*link >> 12];
	}
	return &table[address >> 12 & 511];
}

static void request(unsigned thread, unsigned random)
{
	uint64_t address = 0x400000 + (random & 7) * 0x201000, phys = (uint64_t)random << 12;
	int maps = random & 8, unmaps = !maps && random & 16;
	uint32_t call, at;
	must(nrvs_call(&trace, 0, thread, maps ? nrvs_map(address, NRVS_4K, phys, RIGHTS) : unmaps ? nrvs_unmap(address) : nrvs_resolve(address),
	               &call)); /* 3. the first stamp, before the work */
	pthread_mutex_lock(&lock);
	uint64_t *word = entry(address), found = *word & 0xffffffffff000;
	nrvs_answer answer = maps ? *word ? nrvs_overlap(address) : nrvs_done() : !*word ? nrvs_not_mapped()
	                     : unmaps ? nrvs_removed(found, NRVS_4K, RIGHTS) : nrvs_mapped(found, NRVS_4K, RIGHTS);
	*word = maps && !*word ? phys | 7 | 1ull << 63 : unmaps ? 0 : *word;
	at = updates;
	if (maps || unmaps)
		must(nrvs_place(&trace, updates++, call)); /* 4. an update's place, under the lock */
	pthread_mutex_unlock(&lock);
	must(nrvs_reply(&trace, call, at, answer)); /* 5. the second stamp, after the work */
}

static void *work(void *thread)
{
	unsigned random = *(unsigned *)thread;
	for (int count = 0; count < REQUESTS; count++)
		request(*(unsigned *)thread, (random = random * 1664525 + 1013904223) >> 8);
	return 0;
}

static int lend(void *context, uint64_t number, const uint64_t **words) { (void)context; *words = tables[number]; return 0; }
static int put(void *file, const uint8_t *bytes, uint32_t length) { return fwrite(bytes, 1, length, file) != length; }

int main(void)
{
	/* 2. begin, while nothing is mapped */
	nrvs_config config = { .levels = 4, .replicas = 1, .threads = THREADS, .tables = 4096, .events = events, .event_room = 2 * THREADS * REQUESTS,
	                       .log = places, .log_room = THREADS * REQUESTS, .frames = frames, .frame_room = TABLES };
	unsigned numbers[THREADS] = { 0, 1, 2, 3 };
	pthread_t threads[THREADS];
	must(nrvs_begin(&trace, &config));
	for (unsigned n = 0; n < THREADS; n++)
		must(pthread_create(&threads[n], 0, work, &numbers[n]) ? NRVS_BAD_CONFIG : NRVS_OK);
	for (unsigned n = 0; n < THREADS; n++) pthread_join(threads[n], 0);
	/* 6. dump the tables, and write */
	must(nrvs_dump(&trace, 0, updates, 0, lend, 0));
	must(nrvs_finish(&trace, put, stdout));
	return fflush(stdout) != 0;
}
