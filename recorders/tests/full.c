/*
 * Eight threads fill a small buffer of events at the same time, many times over: each of its events is drawn once, and nothing is
 * written after the last one. Ends with 0 where that holds.
 */
#include "../nrvs_trace.h"

#include <pthread.h>
#include <sched.h>
#include <stdio.h>

enum { THREADS = 8, ROOM = 9, ROUNDS = 100, AFTER = 32 };

static nrvs_trace trace;
static uint64_t events[ROOM + AFTER][3];
static nrvs_atomic drawn[ROOM + AFTER], waiting;

static void *fill(void *argument)
{
	unsigned thread = *(unsigned *)argument;
	uint32_t call;

	nrvs_add(&waiting);
	while (nrvs_load(&waiting) < THREADS)
		sched_yield();
	while (nrvs_call(&trace, 0, thread, nrvs_resolve(thread), &call) == NRVS_OK)
		nrvs_add(&drawn[call]);
	return NULL;
}

static int is_right(void)
{
	int fine = 1;

	for (unsigned k = 0; k < ROOM + AFTER; k++) {
		fine &= nrvs_load(&drawn[k]) == (k < ROOM);
		fine &= (events[k][0] == NRVS_NO_EVENT) == (k >= ROOM);
		nrvs_store(&drawn[k], 0);
	}
	return fine;
}

int main(void)
{
	nrvs_config config = { .levels = 4, .replicas = 1, .threads = THREADS, .tables = 1, .events = events, .event_room = ROOM };
	unsigned numbers[THREADS];

	for (unsigned k = 0; k < ROOM + AFTER; k++)
		events[k][0] = NRVS_NO_EVENT;
	for (unsigned round = 0; round < ROUNDS; round++) {
		pthread_t threads[THREADS];

		nrvs_store(&waiting, 0);
		if (nrvs_begin(&trace, &config) != NRVS_OK)
			return 2;
		for (unsigned t = 0; t < THREADS; t++) {
			numbers[t] = t;
			if (pthread_create(&threads[t], NULL, fill, &numbers[t]) != 0)
				return 2;
		}
		for (unsigned t = 0; t < THREADS; t++)
			pthread_join(threads[t], NULL);
		if (!is_right()) {
			printf("round %u\n", round);
			return 1;
		}
	}
	return 0;
}
