/*
 * The recording: a chain of segments, by two recorders in turn. One is written while the other one records. Their memory is shared
 * with the processes that are forked.
 */
#ifndef RECORD_H
#define RECORD_H

#include "nrvs_trace.h"

/* Updates that a worker may have under way at once. Each is a call of a thread of its own: worker * LANES and on. */
enum { LANES = 80 };

/* Some updates that one call of the kernel makes, all open until it has returned. */
struct change {
	unsigned worker, count;
	int is_answered;
	uint32_t calls[LANES];
	nrvs_answer answers[LANES];
};

/* Begins the chain: so many workers, events of a segment, and events that all of them together may have under way. */
void record_begin(unsigned workers, uint32_t events, uint32_t reserve);

/* The first segment begins with the pages that `lend` shows as page tables. */
void record_start(uint64_t root, nrvs_lend lend);

/* Whether this segment has room for a worker's next change or touch; not where it has to end. */
int record_has_room(void);
/* The next segment has so many events at most, at least so many that each worker can do something. How many this one has. */
void record_limit(uint32_t events);
uint32_t record_events(void);
/* Each segment ends as soon as it can. May be called by a handler of signals. */
void record_cut_now(void);

static inline void change_begin(struct change *change, unsigned worker)
{
	change->worker = worker;
	change->count = 0;
	change->is_answered = 0;
}
/* An update is called; the answer that it will have. Its index in the change. */
unsigned change_call(struct change *change, nrvs_request request, nrvs_answer answer);
/* All are called: what makes them comes behind this. */
void change_called(struct change *change);
/* All are done: each gets its place, and is answered. */
void change_done(struct change *change);

/* A touch; the number of its call. `lane` is 0 but within a change. */
uint32_t touch_begin(unsigned worker, unsigned lane, uint64_t address, nrvs_act act);
void touch_end(uint32_t call, nrvs_answer answer);

/*
 * No worker is in a call: the other recorder takes over, and its segment begins with the pages that `lend` shows. The segment before it is
 * what record_write writes.
 */
void record_switch(uint64_t root, nrvs_lend lend);
/* Writes the segment that is over; 0 where that went well. */
int record_write(nrvs_write write, void *context);
/* The bytes of the greatest segment. */
uint64_t record_most_bytes(void);

#endif
