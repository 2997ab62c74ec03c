/*
 * A page table under one mutex, recorded: as a trace, or as a chain that is cut while requests go on. What it takes to record
 * a page table is in the lines of record.c that are marked `trace`, and what it takes to cut in those marked `chain`.
 */
#ifndef RECORD_H
#define RECORD_H

#include "page_table.h"
#include "tlb.h"

/* A thread, with the last translation that it was answered, and the number of updates before that. */
struct worker {
	unsigned thread, requests;
	uint64_t random;
	int has_resolved, has_cached, lets_other_in, is_slow;
	unsigned step; /* of the closing requests */
	uint32_t cached_at;
	uint64_t cached_address;
	nrvs_answer cached;
	struct tlb tlb;
};

struct settings {
	unsigned threads, touching;   /* what makes random requests; what makes touches */
	unsigned requests;            /* of each thread in a segment */
	unsigned tables;
	unsigned segments;            /* 0: a trace */
	unsigned starts, dumps;       /* each so manieth segment has a start, or a dump; 0: none has */
	int is_filled;                /* the page table isn't empty at first */
	int is_late;                  /* no TLB is flushed where rights are added */
	uint64_t seed;
};

extern struct settings settings;
extern struct worker *workers;
extern unsigned worker_count;
extern struct page_table table;

/* The last words of the program, with status 2. */
_Noreturn void stop(const char *what);

/* Begins the recording, with room for so many calls in a segment; the page table is as it is. */
void record_begin(uint32_t calls);
/* After the last request: writes what is left. */
void record_end(void);

/* A request by a worker, in whichever segment comes. */
void request(struct worker *worker, nrvs_request asked);
/* The next segment begins, while no request is under way. */
void cut(struct worker *worker);

/* Others may run here. */
void let_other_in(struct worker *worker);
/* A page that no other request has, for those at a cut. */
nrvs_request map_at_cut(void);

#endif
