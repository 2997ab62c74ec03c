/*
 * A TLB in software: translations that a thread keeps, as those of processors, devices and guests are kept. Who changes the
 * page table has it flushed; until then it may lag.
 */
#ifndef TLB_H
#define TLB_H

#include "../../recorders/nrvs_trace.h"

#include <pthread.h>

enum { TLB_ENTRIES = 16 };

struct tlb {
	pthread_mutex_t lock;
	struct { uint64_t base, bytes, phys; unsigned rights; } entries[TLB_ENTRIES]; /* none where there are no bytes */
	unsigned next; /* the entry that is replaced next */
};

void tlb_make(struct tlb *tlb);

/* The answer to an access by an entry that is kept; 0 where there is none. An entry by which it faults is dropped. */
int tlb_find(struct tlb *tlb, uint64_t address, nrvs_mode mode, nrvs_act act, nrvs_answer *answer);

/* Keeps what a resolve of the address was answered: under the page table's lock, so that no flush of it is missed. */
void tlb_keep(struct tlb *tlb, uint64_t address, nrvs_answer found);

/* Drops each page of which an address is in this range. */
void tlb_flush(struct tlb *tlb, uint64_t base, uint64_t bytes);

/* What an access is answered where a resolve of its address was answered so. */
nrvs_answer access_answer(nrvs_answer found, nrvs_mode mode, nrvs_act act);

#endif
