/* What is recorded, by recorders/nrvs_trace.h: chains of calls and of accesses as touches. What is wrong stops all. */
#ifndef RECORD_H
#define RECORD_H

#include "nrvs_plan.h"
#include "nrvs_trace.h"

enum { CHAINS = 2, MOST_THREADS = 516, RELEASES = MOST_THREADS /* a thread of its own */ };

/* The serial ports, by which chains are sent. */
void ports_begin(void);

/* Begins a chain of so many copies of a page table, with its tables as they are, but without the map of all memory at its own address. It
 * is sent by the serial port 1 + chain, or nobody listens.
 */
void record_begin(unsigned chain, unsigned copies, const struct nrvs_target *target, int is_sent);

/* Before a call of a thread at a copy; its place; after it. */
uint32_t record_call(unsigned chain, unsigned copy, unsigned thread, nrvs_request request);
void record_place(unsigned chain, uint32_t place, uint32_t call);
void record_reply(unsigned chain, uint32_t call, uint32_t at, nrvs_answer answer);

/* Memory is given to somebody else from here on. One processor at a time says so. */
void record_release(unsigned chain, uint64_t physical, unsigned size);

/* So many accesses of each processor are recorded from here on. */
void record_allow(unsigned number);

/* Before an access of a processor: the call's number, or NRVS_NONE where it isn't recorded. After it: what came. */
uint32_t record_touch(unsigned chain, unsigned copy, unsigned processor, uint64_t address, int write);
void record_touched(unsigned chain, uint32_t call, nrvs_answer answer);

/* Whether a segment should end; all chains have their next one, which begins while no call is open. */
int record_is_full(void);
void record_cut(void);

/* At the end: a copy as its tables are, with so many updates of the last segment; then the end of a chain. */
void record_dump(unsigned chain, unsigned copy, uint32_t applied, uint64_t root);
void record_end(unsigned chain);

#endif
